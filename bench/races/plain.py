#!/usr/bin/env python3
"""The races of a run, found plainly: bench/races/plain.py [FILE]. FILE is a text of mode record; default: the input.

It prints what mode races prints of that run. There is no clock in it: what comes before what is a graph of the run's
operations, in program order and over barriers, locks and strict accesses (docs/CONSISTENCY.md), through which a walk
goes from each operation. None of it is proved, and it takes the square of the operations and more."""
import os
import sys
from collections import defaultdict
from typing import NamedTuple

sys.path.insert(0, os.path.join(os.path.dirname(os.path.abspath(__file__)), "../../bin"))
sys.dont_write_bytecode = True
from records import Record  # noqa: E402
from runs import Failed  # noqa: E402

PLACES = 64  # of a thread's write buffer
IMPLIED = {"fence": (True, False), "notify": (True,), "unlock": (True,), "wait": (False,), "lock": (False,),
           "attempt": (False,)}  # the strict writes (True) and reads (False) that an action implies


class Operation(NamedTuple):
    """A read or a write by action `index` of a thread; `place` is empty for those that actions imply."""
    thread: int
    index: int
    write: bool
    strict: bool
    place: str

    def rank(self):
        return 2 * self.index + (not self.write)

    def name(self):
        return f"{self.thread}.{self.index}.{'w' if self.write else 'r'}"


def operations(thread, index, item):
    """The operations of an action: none where it was refused."""
    if not item.is_done() or item.kind == "attempt" and item.reply != "flag 1":
        return []
    if item.place:
        return [Operation(thread, index, item.kind == "write", not item.relaxed, item.place)]
    return [Operation(thread, index, write, True, "") for write in IMPLIED.get(item.kind, ())]


class Pending:
    """The pending relaxed writes of a thread, oldest first: by place, the last action's number, and all operations."""

    def __init__(self):
        self.writes, self.out = {}, {}

    def empty(self):
        while self.writes:
            self.oldest()

    def oldest(self):
        index, there = self.writes.pop(next(iter(self.writes)))
        self.out[index] = there

    def put(self, index, item, mine):
        if item.place in self.writes:
            _, there = self.writes[item.place]
            self.writes[item.place] = index, there + mine
            return
        if len(self.writes) == PLACES:
            self.oldest()
        self.writes[item.place] = index, mine

    def look(self, index, item, mine):
        if item.place in self.writes:
            last, there = self.writes[item.place]
            self.writes[item.place] = last, there + mine
        else:
            self.out[index] = mine


def placed(thread, strand):
    """For each number of an entry of a thread, the operations that stand in its place in the history."""
    pending = Pending()
    for index, item in enumerate(strand.items):
        mine = operations(thread, index, item)
        if item.stalled:
            pending.empty()
        if item.kind == "write" and item.relaxed:
            pending.put(index, item, mine)
        elif item.kind == "read" and item.relaxed:
            pending.look(index, item, mine)
        else:
            if item.kind != "print":
                pending.empty()
            pending.out[index] = mine
    pending.empty()
    return pending.out


def releases(record):
    """The pairs of entries, as they stand in the history, of which the first lets the second go on."""
    entries = [(thread, index, record.strands[thread].items[index]) for thread, index in record.history]
    notifies, waits = defaultdict(list), defaultdict(list)
    for thread, index, item in entries:
        if item.kind in ("notify", "wait"):
            (notifies if item.kind == "notify" else waits)[thread].append((thread, index))
    for notified in notifies.values():
        for waited in waits.values():
            yield from zip(notified, waited)
    for at, (thread, index, item) in enumerate(entries):
        for other, number, later in entries[at + 1:]:
            if lets_go(item, later):
                yield (thread, index), (other, number)


def lets_go(item, later):
    """Whether an unlock or a strict write lets this later one go on."""
    if item.kind == "unlock" and item.is_done():
        took = later.kind == "lock" and later.reply == "done" or later.kind == "attempt" and later.reply == "flag 1"
        return took and later.words[1] == item.words[1]
    return (item.kind == "write" and later.kind == "read" and not item.relaxed and not later.relaxed
            and item.place == later.place)


class Run:
    """The operations of a run, all in the order of the history, and for each one those that it comes before."""

    def __init__(self, record):
        own = [[o for index, item in enumerate(strand.items) for o in operations(thread, index, item)]
               for thread, strand in enumerate(record.strands)]
        stand = [placed(thread, strand) for thread, strand in enumerate(record.strands)]
        self.order = [o for thread, index in record.history for o in stand[thread].pop(index, ())]
        if sorted(self.order) != sorted(o for mine in own for o in mine) or any(stand):
            raise Failed("the history is not what the records give", 2)
        self.next = defaultdict(set)
        for mine in own:
            for one, other in zip(mine, mine[1:]):
                self.next[one].add(other)
        for (thread, index), (other, number) in releases(record):
            for one in operations(thread, index, record.strands[thread].items[index]):
                self.next[one].update(operations(other, number, record.strands[other].items[number]))
        self.after = {}

    def comes_before(self, one, other):
        if one not in self.after:
            seen, left = set(), [one]
            while left:
                new = self.next[left.pop()] - seen
                seen |= new
                left += new
            self.after[one] = seen
        return other in self.after[one]

    def race(self, one, other):
        return (one.thread != other.thread and one.place == other.place and (one.write or other.write)
                and not (one.strict and other.strict)
                and not self.comes_before(one, other) and not self.comes_before(other, one))

    def first_race(self, there):
        """Of the operations at a location, in the order of the history, the race that is reported."""
        for at, second in enumerate(there):
            racing = [first for first in there[:at] if self.race(first, second)]
            if racing:
                return min(racing, key=lambda first: (first.thread, -first.rank())), second
        return None

    def races(self):
        """By location, ascending, the first race there."""
        places = defaultdict(list)
        for one in self.order:
            if one.place:
                places[one.place].append(one)
        for place in sorted(places, key=lambda place: tuple(map(int, place[1:].split(".")))):
            race = self.first_race(places[place])
            if race:
                yield place, *race


def report(text):
    """What mode races prints of the run with this text."""
    lines = [f"race {place} {first.name()} {second.name()}" for place, first, second in Run(Record(text)).races()]
    return "\n".join([*lines, f"races {len(lines)}"]) + "\n"


def main():
    if len(sys.argv) > 2:
        sys.exit("usage: bench/races/plain.py [FILE]")
    try:
        with open(sys.argv[1] if sys.argv[1:] else "/dev/stdin", encoding="utf-8", newline="\n") as file:
            print(report(file.read()), end="")
    except OSError as error:
        sys.exit(f"plain.py: {error}")
    except Failed as failed:
        sys.exit(f"plain.py: {failed.line}")


if __name__ == "__main__":
    main()
