"""The text of a run, read line by line as docs/FORMATS.md has it, and written; without a line of the program."""
import re
from collections import namedtuple

Text = namedtuple("Text", "version threads budget actions strands history strict orders")
Strand = namedtuple("Strand", "items ticks end")  # an item is (action, reply), or STALL
STALL = None
MOST_ENTRIES, MOST_ITEMS = 32768, 131072
U8, U32, U64 = (1 << 8) - 1, (1 << 32) - 1, (1 << 64) - 1
PLAIN = re.compile(r"0|[1-9][0-9]*")
SIGNED = re.compile(r"0|-?[1-9][0-9]*")


class NoText(Exception):
    """These bytes are the text of no run."""


def need(is_right):
    if not is_right:
        raise NoText


def number(word, most):
    need(PLAIN.fullmatch(word))
    need(len(word) < 30 and int(word) <= most)
    return int(word)


def signed(word, bits):
    need(SIGNED.fullmatch(word) and len(word) < 50)
    need(-(1 << bits - 1) <= int(word) < 1 << bits - 1)
    return int(word)


def location(word):
    need(word[:1] == "@")
    parts = word[1:].split(".")
    need(len(parts) == 3)
    return tuple(number(part, U32) for part in parts)


def pointer(word):
    parts = word[2:].split(":")
    need(word[:2] == "p:" and len(parts) == 9)
    return ("p", tuple(number(part, U32) for part in parts[:8]) + (signed(parts[8], 64),))


def scalar(word):
    if word[:2] == "l:":
        return ("l", number(word[2:], U32))
    return pointer(word) if word[:2] == "p:" else ("i", signed(word, 128))


def mark(word):
    return word if word in ("none", "start", "finish") else signed(word, 32)


def kind(word):
    need(word in ("relaxed", "strict"))
    return word == "strict"


def printed(word):
    need(word == "-" or re.fullmatch(r"(?:[0-9a-f]{2})+", word))
    return word


def action(words):
    """An action is its name with what it asks for."""
    name, rest = words[0], words[1:]
    if name == "meet":
        need(len(rest) >= 2)
        args = tuple(scalar(word) for word in rest[2:])
        need(number(rest[1], U64) == len(args))
        return ("meet", number(rest[0], U8), args)
    shapes = {
        "read": (kind, location), "write": (kind, location, scalar), "fence": (), "beat": (), "notify": (mark,),
        "wait": (mark,), "lock": (lock,), "attempt": (lock,), "unlock": (lock,), "lockmake": (), "lockfree": (lock,),
        "alloc": (wide, wide, home, lock), "free": (pointer,), "print": (printed,), "exit": (status,)}
    need(name in shapes and len(rest) == len(shapes[name]))
    return (name, *(part(word) for part, word in zip(shapes[name], rest)))


def lock(word):
    return number(word, U32)


def wide(word):
    return number(word, U64)


def status(word):
    return signed(word, 32)


def home(word):
    return None if word == "any" else number(word, U32)


def reply(words):
    if words == ["done"]:
        return ("done",)
    need(len(words) == 2 and words[0] in ("value", "flag", "refused"))
    if words[0] == "value":
        return ("value", scalar(words[1]))
    return (words[0], number(words[1], 1 if words[0] == "flag" else U8))


def item(line):
    if line == "stall":
        return STALL
    words = line.split(" ")
    need("->" in words)
    at = words.index("->")
    need(at > 0)
    return action(words[:at]), reply(words[at + 1:])


def end(words):
    need(words)
    name, rest = words[0], words[1:]
    if name == "deadlocked":
        need(rest)
        return ("deadlocked", action(rest))
    if name == "fault":
        need(len(rest) == 2 and rest[1].count(":") == 1)
        return ("fault", number(rest[0], U8), tuple(number(part, U32) for part in rest[1].split(":")))
    if name in ("ended", "exit"):
        need(len(rest) == 1)
        return (name, status(rest[0]))
    need(name in ("budget", "full", "halted") and not rest)
    return (name,)


def operation(line):
    parts = line.split(".")
    need(len(parts) == 3 and parts[2] in ("w", "r"))
    return number(parts[0], U32), number(parts[1], U32), parts[2]


def entry(line):
    parts = line.split(".")
    need(len(parts) == 2)
    return tuple(number(part, U32) for part in parts)


class Lines:
    def __init__(self, data):
        need(data.endswith(b"\n"))
        self.lines, self.at = data.decode("latin-1").split("\n")[:-1], 0

    def next(self):
        need(self.at < len(self.lines))
        self.at += 1
        return self.lines[self.at - 1]

    def section(self, *names):
        """A count after these words, and what that many lines say."""
        words = self.next().split(" ")
        need(words[:-1] == list(names))
        count = number(words[-1], U64)
        need(count <= len(self.lines) - self.at)
        return [self.next() for _ in range(count)]


def strand(lines, thread):
    words = lines.next().split(" ")
    need(words[:2] == ["thread", str(thread)] and words[2:3] == ["items"] and words[4:5] == ["ticks"])
    need(len(words) > 6)
    count, ticks = number(words[3], U64), number(words[5], U64)
    need(count <= len(lines.lines) - lines.at)
    return Strand([item(lines.next()) for _ in range(count)], ticks, end(words[6:]))


def read(data):
    """The run that has this text."""
    lines = Lines(data)
    first = lines.next()
    need(first in ("upc-record 1", "upc-record 2"))
    version = int(first[-1])
    words = lines.next().split(" ")
    need(len(words) == 6 and words[::2] == ["threads", "budget", "actions"])
    threads, budget, actions = number(words[1], U32), number(words[3], U64), number(words[5], U64)
    need(version == 1 or lines.next() == "rule places 64 combine")
    need(threads <= len(lines.lines))
    strands = [strand(lines, thread) for thread in range(threads)]
    history = [entry(line) for line in lines.section("history")]
    strict = [operation(line) for line in lines.section("strict")]
    orders = [[operation(line) for line in lines.section("order", str(thread))] for thread in range(threads)]
    need(lines.next() == "end" and lines.at == len(lines.lines))
    # An entry is an item that stands there, and a text is short.
    counts = [sum(one is not STALL for one in each.items) for each in strands]
    need(all(thread < threads and index < counts[thread] for thread, index in history))
    need(len(history) <= MOST_ENTRIES and sum(len(each.items) for each in strands) <= MOST_ITEMS)
    return Text(version, threads, budget, actions, strands, history, strict, orders)


def scalar_word(value):
    if value[0] == "p":
        return "p:" + ":".join(map(str, value[1]))
    return ("l:" if value[0] == "l" else "") + str(value[1])


def part_word(part):
    """A part of an action: a location and a pointer are tuples, a home may be missing."""
    if isinstance(part, bool):
        return "strict" if part else "relaxed"
    if part is None:
        return "any"
    if isinstance(part, tuple):
        return scalar_word(part) if part[0] in ("i", "l", "p") else "@" + ".".join(map(str, part))
    return str(part)


def action_words(one):
    if one[0] == "meet":
        return " ".join(["meet", str(one[1]), str(len(one[2])), *map(scalar_word, one[2])])
    return " ".join([one[0], *map(part_word, one[1:])])


def item_line(one):
    if one is STALL:
        return "stall"
    given = one[1]
    said = " ".join([given[0], *(scalar_word(part) if given[0] == "value" else str(part) for part in given[1:])])
    return f"{action_words(one[0])} -> {said}"


def end_words(one):
    if one[0] == "deadlocked":
        return "deadlocked " + action_words(one[1])
    if one[0] == "fault":
        return f"fault {one[1]} {one[2][0]}:{one[2][1]}"
    return " ".join(map(str, one))


def write(run):
    """The text of a run."""
    lines = [f"upc-record {run.version}", f"threads {run.threads} budget {run.budget} actions {run.actions}"]
    lines += ["rule places 64 combine"] * (run.version == 2)
    for thread, one in enumerate(run.strands):
        lines.append(f"thread {thread} items {len(one.items)} ticks {one.ticks} {end_words(one.end)}")
        lines += map(item_line, one.items)
    lines += [f"history {len(run.history)}", *(".".join(map(str, one)) for one in run.history)]
    lines += [f"strict {len(run.strict)}", *(".".join(map(str, one)) for one in run.strict)]
    for thread, order in enumerate(run.orders):
        lines += [f"order {thread} {len(order)}", *(".".join(map(str, one)) for one in order)]
    return ("\n".join(lines + ["end"]) + "\n").encode("latin-1")
