"""Runs of a source on a memory in which each thread has its own copy, as docs/CONSISTENCY.md says it: `run(source,
threads, limits, chance)` goes by rounds, in each by number of thread or, by chance, in some order of single steps, and
gives the machine with what was printed, the ends and the events. Copies, mail and clocks are lists and dicts, the strict and the thread orders whole lists; the replies of
all actions but reads are those of bench/verify/judge.py. None of it is proved."""
import os
import sys
from collections import namedtuple

sys.path.insert(0, os.path.join(os.path.dirname(os.path.abspath(__file__)), "../verify"))
sys.dont_write_bytecode = True
from judge import History, accesses
from machine import STOPS
from text import STALL

SYNCHRONISING = ("fence", "notify", "wait", "lock", "attempt", "unlock")
Message = namedtuple("Message", "stamp index place value")  # a stamp is a clock and a thread
Event = namedtuple("Event", "by deed")  # ("did", index, action, reply), or ("delivered", to, sender)


def synchronises(action):
    return action[1] if action[0] in ("read", "write") else action[0] in SYNCHRONISING


class Replicas:
    """A clock, a copy and mail for each thread, and the events so far."""

    def __init__(self, opening, threads):
        self.opening, self.threads, self.entries, self.events = opening, threads, [], []
        self.clock = [0] * threads
        self.copy = [{} for _ in range(threads)]
        self.mail = [[[] for _ in range(threads)] for _ in range(threads)]  # by receiver and sender

    def deliver(self, by, to, sender):
        """The oldest message to a thread from another one, if one waits."""
        if not self.mail[to][sender]:
            return
        message = self.mail[to][sender].pop(0)
        self.clock[to] = max(self.clock[to], message.stamp[0])
        held = self.copy[to].get(message.place)
        if held is None or held.stamp < message.stamp:
            self.copy[to][message.place] = message
        self.events.append(Event(by, ("delivered", to, sender)))

    def deliver_all(self, by):
        for to in range(self.threads):
            for sender in range(self.threads):
                while self.mail[to][sender]:
                    self.deliver(by, to, sender)

    def seen(self, thread, place):
        held = self.copy[thread].get(place)
        return held.value if held else self.history().initial(len(self.entries), place)

    def history(self):
        return History(self.opening, self.entries)

    def lawful(self, thread, action):
        if action[0] == "read":
            return "value", self.seen(thread, action[2])
        return self.history().reply(len(self.entries), thread, action)

    def write(self, thread, index, action):
        clock = self.clock[thread] + 1
        message = Message((clock, thread), index, action[2], action[3])
        if action[1]:
            self.clock = [one + 1 for one in self.clock]
            for copy in self.copy:
                copy[message.place] = message
            return
        self.clock[thread] = clock
        self.copy[thread][message.place] = message
        for to in range(self.threads):
            if to != thread:
                self.mail[to][thread].append(message)

    def act(self, thread, index, action):
        """The reply of the action, which is done; none, with nothing changed, where it has none."""
        if action[0] in ("lock", "wait") and self.lawful(thread, action) is None:
            return None
        if synchronises(action):
            self.deliver_all(thread)
            self.clock = [max(self.clock)] * self.threads
        given = self.lawful(thread, action)
        if action[0] == "write":
            self.write(thread, index, action)
        self.entries.append((thread, index, action, given))
        self.events.append(Event(thread, ("did", index, action, given)))
        return given


class Run:
    """Threads on such a memory, round by round."""

    def __init__(self, source, threads, limits=()):
        limits = {**source.limits, **dict(limits)}
        self.source, self.threads = source, threads
        self.budget = limits.get("budget", 100000000)
        self.actions = limits.get("actions", 4194304 // (threads * threads))
        self.memory = Replicas(source.opening(threads), threads)
        self.items = [[] for _ in range(threads)]
        self.ends = [None] * threads

    def outcome(self, t):
        return self.source.outcome(self.threads, t, [one[1] for one in self.items[t] if one is not STALL], self.budget)

    def step(self, t):
        """One item more, or the end; whether the thread rests after it."""
        end, items = self.outcome(t)[2], self.items[t]
        if end[0] != "wants":
            self.ends[t] = ("budget",) if end == ("ticks",) else end
            return True
        if len(items) == self.actions:
            self.ends[t] = ("full",)
            return True
        action, index = end[1], sum(one is not STALL for one in items)
        if not synchronises(action):
            self.memory.deliver(t, t, index % self.threads)
        given = self.memory.act(t, index, action)
        if given is None:
            if items[-1:] != [STALL]:
                items.append(STALL)
            return True
        items.append((action, given))
        return action == ("beat",)

    def is_waiting(self, t):
        return self.items[t][-1:] == [STALL] and self.memory.lawful(t, self.outcome(t)[2][1]) is None

    def part(self, chance):
        """A round: each thread without an end goes on to its rest."""
        going = [t for t in range(self.threads) if self.ends[t] is None]
        weights = [chance.random() ** 3 + 0.001 for _ in range(self.threads)] if chance else []
        while going:
            t = chance.choices(going, [weights[t] for t in going])[0] if chance else going[0]
            if self.step(t):
                going.remove(t)

    def go(self, chance=None):
        while True:
            self.part(chance)
            left = [t for t in range(self.threads) if self.ends[t] is None]
            if any(end and end[0] in STOPS for end in self.ends):
                for t in left:
                    self.ends[t] = ("halted",)
                return self
            if not left:
                return self
            if all(self.is_waiting(t) for t in left):
                for t in left:
                    self.ends[t] = ("deadlocked", self.outcome(t)[2][1])
                return self

    def go_at_random(self, chance):
        """Bursts of steps in any order, with mail that is delivered between them at random; then rounds."""
        for _ in range(chance.randrange(400)):
            left = [t for t in range(self.threads) if self.ends[t] is None]
            if len(left) < self.threads:
                break
            self.memory.deliver(*(chance.randrange(self.threads) for _ in range(3)))
            t = chance.choice(left)
            for _ in range(chance.choice((1, 1, 2, 5))):
                if self.ends[t] is None:
                    self.step(t)
        return self.go()

    def output(self):
        words = [action[1] for _, _, action, _ in self.memory.entries if action[0] == "print"]
        return b"".join(bytes.fromhex(one) for one in words if one != "-")

    def status(self):
        stop = next((end for end in self.ends if end[0] in STOPS), None)
        clipped = lambda value: value if 0 <= value < 100 else 99
        if stop:
            return {"fault": 105, "budget": 107, "full": 108}.get(stop[0]) or clipped(stop[1])
        return clipped(self.ends[0][1]) if all(end[0] == "ended" for end in self.ends) else 106


def run(source, threads, limits=(), chance=None):
    return Run(source, threads, limits).go(chance)


def placed(line, new, stamps):
    """A list with a write put directly before the first write of its place with a later stamp, else last."""
    for at, old in enumerate(line):
        if old[0][2] == "w" and old[2] == new[2] and old[2] is not None and stamps[old[0]] > stamps[new[0]]:
            return line[:at] + [new] + line[at:]
    return line + [new]


def orders(machine):
    """The strict order and the order of each thread, as whole lists: operations are (name, strict, place, value)."""
    threads, events = machine.threads, machine.memory.events
    again, lines, stamps = Replicas(machine.memory.opening, threads), [[] for _ in range(threads)], {}
    strict, sent = [], {}
    for event in events:
        if event.deed[0] == "delivered":
            _, to, sender = event.deed
            message = again.mail[to][sender][0]
            lines[to] = placed(lines[to], sent[message.stamp], stamps)
            again.deliver(event.by, to, sender)
            continue
        _, index, action, given = event.deed
        if synchronises(action):
            again.clock = [max(again.clock)] * threads
        stamp = (again.clock[event.by] + 1, event.by)
        if action[0] == "write":
            again.write(event.by, index, action)
        own = [(name, is_strict, place, value) for name, is_strict, place, value in
               accesses(event.by, index, action, given)]
        for one in own:
            stamps[one[0]] = stamp
        if action[0] == "write":
            sent[stamp] = own[0]
        strict += [one for one in own if one[1]]
        for t in range(threads):
            if t == event.by or synchronises(action):
                lines[t] += own
    for to in range(threads):
        for sender in range(threads):
            for message in again.mail[to][sender]:
                lines[to] = placed(lines[to], sent[message.stamp], stamps)
    return strict, lines
