"""Runs of a source as docs/CONSISTENCY.md says that threads run, one step at a time in any order: `run(source, threads,
chance)` gives a run that is sound. Nothing of the program is used, so the schedule may be any."""
from judge import History, accesses, dids, drain
from text import STALL, Strand, Text

STOPS = ("fault", "budget", "full", "exit")


class Machine:
    def __init__(self, source, threads):
        self.source, self.threads, self.opening = source, threads, source.opening(threads)
        self.budget = source.limits.get("budget", 100000000)
        self.actions = source.limits.get("actions", 4194304 // threads)
        self.items = [[] for _ in range(threads)]
        self.pending = [[] for _ in range(threads)]
        self.ends = [None] * threads
        self.entries = []

    def empty(self, t):
        self.entries += self.pending[t]
        self.pending[t] = []

    def outcome(self, t):
        return self.source.outcome(self.threads, t, [one[1] for one in self.items[t] if one is not STALL], self.budget)

    def lawful(self, t, action):
        return History(self.opening, self.entries).reply(len(self.entries), t, action)

    def finish(self, t, end):
        self.empty(t)
        self.ends[t] = end

    def step(self, t):
        """The thread goes on by one item, or comes to its end."""
        end = self.outcome(t)[2]
        if end[0] != "wants":
            return self.finish(t, ("budget",) if end == ("ticks",) else end)
        if len(self.items[t]) == self.actions:
            return self.finish(t, ("full",))
        action, items = end[1], self.items[t]
        index = sum(one is not STALL for one in items)
        is_relaxed = action[0] in ("read", "write") and not action[1]
        held = next((k for k, one in enumerate(self.pending[t]) if is_relaxed and one[2][2] == action[2]), None)
        if is_relaxed and action[0] == "write":
            given = ("done",)
            if held is not None:
                self.pending[t][held] = (t, index, action, given)
            else:
                if len(self.pending[t]) == 64:
                    self.entries.append(self.pending[t].pop(0))
                self.pending[t].append((t, index, action, given))
        elif held is not None:
            given = ("value", self.pending[t][held][2][3])
        else:
            if not is_relaxed and action[0] != "print":
                self.empty(t)
            given = self.lawful(t, action)
            if given is None:
                if not items or items[-1] is not STALL:
                    items.append(STALL)
                return None
            self.entries.append((t, index, action, given))
        items.append((action, given))

    def is_waiting(self, t):
        end = self.outcome(t)[2]
        return (end[0] == "wants" and self.items[t][-1:] == [STALL] and len(self.items[t]) < self.actions
                and self.lawful(t, end[1]) is None)

    def rests(self, t):
        last = self.items[t][-1:]
        return last == [STALL] or (last and last[0][0] == ("beat",))

    def go(self, chance):
        """Bursts of steps, each of one thread, until an end has ended the run or nobody can go on."""
        while True:
            left = [t for t in range(self.threads) if self.ends[t] is None]
            if any(end and end[0] in STOPS for end in self.ends):
                for t in left:
                    while self.ends[t] is None and not self.rests(t):
                        self.step(t)
                    self.ends[t] = self.ends[t] or ("halted",)
                return
            if all(self.is_waiting(t) for t in left):
                for t in left:
                    self.ends[t] = ("deadlocked", self.outcome(t)[2][1])
                return
            t = chance.choice(left)
            for _ in range(chance.choice((1, 1, 2, 3, 8, 20))):
                if self.ends[t] is None:
                    self.step(t)

    def ticks(self, t):
        if self.ends[t] == ("halted",) and self.items[t][-1] is not STALL:
            return 1024 * sum(one is not STALL and one[0] == ("beat",) for one in self.items[t])
        return self.outcome(t)[1]

    def text(self):
        """The run with its own orders: each entry stands for the operations in its place."""
        strands = [Strand(self.items[t], self.ticks(t), self.ends[t]) for t in range(self.threads)]
        groups = [dict(zip(*drain(one.items)[::2])) for one in strands]
        whole = []
        for thread, index, _, _ in self.entries:
            for number in sorted(groups[thread][index]):
                action, given = dids(strands[thread])[number]
                whole += [(name, strict) for name, strict, _, _ in accesses(thread, number, action, given)]
        orders = [[name for name, strict in whole if name[0] == t or name[2] == "w" or strict]
                  for t in range(self.threads)]
        return Text(2, self.threads, self.budget, self.actions, strands, [one[:2] for one in self.entries],
                    [name for name, strict in whole if strict], orders)


def run(source, threads, chance):
    machine = Machine(source, threads)
    machine.go(chance)
    return machine.text()
