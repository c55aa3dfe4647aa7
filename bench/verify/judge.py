"""A plain judge of a run: whole lists and relations, as the verdict is defined, and no walk of the program's.

`judge(source, threads, data)` says what `upc verify -T threads` is to say of these bytes: "bad", "old", "sound", or the
first part that fails with the lowest thread. The parts are: 0, the shape of the run; 1, each record is what its source
gives on its replies; 2, the history has of each thread what its write buffer lets out; 3, the history is legal and its
actions are well formed; 4, stalls are justified; 5, ends; 6, the orders, by Appendix B. A source is one of
sources.py, which says what it begins with and what each thread does on its replies."""
import text
from text import STALL

SIGNED = {"char": 8, "short": 16, "int": 32, "long": 64}
PAGE = 16777216
SYNC = "sync"


def fits_kind(value, kind):
    """A value fits a cell of a kind: a number in its range, a lock, a pointer whose phase is 0 or below the block."""
    if kind is None:
        return False
    if isinstance(kind, tuple):
        return value[0] == "p" and (value[1][7] == 0 or value[1][7] < kind[1])
    if kind == "lock":
        return value[0] == "l"
    if value[0] != "i":
        return False
    if kind in SIGNED:
        return -(1 << SIGNED[kind] - 1) <= value[1] < 1 << SIGNED[kind] - 1
    return 0 <= value[1] < 1 << SIGNED[kind[1:]]


def piece(thing, thread, threads):
    """How many bytes of an object a thread has."""
    _, total, block, home = thing[:4]
    if block == 0:
        return total if thread == home else 0
    return sum(1 for x in range(total) if x // block % threads == thread)


class History:
    """One history, seen after its first n entries: what they have made, and the lawful reply after them."""

    def __init__(self, opening, entries):
        self.opening, self.entries = opening, entries
        self.meet_number, self.leads = [], []
        seen, led = {}, set()
        for thread, _, action, _ in entries:
            j = None
            if action[0] == "meet":
                j = seen.get(thread, 0)
                seen[thread] = j + 1
            self.meet_number.append(j)
            self.leads.append(j is not None and j not in led)
            led.add(j)

    def asked(self, k):
        """What entry k asks for: a Meet that does not lead asks for nothing."""
        action = self.entries[k][2]
        if action[0] != "meet":
            return action
        return ("call", action[1], action[2]) if self.leads[k] else ("nothing",)

    def objects(self, n):
        found = list(self.opening.objects)
        for k in range(n):
            given, asked = self.entries[k][3], self.asked(k)
            if asked[0] == "alloc" or asked[:2] == ("call", 1):
                if given[0] == "value" and given[1][0] == "p" and any(given[1][1]):
                    found.append(given[1][1][:6])
        return found

    def locks(self, n):
        return sum(1 for k in range(n) if self.asked(k)[0] == "lockmake" or self.asked(k)[:2] == ("call", 2))

    def gives_up(self, k, lock):
        asked, given = self.asked(k), self.entries[k][3]
        return given == ("done",) and (asked == ("lockfree", lock) or asked == ("call", 4, (("l", lock),)))

    def is_given_up(self, n, lock):
        return any(self.gives_up(k, lock) for k in range(n))

    def all_met(self, n, j):
        """Every thread's j-th Meet stands there, with reply Done."""
        done = {self.entries[k][0] for k in range(n) if self.meet_number[k] == j and self.entries[k][3] == ("done",)}
        return len(done) == self.opening.threads

    def is_freed(self, n, lock):
        return any(self.gives_up(k, lock) and (self.entries[k][2][0] != "meet" or self.all_met(n, self.meet_number[k]))
                   for k in range(n))

    def holder(self, n, lock):
        held = None
        for thread, _, action, given in self.entries[:n]:
            if (action, given) in ((("lock", lock), ("done",)), (("attempt", lock), ("flag", 1))):
                held = thread
            elif (action, given) == (("unlock", lock), ("done",)):
                held = None
        return held

    def count(self, n, thread, name):
        return sum(1 for one in self.entries[:n] if one[0] == thread and one[2][0] == name)

    def marks(self, n, thread):
        return [one[2][1] for one in self.entries[:n] if one[0] == thread and one[2][0] == "notify"]

    def held(self, n, place):
        """The last value written there, else what the cell began with; None where there is no cell."""
        for _, _, action, _ in reversed(self.entries[:n]):
            if action[0] == "write" and action[2] == place:
                return action[3]
        return self.initial(n, place)

    def cell(self, n, place):
        thing = next((one for one in self.objects(n) if one[0] == place[0]), None)
        if thing is None or place[2] >= piece(thing, place[1], self.opening.threads):
            return None
        if not thing[4] < len(self.opening.shapes):
            return None
        size, cells = self.opening.shapes[thing[4]]
        return dict(cells).get(place[2] % size)

    def initial(self, n, place):
        if place in self.opening.initials:
            return self.opening.initials[place]
        kind = self.cell(n, place)
        if kind is None:
            return None
        return ("p", (0,) * 9) if isinstance(kind, tuple) else ("l", 0) if kind == "lock" else ("i", 0)

    def is_released(self, n, number):
        for k in range(n):
            asked, given = self.asked(k), self.entries[k][3]
            named = asked[1][1] if asked[0] == "free" else asked[2][0][1] if asked[:2] == ("call", 3) else None
            if given == ("done",) and named is not None and any(named) and named[0] == number:
                return True
        return False

    def free(self, n, p):
        """Done where an allocation gave this pointer, and nothing has released its object."""
        for _, _, action, given in self.entries[:n]:
            if action[0] == "alloc" or action[:2] == ("meet", 1):
                if given[0] == "value" and given[1][0] == "p" and any(given[1][1]):
                    q = given[1][1]
                    if q[:7] + q[8:] == p[:7] + p[8:] and not self.is_released(n, q[0]):
                        return ("done",)
        return ("refused", 16)

    def alloc(self, n, nblocks, nbytes, home, shape):
        objects = self.objects(n)
        base = sum(one[1] for one in objects)
        if base + nblocks * nbytes > PAGE:
            return ("refused", 21)
        place = home or 0
        block = nbytes if home is None else 0
        return ("value", ("p", (len(objects) + 1, nblocks * nbytes, block, place, shape, base, place, 0, 0)))

    def led(self, n, call, args):
        """The reply of a Meet that leads."""
        if call == 1:
            nblocks, nbytes, shape = (one[1] for one in args)
            null = ("value", ("p", (0,) * 9))
            return null if nblocks * nbytes == 0 else self.alloc(n, nblocks, nbytes, None, shape)
        if call == 2:
            return ("value", ("l", self.locks(n) + 1))
        if call == 3:
            return self.free(n, args[0][1]) if any(args[0][1]) else ("done",)
        if call == 4 and args[0][1] and self.is_given_up(n, args[0][1]):
            return ("refused", 15)
        return ("done",)

    def meet(self, n, thread, call, args):
        j = self.count(n, thread, "meet")
        leader = next((k for k in range(n) if self.meet_number[k] == j), None)
        if leader is None:
            return self.led(n, call, args)
        other, _, action, given = self.entries[leader]
        if action != ("meet", call, args) or self.count(n, thread, "notify") != self.count(leader, other, "notify"):
            return ("refused", 17)
        return given

    def wait(self, n, thread, own):
        p = self.count(n, thread, "wait")
        marks = [self.marks(n, other) for other in range(self.opening.threads)]
        if any(len(one) <= p for one in marks):
            return None
        differ = any(own != "none" and one[p] != "none" and one[p] != own for one in marks)
        return ("refused", 11) if differ else ("done",)

    def reply(self, n, thread, action):
        """The one lawful reply of an action by a thread after the first n entries; None where there is none."""
        name = action[0]
        if name == "read":
            value = self.held(n, action[2])
            return None if value is None else ("value", value)
        if name in ("write", "fence", "beat", "notify", "print", "exit"):
            return ("done",)
        if name == "wait":
            return self.wait(n, thread, action[1])
        if name == "lockmake":
            return ("value", ("l", self.locks(n) + 1))
        if name == "alloc":
            return self.alloc(n, *action[1:])
        if name == "free":
            return self.free(n, action[1][1])
        if name == "meet":
            return self.meet(n, thread, action[1], action[2])
        lock = action[1]
        if name == "lockfree":
            return ("refused", 15) if self.is_given_up(n, lock) else ("done",)
        if self.is_freed(n, lock):
            return ("refused", 15)
        holder = self.holder(n, lock)
        if name == "lock":
            return ("done",) if holder is None else ("refused", 13) if holder == thread else None
        if name == "attempt":
            return ("flag", int(holder is None))
        return ("done",) if holder == thread else ("refused", 14)

    def names(self, n, value):
        """A value names nothing but what is there: objects, a thread of the run, locks that were made."""
        if value[0] == "i":
            return True
        if value[0] == "l":
            return value[1] <= self.locks(n)
        p = value[1]
        return not any(p) or (p[:6] in self.objects(n) and p[6] < self.opening.threads and abs(p[8]) <= 1 << 40)

    def is_whole(self, nblocks, nbytes, shape):
        shapes = self.opening.shapes
        return nblocks * nbytes != 0 and shape < len(shapes) and nbytes % shapes[shape][0] == 0

    def is_call(self, n, call, args):
        tags = "".join(one[0] for one in args)
        size = lambda at: 0 <= args[at][1] < 1 << 64
        word = lambda at: -(1 << 31) <= args[at][1] < 1 << 31
        if call == 1:
            if tags != "iii" or not all(map(size, range(3))) or args[2][1] >= len(self.opening.shapes):
                return False
            return args[0][1] * args[1][1] == 0 or self.is_whole(*(one[1] for one in args))
        right = {2: tags == "", 3: tags == "p", 4: tags == "l", 10: tags == "pppii"}
        if 5 <= call <= 9:
            right[call] = tags == "ppii" and size(2) and word(3)
        if call == 10:
            right[call] = right[call] and size(3) and word(4)
        if call in (11, 12):
            right[call] = tags == "ppiiiii" and word(2) and all(map(size, (3, 4, 5))) and word(6)
        return right.get(call, False) and all(self.names(n, one) for one in args)

    def is_formed(self, n, action):
        """An action may be asked for after the first n entries."""
        name = action[0]
        if name == "read":
            return self.cell(n, action[2]) is not None
        if name == "write":
            return fits_kind(action[3], self.cell(n, action[2])) and self.names(n, action[3])
        if name in ("lock", "attempt", "unlock", "lockfree"):
            return 1 <= action[1] <= self.locks(n)
        if name == "alloc":
            _, nblocks, nbytes, home, shape = action
            return self.is_whole(nblocks, nbytes, shape) and (home is None or home < self.opening.threads)
        if name == "free":
            return self.names(n, action[1])
        return name != "meet" or self.is_call(n, action[1], action[2])


def drain(items):
    """What a record lets out through its buffer of 64 places: the number of each entry's action, or None where a reply
    does not agree; with the place of each Stall, how many had gone out by then; and the operations' numbers that stand
    in the place of each entry."""
    out, groups, pending, stalls, next_number = [], [], [], [], 0

    def empty():
        for number, _, _, group in pending:
            out.append(number)
            groups.append(group)
        pending.clear()

    for one in items:
        if one is STALL:
            empty()
            stalls.append(len(out))
            continue
        (action, given), number = one, next_number
        next_number += 1
        is_access = action[0] in ("read", "write") and not action[1]
        at = next((k for k, held in enumerate(pending) if is_access and held[1] == action[2]), None)
        if is_access and action[0] == "write":
            if given != ("done",):
                return None
            if at is not None:
                pending[at] = (number, action[2], action[3], pending[at][3] + [number])
                continue
            if len(pending) == 64:
                oldest = pending.pop(0)
                out.append(oldest[0])
                groups.append(oldest[3])
            pending.append((number, action[2], action[3], [number]))
            continue
        if at is not None:
            if given != ("value", pending[at][2]):
                return None
            pending[at][3].append(number)
            continue
        if not is_access and action[0] != "print":
            empty()
        out.append(number)
        groups.append([number])
    empty()
    return out, stalls, groups


def accesses(thread, index, action, given):
    """The operations of an action: name, whether it is strict, its place and its value."""
    if given[0] == "refused":
        return []
    write, read, name = (thread, index, "w"), (thread, index, "r"), action[0]
    if name == "read":
        return [(read, action[1], action[2], given[1])] if given[0] == "value" else []
    if name == "write":
        return [(write, action[1], action[2], action[3])]
    if name == "fence":
        return [(write, True, SYNC, ("i", 0)), (read, True, SYNC, ("i", 0))]
    if name in ("notify", "unlock"):
        return [(write, True, SYNC, ("i", 0))]
    if name in ("wait", "lock") or (name == "attempt" and given == ("flag", 1)):
        return [(read, True, SYNC, ("i", 0))]
    return []


def dids(strand):
    return [one for one in strand.items if one is not STALL]


def conforms(strand, outcome):
    """Part 1 of a thread."""
    actions, ticks, end = outcome
    items = strand.items
    if actions != [one[0] for one in dids(strand)]:
        return False
    for k, one in enumerate(items):
        if one is STALL:
            if k + 1 < len(items):
                if items[k + 1] is STALL or items[k + 1][0][0] not in ("lock", "wait"):
                    return False
            elif end[0] != "wants" or end[1][0] not in ("lock", "wait"):
                return False
    if strand.end == ("halted",) and items and items[-1] is not STALL and items[-1][0] == ("beat",):
        ticks = 1024 * sum(action == ("beat",) for action in actions)
    return strand.ticks == ticks


def is_justified(history, thread, wanted, strand, counts):
    """Part 4 of a thread: after some prefix with just the entries that went out, the next action has no reply."""
    stalls = iter(counts)
    for k, one in enumerate(strand.items):
        if one is STALL:
            count = next(stalls)
            action = strand.items[k + 1][0] if k + 1 < len(strand.items) else wanted
            fronts = [n for n in range(len(history.entries) + 1)
                      if sum(one[0] == thread for one in history.entries[:n]) == count]
            if not any(history.reply(n, thread, action) is None for n in fronts):
                return False
    return True


def ends_well(history, run, thread, outcome):
    """Part 5 of a thread."""
    strand, end = run.strands[thread], outcome[2]
    items = strand.items
    if len(items) > run.actions:
        return False
    last = items[-1] if items else ()
    name = strand.end[0]
    if name in ("ended", "fault", "exit"):
        return end == strand.end
    if name == "budget":
        return end == ("ticks",)
    if name == "full":
        return end[0] == "wants" and len(items) == run.actions
    if name == "halted":
        stops = any(other != thread and one.end[0] in ("fault", "budget", "full", "exit")
                    for other, one in enumerate(run.strands))
        return stops and (last is STALL or last[:1] == (("beat",),))
    return (end == ("wants", strand.end[1]) and last is STALL
            and history.reply(len(history.entries), thread, strand.end[1]) is None
            and all(one.end[0] in ("ended", "deadlocked") for one in run.strands))


class Operations:
    """All operations of a run, the strict order that a list stands for, and what Appendix B asks of the orders."""

    def __init__(self, run, history):
        self.all = {}
        for thread, strand in enumerate(run.strands):
            for index, one in enumerate(dids(strand)):
                for name, strict, place, value in accesses(thread, index, *one):
                    self.all[name] = (strict, place, value)
        self.history, self.run = history, run
        self.names = list(self.all)
        self.at = {name: k for k, name in enumerate(self.names)}

    def is_before(self, a, b):
        """Program order of one thread: by action, and in a fence the write first."""
        return (a[1], a[2] == "r") < (b[1], b[2] == "r")

    def strict_order(self, given):
        """Whether the list has each strict operation once, and no chain of its order leads back."""
        if sorted(given) != sorted(name for name in self.names if self.all[name][0]):
            return False
        after = [0] * len(self.names)
        for k, a in enumerate(given):
            for b in given[k + 1:]:
                after[self.at[a]] |= 1 << self.at[b]
        for a in self.names:
            for b in self.names:
                if a[0] == b[0] and (self.all[a][0] or self.all[b][0]) and self.is_before(a, b):
                    after[self.at[a]] |= 1 << self.at[b]
        for k in range(len(after)):
            for i in range(len(after)):
                if after[i] >> k & 1:
                    after[i] |= after[k]
        self.after = after
        return not any(after[k] >> k & 1 for k in range(len(after)))

    def initial(self, place):
        if place == SYNC:
            return ("i", 0)
        value = self.history.initial(len(self.history.entries), place)
        return ("i", 0) if value is None else value

    def thread_order(self, thread, order):
        shown = [one for one in self.names if one[0] == thread or one[2] == "w" or self.all[one][0]]
        if sorted(order) != sorted(shown):
            return False
        last = {}
        for name in order:
            _, place, value = self.all[name]
            if name[2] == "w":
                last[place] = value
            elif value != (last[place] if place in last else self.initial(place)):
                return False
        for k, a in enumerate(order):
            for b in order[k + 1:]:
                if self.after[self.at[b]] >> self.at[a] & 1:
                    return False
                if a[0] == b[0] == thread and self.conflict(a, b) and not self.is_before(a, b):
                    return False
        return True

    def conflict(self, a, b):
        (strict_a, place_a, _), (strict_b, place_b, _) = self.all[a], self.all[b]
        return strict_a or strict_b or (place_a == place_b and "w" in (a[2], b[2]))


def verdict(source, threads, run):
    """The first part that fails, with the lowest thread; None where all hold."""
    each = range(threads)
    if run.threads != threads or run.budget < 1 or run.actions < 1:
        return 0, 0
    outcomes = [source.outcome(threads, t, [given for _, given in dids(run.strands[t])], run.budget) for t in each]
    for t in each:
        if not conforms(run.strands[t], outcomes[t]):
            return 1, t
    drained = [drain(one.items) for one in run.strands]
    for t in each:
        if drained[t] is None or [index for thread, index in run.history if thread == t] != drained[t][0]:
            return 2, t
    history = History(source.opening(threads), [(t, i, *dids(run.strands[t])[i]) for t, i in run.history])
    for n, (thread, _, action, given) in enumerate(history.entries):
        if not history.is_formed(n, action) or history.reply(n, thread, action) != given:
            return 3, 0
    for t in each:
        wanted = outcomes[t][2][1] if outcomes[t][2][0] == "wants" else None
        if not is_justified(history, t, wanted, run.strands[t], drained[t][1]):
            return 4, t
    for t in each:
        if not ends_well(history, run, t, outcomes[t]):
            return 5, t
    operations = Operations(run, history)
    if not operations.strict_order(run.strict):
        return 6, 0
    for t in each:
        if not operations.thread_order(t, run.orders[t]):
            return 6, t
    return None


def judge(source, threads, data):
    try:
        run = text.read(data)
    except text.NoText:
        return "bad"
    if run.version == 1:
        return "old"
    failed = verdict(source, threads, run)
    return "sound" if failed is None else failed
