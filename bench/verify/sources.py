"""Sources with what they mean, by hand: each is a text in UPC, what a run of it begins with, and, as a generator, what
one thread does on the replies that it is given. A thread asks by `yield (action, kind)`, where the kind is that of the
cell that a read reads, and is sent the reply."""
from judge import fits_kind

INT, PAGE = "int", 16777216


class Opening:
    """The threads, the declared objects, the shapes of elements with their cells, and initial values."""

    def __init__(self, threads, objects, shapes, initials=()):
        self.threads, self.objects, self.shapes = threads, objects, shapes
        self.initials = dict(initials)


class Ends(Exception):
    """How a thread ends otherwise than by the end of main."""


class Thread:
    """One thread: its ticks, and what a source asks of it."""

    def __init__(self, source, threads, me, budget):
        self.source, self.threads, self.me, self.budget, self.ticks = source, threads, me, budget, 0

    def ask(self, at, action, kind=None):
        """An action of the construct at this place; a refusal is a run error there."""
        given = yield action, kind
        if given[0] == "refused":
            raise Ends(("fault", given[1], self.source.place(at)))
        return given[1] if len(given) > 1 else None

    def read(self, place, kind=INT, strict=False):
        value = yield from self.ask("", ("read", strict, place), kind)
        return value if value[0] != "i" else value[1]

    def write(self, place, value, strict=False):
        value = ("i", value) if isinstance(value, int) else value
        yield from self.ask("", ("write", strict, place, value))

    def fits(self, value, kind, at):
        """A signed result that is out of range is run error 1."""
        if not fits_kind(("i", value), kind):
            raise Ends(("fault", 1, self.source.place(at)))
        return value

    def tick(self):
        self.ticks += 1
        if self.ticks % 1024 == 0:
            yield from self.ask("", ("beat",))
        if self.ticks == self.budget:
            raise Ends(("ticks",))

    def barrier(self, at, mark="none"):
        yield from self.ask(at, ("notify", mark))
        yield from self.ask(at, ("wait", mark))

    def exit(self, value):
        yield from self.ask("", ("exit", value))
        raise Ends(("exit", value))

    def print(self, words):
        yield from self.ask("", ("print", words.encode().hex() or "-"))

    def whole(self):
        yield from self.barrier("int main", "start")
        value = yield from self.source.main(self)
        yield from self.barrier("int main", "finish")
        return value or 0


class Source:
    """Its name, its text, `main` of one thread, the shared objects as (total, block, home, shape) for a number of
    threads, the shapes, and for which numbers of threads it is meant; `limits` are words of the command."""

    def __init__(self, name, text, main, objects, shapes, threads=(2,), limits=()):
        self.name, self.text, self.main, self.objects, self.shapes = name, text, main, objects, shapes
        self.threads, self.limits = threads, dict(limits)

    def place(self, at):
        """Line and column of the first place where this stands."""
        before = self.text[:self.text.index(at)]
        return before.count("\n") + 1, len(before) - (before.rfind("\n") + 1) + 1

    def opening(self, threads):
        found, base = [], 0
        for number, (total, block, home, shape) in enumerate(self.objects(threads), 1):
            found.append((number, total, block, home, shape, base))
            base += total
        return Opening(threads, found, [(size, cells) for size, cells in self.shapes])

    def is_pointer(self, threads, p):
        return not any(p) or (p[0] != 0 and p[4] < len(self.shapes) and p[6] < threads and p[3] < threads
                              and abs(p[8]) <= 1 << 40 and p[1] <= PAGE and p[2] <= PAGE)

    def suits(self, threads, action, kind, given):
        """The reply fits the action."""
        name, value = action[0], given[1] if given[0] == "value" else None
        codes = {"wait": (11,), "lock": (13, 15), "attempt": (15,), "unlock": (14, 15), "lockfree": (15,),
                 "alloc": (21,), "free": (16,), "meet": (15, 16, 17, 21)}
        if given[0] == "refused":
            return given[1] in codes.get(name, ())
        if name == "read":
            return value is not None and fits_kind(value, kind) and (value[0] != "p"
                                                                     or self.is_pointer(threads, value[1]))
        if name == "lockmake" or action == ("meet", 2, ()):
            return value is not None and value[0] == "l" and value[1] >= 1
        if name == "alloc" or action[:2] == ("meet", 1):
            return value is not None and value[0] == "p" and self.is_pointer(threads, value[1]) and value[1][7] == 0
        return given[0] == "flag" if name == "attempt" else given == ("done",)

    def outcome(self, threads, me, replies, budget):
        """What thread `me` does on these replies: its actions, its ticks and its end."""
        thread, actions = Thread(self, threads, me, budget), []
        asks, sent = thread.whole(), None
        try:
            while True:
                action, kind = asks.send(sent)
                if len(actions) == len(replies):
                    return actions, thread.ticks, ("wants", action)
                sent = replies[len(actions)]
                if not self.suits(threads, action, kind, sent):
                    return actions, thread.ticks, ("misfit", len(actions))
                actions.append(action)
        except StopIteration as done:
            return actions, thread.ticks, ("ended", done.value)
        except Ends as other:
            return actions, thread.ticks, other.args[0]


def scalars(count, size=4, shape=0):
    """So many shared objects of one element each, all on thread 0."""
    return lambda threads: [(size, size, 0, shape)] * count


INTS = [(4, ((0, INT),))]


def all_locks(me, at="upc_all_lock_alloc"):
    return me.ask(at, ("meet", 2, ()))


def mixed(me):
    x, f, n = (1, 0, 0), (2, 0, 0), (3, 0, 0)
    lock = (yield from all_locks(me))[1]
    yield from me.write(x, me.me + 1)
    r = yield from me.read(x)
    yield from me.write(x, me.fits(r + 4, INT, "r + 4"))
    yield from me.ask("upc_lock(l)", ("lock", lock))
    value = yield from me.read(n)
    yield from me.write(n, me.fits(value + 1, INT, "n + 1"))
    yield from me.ask("upc_unlock(l)", ("unlock", lock))
    yield from me.ask("", ("fence",))
    if me.me == 0:
        yield from me.write(f, 1, True)
    else:
        yield from me.read(f, INT, True)
    yield from me.barrier("upc_barrier")
    if me.me == 1:
        value = yield from me.read(n)
        yield from me.print(f"{value}\n")


MIXED = """#include <upc_relaxed.h>
#include <stdio.h>
shared int x; strict shared int f; shared int n;
int main(void) {
  int r;
  upc_lock_t *l = upc_all_lock_alloc();
  x = MYTHREAD + 1; r = x; x = r + 4;
  upc_lock(l); n = n + 1; upc_unlock(l);
  upc_fence;
  if (MYTHREAD == 0) f = 1; else r = f;
  upc_barrier;
  if (MYTHREAD == 1) printf("%d\\n", n);
  return 0;
}
"""


def buffering(me):
    x, y = (1, 0, 0), (2, 0, 0)
    mine, other = (x, y) if me.me == 0 else (y, x)
    yield from me.write(mine, 1)
    value = yield from me.read(other)
    yield from me.write((3, me.me, 0), value)
    yield from me.barrier("upc_barrier")
    if me.me == 0:
        one = yield from me.read((3, 0, 0))
        two = yield from me.read((3, 1, 0))
        yield from me.print(f"y {one}, x {two}\n")


BUFFERING = """#include <upc_relaxed.h>
#include <stdio.h>
shared int x; shared int y; shared int seen[THREADS];
int main(void) {
  if (MYTHREAD == 0) { x = 1; seen[0] = y; } else { y = 1; seen[1] = x; }
  upc_barrier;
  if (MYTHREAD == 0) printf("y %d, x %d\\n", seen[0], seen[1]);
  return 0;
}
"""


def message(me):
    data, flag = (1, 0, 0), (2, 0, 0)
    if me.me == 0:
        yield from me.write(data, 42)
        yield from me.write(flag, 1, True)
        return
    while True:
        yield from me.tick()
        if (yield from me.read(flag, INT, True)):
            break
    value = yield from me.read(data)
    yield from me.print(f"{value}\n")
    return value


MESSAGE = """#include <upc_relaxed.h>
#include <stdio.h>
shared int data; strict shared int flag;
int main(void) {
  if (MYTHREAD == 0) { data = 42; flag = 1; return 0; }
  while (flag == 0);
  { int r; r = data; printf("%d\\n", r); return r; }
}
"""


def combined(me):
    a = lambda i: (1, 0, 4 * i)
    x = (2, 0, 0)
    if me.me == 0:
        i = 0
        while True:
            yield from me.tick()
            if not i < 67:
                break
            yield from me.write(a(i), i)
            i += 1
        yield from me.write(x, 1)
        yield from me.write(x, 2)
        r = yield from me.read(a(66))
        yield from me.write(x, r)
    else:
        r = yield from me.read(x)
        yield from me.write(a(3), r)
        yield from me.read(a(0))
        yield from me.write(a(3), 7)
        r = yield from me.read(a(3))
        yield from me.write(x, r)
    yield from me.ask("", ("fence",))
    if me.me == 0:
        yield from me.read(x)


COMBINED = """#include <upc_relaxed.h>
shared [] int a[70]; shared int x;
int main(void) {
  int i; int r;
  if (MYTHREAD == 0) {
    for (i = 0; i < 67; i++) a[i] = i;
    x = 1; x = 2; r = a[66]; x = r;
  } else {
    r = x; a[3] = r; r = a[0]; a[3] = 7; r = a[3]; x = r;
  }
  upc_fence;
  if (MYTHREAD == 0) r = x;
  return 0;
}
"""


def four(me):
    a = lambda t: (1, t, 0)
    yield from me.write(a(me.me), me.me)
    yield from me.barrier("upc_barrier 7", 7)
    i = s = 0
    while True:
        yield from me.tick()
        if not i < me.threads:
            break
        value = yield from me.read(a(i))
        s = me.fits(s + value, INT, "s = s")
        i += 1
    yield from me.write((2, 0, 0), s)
    return 0


FOUR = """#include <upc_relaxed.h>
shared int a[THREADS]; shared int sum;
int main(void) {
  int i; int s = 0;
  a[MYTHREAD] = MYTHREAD;
  upc_barrier 7;
  for (i = 0; i < THREADS; i++) s = s + a[i];
  sum = s;
  return 0;
}
"""


def two_locks(me):
    lock = (yield from all_locks(me))[1]
    other = (yield from all_locks(me, "upc_all_lock_alloc(); upc_lock_t *k"))[1]
    first, second = (lock, other) if me.me == 0 else (other, lock)
    yield from me.ask("upc_lock(a)", ("lock", first))
    yield from me.ask("upc_lock(b)", ("lock", second))
    value = yield from me.read((1, 0, 0))
    yield from me.write((1, 0, 0), me.fits(value + 1, INT, "x + 1"))
    yield from me.ask("upc_unlock(b)", ("unlock", second))
    yield from me.ask("upc_unlock(a)", ("unlock", first))


TWO_LOCKS = """#include <upc_relaxed.h>
shared int x;
int main(void) {
  upc_lock_t *l = upc_all_lock_alloc(); upc_lock_t *k = upc_all_lock_alloc();
  upc_lock_t *a; upc_lock_t *b;
  if (MYTHREAD == 0) { a = l; b = k; } else { a = k; b = l; }
  upc_lock(a); upc_lock(b);
  x = x + 1;
  upc_unlock(b); upc_unlock(a);
  return 0;
}
"""


def attempts(me):
    lock = (yield from all_locks(me))[1]
    if (yield from me.ask("upc_lock_attempt", ("attempt", lock))):
        yield from me.write((1, 0, 0), me.me + 5, True)
        yield from me.ask("upc_unlock(l)", ("unlock", lock))
    else:
        yield from me.ask("upc_lock(l)", ("lock", lock))
        yield from me.read((1, 0, 0), INT, True)
        yield from me.ask("upc_unlock(l); }", ("unlock", lock))
    yield from me.barrier("upc_barrier")
    if me.me == 0:
        yield from me.ask("upc_lock_free", ("lockfree", lock))
    else:
        yield from me.ask("upc_lock(l); return 9", ("lock", lock))
        return 9
    return 0


ATTEMPTS = """#include <upc_strict.h>
shared int x;
int main(void) {
  upc_lock_t *l = upc_all_lock_alloc(); int r;
  if (upc_lock_attempt(l)) { x = MYTHREAD + 5; upc_unlock(l); }
  else { upc_lock(l); r = x; upc_unlock(l); }
  upc_barrier;
  if (MYTHREAD == 0) upc_lock_free(l);
  else { upc_lock(l); return 9; }
  return 0;
}
"""


def exits(me):
    f = (1, 0, 0)
    if me.me == 1:
        yield from me.write(f, 1, True)
        yield from me.exit(3)
    i = 0
    while True:
        yield from me.tick()
        if not i < 2500:
            break
        i += 1
    yield from me.write(f, 2, True)
    return 4


EXITS = """strict shared int f;
int main(void) {
  int i;
  if (MYTHREAD == 1) { f = 1; upc_global_exit(3); }
  for (i = 0; i < 2500; i++);
  f = 2;
  return 4;
}
"""


def marks(me):
    yield from me.write((1, 0, 0), me.me)
    yield from me.ask("upc_notify", ("notify", me.me // 2))
    value = yield from me.read((1, 0, 0))
    yield from me.ask("upc_wait", ("wait", me.me // 2))
    return value


MARKS = """#include <upc_relaxed.h>
shared int x;
int main(void) {
  int r;
  x = MYTHREAD;
  upc_notify MYTHREAD / 2;
  r = x;
  upc_wait MYTHREAD / 2;
  return r;
}
"""


def overflows(me):
    x = (1, 0, 0)
    while True:
        yield from me.tick()
        value = yield from me.read(x)
        yield from me.write(x, me.fits(value + 1000000000, INT, "x + 1000000000"))


OVERFLOWS = """#include <upc_relaxed.h>
shared int x;
int main(void) {
  while (1) x = x + 1000000000;
  return 0;
}
"""


def counts(me):
    x = (1, 0, 0)
    while True:
        yield from me.tick()
        yield from me.write(x, 1)
        yield from me.read((2, 0, 0))


COUNTS = """#include <upc_relaxed.h>
shared int x; shared int y;
int main(void) {
  int r;
  while (1) { x = 1; r = y; }
  return 0;
}
"""


def heap(me):
    q, kind = (1, 0, 0), ("shared", 1)
    if me.me == 0:
        made = yield from me.ask("upc_global_alloc", ("alloc", 3, 4, None, 1))
        yield from me.write(q, made)
        own = yield from me.ask("upc_alloc", ("alloc", 1, 8, me.me, 1))
        yield from me.write((own[1][0], own[1][6], 4), 6)
        yield from me.ask("upc_free(w)", ("free", own))
    yield from me.barrier("upc_barrier")
    p = yield from me.read(q, kind)
    yield from me.write((p[1][0], p[1][6], p[1][8]), me.me + 8)
    yield from me.barrier("upc_barrier; if")
    if me.me == 1:
        yield from me.ask("upc_free(p)", ("free", p))
    both = yield from me.ask("upc_all_alloc", ("meet", 1, (("i", 2), ("i", 4), ("i", 1))))
    yield from me.ask("upc_all_free", ("meet", 3, (both,)))


HEAP = """#include <upc_relaxed.h>
shared [1] int * shared q;
int main(void) {
  shared [1] int *p; shared [] int *w; shared [1] int *b;
  if (MYTHREAD == 0) {
    p = upc_global_alloc(3, 4); q = p;
    w = upc_alloc(8); w[1] = 6; upc_free(w);
  }
  upc_barrier;
  p = q; *p = MYTHREAD + 8;
  upc_barrier; if (MYTHREAD == 1) upc_free(p);
  b = upc_all_alloc(2, 4); upc_all_free(b);
  return 0;
}
"""


def kinds(me):
    c, s, u = (1, 0, 0), (2, 0, 0), (3, 0, 0)
    yield from me.write(c, me.me - 100)
    value = yield from me.read(c, "char")
    yield from me.write(s, value % 65536)
    value = yield from me.read(s, "ushort", True)
    yield from me.write(u, value + (1 << 64) - 70000)
    yield from me.ask("", ("fence",))
    value = yield from me.read(u, "ulong")
    if me.me == 0:
        yield from me.print(f"{value}\n")
    return 0


KINDS = """#include <upc_relaxed.h>
#include <stdio.h>
shared signed char c; shared unsigned short s; shared unsigned long u;
int main(void) {
  signed char r; unsigned short n; unsigned long v;
  c = MYTHREAD - 100; r = c; s = r;
  n = *(strict shared unsigned short *)&s;
  u = n + 18446744073709481616ul;
  upc_fence;
  v = u;
  if (MYTHREAD == 0) printf("%lu\\n", v);
  return 0;
}
"""

# Of the heap's shapes the first is that of its pointer, whose block is one element.
POINTER = (16, ((0, ("shared", 1)),))
SOURCES = [
    Source("mixed", MIXED, mixed, scalars(3), INTS, (2, 3)),
    Source("buffering", BUFFERING, buffering, lambda t: [(4, 4, 0, 0)] * 2 + [(4 * t, 4, 0, 0)], INTS),
    Source("message", MESSAGE, message, scalars(2), INTS),
    Source("combined", COMBINED, combined, lambda t: [(280, 0, 0, 0), (4, 4, 0, 0)], INTS),
    Source("four", FOUR, four, lambda t: [(4 * t, 4, 0, 0), (4, 4, 0, 0)], INTS, (1, 4, 5)),
    Source("two_locks", TWO_LOCKS, two_locks, scalars(1), INTS),
    Source("attempts", ATTEMPTS, attempts, scalars(1), INTS),
    Source("exits", EXITS, exits, scalars(1), INTS),
    Source("marks", MARKS, marks, scalars(1), INTS, (2, 3)),
    Source("overflows", OVERFLOWS, overflows, scalars(1), INTS),
    Source("full", COUNTS, counts, scalars(2), INTS, (2,), {"actions": 12}),
    Source("budget", COUNTS, counts, scalars(2), INTS, (2, 3), {"budget": 7}),
    Source("heap", HEAP, heap, scalars(1, 16), [POINTER] + INTS),
    Source("kinds", KINDS, kinds, lambda t: [(1, 1, 0, 0), (2, 2, 0, 1), (8, 8, 0, 2)],
           [(1, ((0, "char"),)), (2, ((0, "ushort"),)), (8, ((0, "ulong"),))]),
]
