"""The text of a run read back, as docs/FORMATS.md has it, and the names of what it speaks of. None of it is proved."""
import re
import sys

from runs import INPUT, Call, Failed, answer, read_text

MOST_ENTRIES = 32768  # of a history that has a text
NUMBER = r"[0-9]{1,20}"
PLACE, VALUE = rf"@{NUMBER}\.{NUMBER}\.{NUMBER}", rf"(?:-?{NUMBER}|l:{NUMBER}|p(?::-?{NUMBER}){{9}})"
ITEM = re.compile(rf"(?:read (?:relaxed|strict) {PLACE}|write (?:relaxed|strict) {PLACE} {VALUE}"
                  rf"|print (?:-|(?:[0-9a-f]{{2}})+)|(?:notify|wait|lock|attempt|unlock|lockfree) \S+|exit -?\d+"
                  rf"|meet [0-9]{{1,9}} [0-9]{{1,9}}(?: {VALUE})*|(?:alloc|free)(?: \S+)+|fence|beat|lockmake)"
                  rf" -> (?:done|value {VALUE}|flag [01]|refused \d+)")
ALLOCATION, REDUCTIONS = "1", ("11", "12")
MEETINGS = dict(enumerate(("alloc", "lock_alloc", "free", "lock_free", "broadcast", "scatter", "gather", "gather_all",
                           "exchange", "permute", "reduce", "prefix_reduce"), 1))
ELEMENTS = ("C", "UC", "S", "US", "I", "UI", "L", "UL")
END = r"ended -?\d+|fault \d+ \d+:\d+|budget|full|exit -?\d+|halted|deadlocked \S+.*"


class Item:
    """An action with its reply; `stalled` says that it had to wait before."""

    def __init__(self, line, stalled):
        self.action, _, self.reply = line.partition(" -> ")
        self.words, self.stalled = self.action.split(" "), stalled
        self.kind = self.words[0]
        self.relaxed = len(self.words) > 1 and self.words[1] == "relaxed"
        self.place = self.words[2] if self.kind in ("read", "write") else ""

    def is_done(self):
        return not self.reply.startswith("refused")


class Strand:
    """What one thread did, and how it ended; `waiting` says that its last line is a stall."""

    def __init__(self, end, lines):
        self.end, self.items, self.waiting = end, [], False
        for line in lines:
            if line != "stall":
                if not ITEM.fullmatch(line):
                    raise ValueError(line)
                self.items.append(Item(line, self.waiting))
            self.waiting = line == "stall"


class Record:
    """A run: its strands, and its history as pairs of a thread and the number of an item of its strand."""

    def __init__(self, text, file=""):
        lines = iter(text.split("\n"))
        self.strands, self.history, self.file = [], [], file
        if not re.fullmatch(r"upc-record [12]", next(lines, "")):
            raise Failed("this is no text of a run", 2)
        try:
            for line in lines:
                thread = re.fullmatch(rf"thread \d+ items (\d+) ticks \d+ ({END})", line)
                entries = re.fullmatch(r"history (\d+)", line)
                if thread:
                    self.strands.append(Strand(thread[2], [next(lines) for _ in range(int(thread[1]))]))
                elif entries:
                    self.history = [self.entry(next(lines)) for _ in range(int(entries[1]))]
                    break
            else:
                raise ValueError("no history")
        except (StopIteration, ValueError, IndexError):
            raise Failed("this text of a run is cut off or changed", 2) from None

    def entry(self, line):
        """An entry of the history: it names an item."""
        thread, _, number = line.partition(".")
        if not (thread.isdecimal() and number.isdecimal()):
            raise ValueError(line)
        self.strands[int(thread)].items[int(number)].kind
        return int(thread), int(number)

    def moments(self):
        """What is to be shown, in the order of the history: thread, number, and how it reached the memory.

        A number is that of an item. It is `in` where the item is an entry, `own` where the thread's buffer answered a
        read, `into` where a write went into a later one, and `late` where an entry stands after later items.
        """
        entries, reached, answered = set(self.history), [0] * len(self.strands), self.answered()
        for thread, number in self.history:
            until = max(number, answered.get((thread, number), 0))
            yield from self.between(thread, reached[thread], until, entries)
            reached[thread] = max(reached[thread], until)
            yield thread, number, "late" if number < reached[thread] else "in"
            reached[thread] = max(reached[thread], number + 1)
        for thread, strand in enumerate(self.strands):
            yield from self.between(thread, reached[thread], len(strand.items), entries)

    def between(self, thread, first, after, entries):
        for number in range(first, after):
            item = self.strands[thread].items[number]
            if (thread, number) not in entries and item.relaxed:
                yield thread, number, "own" if item.kind == "read" else "into"
            elif not item.is_done():
                yield thread, number, "in"

    def answered(self):
        """For each relaxed write that answered reads while it was pending, the number after the last of them."""
        entries, after = set(self.history), {}
        for thread, strand in enumerate(self.strands):
            last = {}
            for number, item in enumerate(strand.items):
                if item.kind == "write":
                    last[item.place] = number
                elif item.kind == "read" and (thread, number) not in entries and item.place in last:
                    after[thread, last[item.place]] = number + 1
        return after

    def writes_into(self):
        """For each relaxed write that is an entry, by thread and number, the first of the writes that went into it."""
        entries, first = set(self.history), {}
        for thread, strand in enumerate(self.strands):
            waiting = {}
            for number, item in enumerate(strand.items):
                if item.kind == "write" and item.relaxed:
                    begun = waiting.pop(item.place, number)
                    if (thread, number) in entries:
                        first[thread, number] = begun
                    else:
                        waiting[item.place] = begun
        return first


class Names:
    """The names of shared elements, from mode layout: `@1.0.4` is a[3]."""

    def __init__(self, layout, threads):
        rows = (re.fullmatch(r"(\w+) block (\d+) elements (\d+) size (\d+) pieces .*", line)
                for line in layout.splitlines())
        self.objects = [(row[1], int(row[2]), int(row[3]), int(row[4])) for row in rows if row]
        self.threads = threads

    def object(self, place):
        """The name of the object of a location, and the thread that the location is on."""
        number, thread, _ = map(int, place[1:].split("."))
        named = 0 < number <= len(self.objects)
        return self.objects[number - 1][0] if named else f"allocated {number - len(self.objects)}", thread

    def at(self, place):
        number, thread, offset = map(int, place[1:].split("."))
        if not 0 < number <= len(self.objects):
            return f"{self.object(place)[0]} on {thread} byte {offset}"
        name, block, elements, size = self.objects[number - 1]
        index, inside = divmod(offset, size)
        if block:
            index = (index // block * self.threads + thread) * block + index % block
        return name + (f"[{index}]" if elements > 1 else "") + (f" byte {inside}" if inside else "")

    def value(self, written):
        """A value as it is read: an integer, `&a[3]`, `lock 2` or null."""
        if written.startswith("l:"):
            return "null" if written == "l:0" else f"lock {written[2:]}"
        if written.startswith("p:"):
            parts = written.split(":")
            return "null" if parts[1] == "0" else "&" + self.at(f"@{parts[1]}.{parts[7]}.{parts[9]}")
        return written


def written(sign):
    """A character as a string of C has it."""
    return "\\" + sign if sign in '"\\' else sign if sign.isprintable() else sign.encode("unicode_escape").decode()


def called(words, names):
    """A collective call as it is written, from its item.

    That of upc_all_alloc has the number of a shape besides, and that of a reduction its type where it has a function.
    """
    number, values = words[1], [names.value(value) for value in words[3:]]
    name = "upc_all_" + MEETINGS.get(int(number), number)
    if number == ALLOCATION:
        values = values[:2]
    elif number in REDUCTIONS and len(values) == 7 and values[5] in map(str, range(len(ELEMENTS))):
        name, values[5] = name + ELEMENTS[int(values[5])], "0"
    return f"{name}({', '.join(values)})"


def told(item, names):
    """An item in words."""
    strict = " (strict)" if item.kind in ("read", "write") and not item.relaxed else ""
    if item.kind == "read":
        return f"{names.at(item.place)} is {names.value(item.reply.removeprefix('value '))}{strict}"
    if item.kind == "write":
        return f"{names.at(item.place)} = {names.value(item.words[3])}{strict}"
    if item.kind == "print":
        text = bytes.fromhex("" if item.words[1] == "-" else item.words[1]).decode(errors="replace")
        return 'prints "' + "".join(written(sign) for sign in text) + '"'
    if item.kind in ("notify", "wait") and item.words[1] == "none":
        return item.kind
    gave = item.reply.removeprefix("value ")
    if item.kind == "attempt":
        return f"tries lock {item.words[1]}: " + ("it has it" if gave == "flag 1" else "it is not free")
    said = called(item.words, names) if item.kind == "meet" else item.action
    if gave.startswith("refused "):
        return f"{said}: refused, E{gave[8:]}"
    return said if gave == "done" else f"{said} gives {names.value(gave)}"


def record_named(words):
    """The file after --record, where the words have one, and the other words."""
    for at, word in enumerate(words):
        name, sign, value = word.partition("=")
        if word == "--":
            break
        if name == "--record":
            after = at + 1 if sign else at + 2
            return value if sign else "".join(words[at + 1:after]), [*words[:at], *words[after:]]
    return None, list(words)


def recorded(words, usage):
    """The record of a run with its names: from mode record, or from the text in the file after --record.

    Answers besides what upc wrote on the error output, and its status.
    """
    text = None
    path, words = record_named(words)
    if path is not None:
        text = read_text(INPUT if path == "-" else path)
        if not text:
            raise Failed(f"{path or 'no file after --record'}: no text of a run", 102)
    call = Call(words, modes=False)
    if call.unknown or not call.file or text is None and "-T" not in call.options:
        raise Failed(usage, 100)
    error, status = "", 0
    if text is None:
        text, error, status = answer(call.words("record"))
        if error:
            sys.stderr.write(error)
        if not text:
            more = "\n      = --actions 1000 shows the beginning of a long run" if status == 109 else ""
            raise Failed(more.lstrip("\n"), status)
    record = Record(text, call.file)
    layout, refused, layout_status = answer(call.words("layout", T=len(record.strands)))
    if layout_status:
        raise Failed(refused.strip(), layout_status)
    return record, Names(layout, len(record.strands)), status
