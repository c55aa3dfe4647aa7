"""What the source around a place tells of a refusal or a run error, in sentences: what `why` says beside the pages.

Each function here takes a `Spot` and gives sentences; none of them looks at more than the text, so a hint may be wrong
where a macro or an odd layout stands in the way.
"""
import difflib
import re

from runs import TOP, read_text

WORDS = ("upc_barrier", "upc_notify", "upc_wait", "upc_fence", "upc_forall", "upc_localsizeof", "upc_blocksizeof",
         "upc_elemsizeof", "MYTHREAD", "THREADS", "UPC_MAX_BLOCK_SIZE", "shared", "strict", "relaxed", "upc_lock_t")
INSTEAD = {
    "malloc": "private arrays have a constant size; shared memory is from upc_alloc and its kin",
    "calloc": "as malloc; what is not initialised begins with 0 anyway",
    "free": "upc_free frees shared memory; a private object ends with its block",
    "puts": 'printf("..\\n")', "putchar": 'printf("%c", c)', "fflush": "nothing: the output is written after the run",
    "fprintf": "printf: there is one output", "exit": "upc_global_exit(v), or a return from main",
    "abort": "upc_global_exit(1)", "assert": "if (!(condition)) upc_global_exit(1)", "memset": "a loop",
    "memcpy": "a loop", "strlen": "a loop up to the 0", "strcmp": "a loop", "abs": "x < 0 ? -x : x",
    "rand": "a generator of your own on unsigned int", "srand": "as rand", "time": "nothing: there is no clock",
    "upc_local_alloc": "upc_alloc(n * size)", "upc_poll": "nothing", "upc_ticks_now": "nothing: there is no clock",
    "upc_resetphase": "a cast to another block size and back", "upc_lock_init": "upc_all_lock_alloc()",
    "INT_MAX": "2147483647", "INT_MIN": "(-2147483647 - 1)", "EOF": "nothing: there is no input", "true": "1",
    "false": "0", "bool": "int", "main": "no call of main",
    "UPC_FUNC": "an operator such as UPC_ADD: a reduction has no function of its own",
    "UPC_NONCOMM_FUNC": "as UPC_FUNC",
}
CONVERSION = re.compile(r"%[-+ #0-9.*]*(?:hh|h|ll|l|z|j|t|L)?[A-Za-z%]?")
TAKEN = re.compile(r"%0?(?:[1-9][0-9]?)?(?:d|i|u|x|c|ld|lu|lx)|%%")
SIGNS = {"s": "the text in the format itself, or a loop of %c", "p": "upc_threadof and upc_addrfield tell a place",
         "f": "the profile has integers alone", "zu": "%lu", "lld": "%ld: long long is long", "llu": "%lu", "X": "%x"}


MOST = 100  # bytes of a long line that are shown on each side


class Spot:
    """A place in a source, with what `upc` said of it: the code, the line (from 1) and the column in bytes (from 1).

    `line` is what is shown of the line, and `margin` its part before the place.
    """

    def __init__(self, source, code, line, column, layout=""):
        self.source, self.code, self.layout = source, code, layout
        self.lines = source.split("\n")
        self.text = self.lines[line - 1] if line <= len(self.lines) else ""
        whole = self.text.encode(errors="surrogateescape")
        self.before, self.after = (part.decode(errors="replace") for part in (whole[:column - 1], whole[column - 1:]))
        self.margin = self.shown(self.before[-MOST:])
        self.line = self.margin + self.shown(self.after[:MOST])
        self.before, self.after = self.before[-2000:], self.after[:2000]
        self.number = line
        name = re.match(r"[A-Za-z_]\w*", self.after)
        self.name = name[0] if name else ""

    @staticmethod
    def shown(text):
        """A part of the line for a terminal: what is no character of a text is a `?`."""
        return "".join(sign if sign == "\t" or sign.isprintable() else "?" for sign in text.rstrip("\r"))

    def line_of(self, pattern):
        """The first line of the source with this pattern, 0 where there is none."""
        return next((n for n, line in enumerate(self.lines, 1) if re.search(pattern, line)), 0)


def library():
    """The calls that docs/LANGUAGE.md lists."""
    text = read_text(TOP / "docs" / "LANGUAGE.md")
    return set(re.findall(r"\b(upc_\w+|printf)\(", text)) | set(re.findall(r"`(upc_all_\w+)`", text))


def undeclared(spot):
    if spot.name in INSTEAD:
        yield f"`{spot.name}` is not in the library of the profile; in its place: {INSTEAD[spot.name]}"
        return
    below = spot.line_of(rf"^[\w\s*\[\]]+\b{re.escape(spot.name)}\s*[\[(;=,]") if spot.name else 0
    if below > spot.number:
        yield f"`{spot.name}` is declared at line {below}: declare it above its use, a function by a prototype"
        return
    known = set(re.findall(r"[A-Za-z_]\w*", spot.source)) - {spot.name} | library() | set(WORDS)
    like = sorted(name for name in known if abs(len(name) - len(spot.name)) < 3)[:5000]
    near = difflib.get_close_matches(spot.name, like, 2, 0.75) if spot.name else []
    if near:
        yield f"no `{spot.name}` is declared; near it: " + ", ".join(f"`{name}`" for name in near)


def declared_twice(spot):
    name = re.search(r"([A-Za-z_]\w*)", spot.after)
    if name and name[1] in library():
        yield f"`{name[1]}` is a call of the library: give yours another name"
    elif name:
        first = spot.line_of(rf"\b{re.escape(name[1])}\s*[\[(;=,{{]")
        if first and first != spot.number:
            yield f"`{name[1]}` stands at line {first} already"


def no_main(spot):
    void, words = spot.line_of(r"\bvoid\s+main\b"), spot.line_of(r"\bmain\s*\(\s*(?!void\b)\w")
    if void:
        yield f"line {void} has `void main`: write `int main(void)`, and `return 0;` at its end"
    if words:
        yield f"line {words}: main has no parameters here: make a #define of what the command line gave"
    if not void and not words and spot.line_of(r"\bmain\b"):
        yield f"line {spot.line_of(r'main')}: main's result is int: write `int main(void)`"


def format_of_printf(spot):
    text = re.search(r'"((?:[^"\\]|\\.)*)"', spot.after)
    if not text:
        yield "the first argument is a string in the source, such as \"%d\\n\""
        return
    wrong = next((sign[0] for sign in CONVERSION.finditer(text[1]) if not TAKEN.fullmatch(sign[0])), None)
    if wrong:
        ask = next((f"; in its place: {said}" for sign, said in SIGNS.items() if wrong.endswith(sign)), "")
        yield f"`{wrong}` is no conversion of the profile (%d %i %u %x %c of int, %ld %lu %lx of long){ask}"
    else:
        signs = [sign[0] for sign in CONVERSION.finditer(text[1]) if sign[0] != "%%"]
        yield (f"the format asks for {len(signs)} argument{'' if len(signs) == 1 else 's'}"
               + ": " * bool(signs) + ", ".join(f"{sign} {'long' if 'l' in sign else 'int'}" for sign in signs))
    if re.search(r"sizeof|upc_(threadof|phaseof|addrfield|affinitysize)", spot.after):
        yield "sizeof, upc_threadof and their kin give size_t: %lu, or a cast to int"


def declaration(spot):
    """What stands before and at the first use of the first name from the place on, mostly its declaration."""
    name = re.search(r"[A-Za-z_]\w*", spot.after)
    found = re.search(rf"\b{name[0]}\b", spot.source) if name else None
    if not found:
        return spot.text
    begins = max(spot.source.rfind(sign, 0, found.start()) for sign in ";{}") + 1
    return spot.source[begins:found.end()]


def conversion(spot):
    """Typing 12, for what UPC programs mostly meet there, by the declaration of the first name from the place on."""
    declared = declaration(spot)
    if re.search(r"shared\s+void\s*\*", declared):
        yield "`shared void *` is for parameters of the library: give the pointer the type of what it leads to"
    elif re.search(r"\bvoid\s*\*\s*\w+$", declared):
        yield "a `void *` of your own takes no pointer: give it the type of what it leads to"
    elif "shared" in declared and re.search(r"\bshared\s*\[", spot.source):
        yield ("the block size is part of a pointer's type: `shared [4] int *` for a `shared [4] int a[16]`; a cast to"
               " another one counts another way from there")
    elif "shared" not in declared and "shared" in spot.source and "*" in declared:
        yield ("a pointer to private takes the address of a shared element by a cast alone, `(int *)&a[i]`, on the"
               " thread that has it")


def called(spot):
    """Typing 10: how the function is declared."""
    words = re.search(rf"`({spot.name}\([^`]*\))`", read_text(TOP / "docs" / "LANGUAGE.md")) if spot.name else None
    defined = re.search(rf"\b{spot.name}\s*\(([^()]*)\)\s*\{{", spot.source) if spot.name else None
    if words:
        yield f"it is `{words[1]}`" + (", where SV stands for `shared void *`" if "SV" in words[1] else "")
    elif defined:
        count = 0 if defined[1].strip() in ("", "void") else defined[1].count(",") + 1
        yield f"`{spot.name}` has {count or 'no'} parameter{'' if count == 1 else 's'}"
    elif spot.name and re.search(rf"\b{spot.name}\s*\([^()]*\)\s*;", spot.source):
        yield f"`{spot.name}` has no body in this file, and a program is one file"


def rows(spot):
    """Typing 18: a row of an array of arrays."""
    name = re.search(r"([A-Za-z_]\w*)\s*((?:\[[^]]*\])*)", spot.after)
    if name and re.search(rf"\b{name[1]}\s*\[[^]]{{0,99}}\]\s*\[", spot.source):
        yield f"`&{name[1]}{name[2] or '[0]'}[0]` is the first element of a row, where a pointer to it is wanted"


def allocation(spot):
    """Typing 29: where the result of an allocation goes."""
    goes = re.split(r"[;{}]", spot.before)[-1]
    if re.search(r"shared\s+void", goes or spot.text) or re.search(r"shared\s+void\s*\*", spot.source):
        yield "a `shared void *` keeps no result of an allocation: give the pointer the type of what it leads to"
    elif "shared" not in goes:
        yield "what is allocated is shared: `shared [] int *p = upc_alloc(n * sizeof(int));`"


def plain_text(source):
    """A source without comments, strings and characters."""
    return re.sub(r"/\*.*?\*/|//[^\n]*|\"(?:[^\"\\\n]|\\.)*\"|'(?:[^'\\\n]|\\.)*'", " ", source, flags=re.S)


def is_open(spot):
    """Whether the file ends at the place with more `{` than `}`."""
    plain = plain_text(spot.source)
    below = "".join(spot.lines[spot.number:]) + re.sub(r"^\W?\w*", "", spot.after)
    return not below.strip() and plain.count("{") > plain.count("}")


def forms(spot):
    """Forms of C99 that the grammar does not have."""
    if re.match(r":", spot.after) and re.search(r"\b(unsigned|signed|char|short|int|long)\s+\w+\s*$", spot.before):
        yield "there are no fields of bits: `&`, `|` and shifts of an integer"
    elif re.match(r":", spot.after) and re.search(r"(^|[;{}])\s*[A-Za-z_]\w*\s*$", spot.before):
        yield "there are no labels but those of a switch: a flag that the loops test, or a function"
    if re.match(r"\(\s*\*", spot.after):
        yield "there are no pointers to functions or to arrays: a number and a `switch`, or a pointer to an element"
    if re.search(r"\bswitch\s*\((?:[^()]|\([^()]*\))*\)\s*$", spot.before):
        yield "a switch has braces: `switch (n) {case 1: ..}`"
    if re.match(r"\[", spot.after) and re.search(r"\([^;{}]*\[[^]]*\]$", spot.before[-200:]):
        yield "a parameter has one dimension: `int *a`, and an index that is computed"


def syntax(spot):
    yield from forms(spot)
    if not plain_text(spot.source).strip():
        yield "there is no token in the file"
    elif is_open(spot):
        yield "the file ends while a `{` is open: a `}` is missing somewhere above"
    elif re.match(r"[{;]", spot.after) and not re.search(r"\b(for|upc_forall)\b", spot.before) \
            and spot.before.count("(") > spot.before.count(")"):
        yield "a `(` of this line is not closed before this place"
    if re.search(r"\bupc_(barrier|fence|notify|wait)\s*\(\s*$", spot.before):
        yield "upc_barrier, upc_notify, upc_wait and upc_fence are statements, not calls: write `upc_barrier;`"
    if re.match(r"static\b", spot.after):
        yield "`static` stands at the file alone: move the object out of the function"
    if re.match(r"\]", spot.after) and spot.before.endswith("["):
        yield "an array has its size written: `int a[3] = {1, 2, 3};`"
    if re.match(r"\}", spot.after) and re.search(r",\s*$", spot.before):
        yield "no comma stands after the last value in braces"
    if re.match(r"\{", spot.after) and re.search(r"\{[^;]*$", spot.before):
        yield "braces inside braces are no initialiser here: one dimension, or a loop in main"
    if re.match(r"\{", spot.after) and re.search(r"\bstruct\s*$", spot.before):
        yield "a struct has a tag: `struct point {int x;} a;`"
    if re.search(r"#\s*pragma\s+upc", spot.text):
        yield "`#pragma upc` stands at the file, or directly after the { of a block"
    if re.search(r"\bupc_forall\s*\([^()]*;[^();]*;[^();]*$", spot.before) and spot.after.startswith(")"):
        yield "upc_forall has a fourth part: `&a[i]`, `i`, or `continue`"
    above = next((line for line in reversed(spot.lines[:spot.number - 1]) if line.strip()), "")
    if not spot.before.strip() and re.search(r"[\w\])]\s*$", re.sub(r"//.*|/\*.*?\*/", "", above)) \
            and not above.lstrip().startswith("#"):
        yield "the line above may want a `;` at its end"


def string(spot):
    if re.search(r"=\s*$", spot.before):
        yield "a string is no initialiser: characters in braces, and the size"
    else:
        yield "printf has no %s: the text in the format itself, or a loop of %c"


def tokens(spot):
    if spot.number == 1 and spot.source.startswith("\ufeff"):
        yield "the file begins with a byte order mark: save it without"
    if re.match(r"[0-9]*\.[0-9]|[0-9]+\.", spot.after):
        yield "this is a floating constant: the profile has integers alone"
    if re.match(r"\\\s*$", spot.after):
        yield "a line is not continued by \\ here: write it as one line, or let bin/pre do it"
    if re.match(r"""["'](?:[^"'\\]|\\.)*\\(x|[1-9])""", spot.after):
        yield "escapes by number are not taken: write the number, or one of \\n \\t \\r \\a \\b \\f \\v \\0"


def directive(spot):
    if re.search(r"#\s*(if|ifdef|ifndef|else|elif|endif)\b", spot.text):
        yield "bin/pre FILE chooses the text of #if by the system's cpp, outside of what is proved"
    if re.search(r"#\s*define\s+\w+\(", spot.text):
        yield "a macro with parameters: write it as a function, or let bin/pre expand it (outside of what is proved)"
    header = re.search(r'#\s*include\s*(<[^>]*>|"[^"]*")', spot.text)
    if header and header[1].startswith('"'):
        yield f"a header of your own: bin/pre FILE puts the text of {header[1]} in its place"
    elif header:
        yield f"there is no {header[1]}: leave it out; docs/LANGUAGE.md has what the library has, known in every file"


def outside(spot):
    """E5: how many elements the object at the place has."""
    row = re.search(rf"^{re.escape(spot.name)} block \d+ elements (\d+) ", spot.layout, re.M) if spot.name else None
    if row and row[1] != "1":
        yield f"`{spot.name}` has {row[1]} elements, {spot.name}[0] to {spot.name}[{int(row[1]) - 1}]"


def ranges(spot):
    """E18 of a call that copies: a range with a part of an element."""
    if re.match(r"upc_(mem|all_)", spot.after):
        yield "a range has whole elements of one type on both sides: so many times `sizeof` of one are its bytes"


def sizes(spot):
    if re.search(r"\bTHREADS\b", spot.text):
        yield "THREADS is a constant here; a name that `const` declares is none"
    elif re.search(r"\[\s*[A-Za-z_]\w*\s*\]", spot.text):
        yield "an object is no constant, `const` or not: `#define N 8`"


FOR = {
    "typing 1": undeclared, "typing 2": declared_twice, "typing 3": no_main, "typing 6": sizes, "typing 10": called,
    "typing 12": conversion, "typing 18": rows, "typing 28": format_of_printf, "typing 29": allocation,
    "typing 30": string,
    "syntax": syntax, "lex": tokens, "directive": directive, "E5": outside, "E18": ranges,
}


def hints(spot):
    return list(FOR[spot.code](spot)) if spot.code in FOR else []
