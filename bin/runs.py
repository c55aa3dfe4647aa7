"""Calls of upc and their words: what the scripts of this folder share.

They call `upc` beside them, or the program that $UPC_BINARY names.
"""
import functools
import os
import pathlib
import subprocess
import sys
import tempfile
import threading

TOP = pathlib.Path(__file__).resolve().parent.parent
MODES = ("run", "record", "races", "replica", "check", "layout", "sample", "verify")
INPUT = "/dev/stdin"  # the file that is what comes in
WITH_NUMBER = {"-T": 32, "--budget": 1_000_000_000_000, "--actions": 8_388_608}  # each with the most that it takes


def program():
    given = os.environ.get("UPC_BINARY")
    return os.path.abspath(given) if given else str(TOP / "bin" / "upc")


class Failed(Exception):
    """What a script says on the error output before it ends, and its status."""

    def __init__(self, line, status):
        super().__init__(line)
        self.line, self.status = line, status


class Call:
    """The words of a command line: mode, file and options, in any order; a word that is none of them is `unknown`.

    In mode `verify` a record follows the file. After `--` stand these alone. An option that is given again is in `twice`.
    """

    def __init__(self, words, modes=True):
        self.mode, self.file, self.record, self.options, self.unknown, self.twice = None, None, None, {}, [], []
        left, plain = list(words), False
        while left:
            word = left.pop(0)
            option = next((name for name in WITH_NUMBER if word == name or word.startswith(name + "=")
                           or name == "-T" and word.startswith(name)), None)
            if option and not plain:
                self.twice += [option] if option in self.options else []
                value = word[len(option):].removeprefix("=") or (left.pop(0) if left else "")
                self.options[option] = value
            elif word == "--" and not plain:
                plain = True
            elif word.startswith("-") and word != "-" and not plain:
                self.unknown.append(word)
            elif modes and self.mode is None:
                self.mode = word
            elif self.file is None:
                self.file = word
            elif self.mode == "verify" and self.record is None:
                self.record = word
            else:
                self.unknown.append(word)

    def words(self, mode, **other):
        """These words for another mode, with options set by `other`: T, budget, actions."""
        options = {**self.options, **{("-T" if key == "T" else "--" + key): str(value) for key, value in other.items()}}
        return [*(part for option in options.items() for part in option), "--", mode,
                *([self.file] if self.file is not None else [])]


@functools.cache
def given_input():
    """What came in, in a file, since several calls may read it."""
    kept = tempfile.TemporaryFile()
    kept.write(sys.stdin.buffer.read() if sys.stdin else b"")
    return kept


def answer(words, shows=False):
    """The output, the error output and the status of a call of upc.

    With `shows` the output goes to that of the script, and none is answered. The line that the program is built first
    is passed on at once; building takes long.
    """
    kept = given_input() if INPUT in words else subprocess.DEVNULL
    if INPUT in words:
        kept.seek(0)
    try:
        call = subprocess.Popen([program(), *words], stdin=kept, stdout=None if shows else subprocess.PIPE,
                                stderr=subprocess.PIPE)
    except (OSError, ValueError) as error:
        raise Failed(f"{program()} does not run: {getattr(error, 'strerror', None) or error}", 127) from None
    said = []

    def listen():
        for line in call.stderr:
            if line.startswith(b"upc: building"):
                print(line.decode(errors="replace").rstrip("\n"), file=sys.stderr, flush=True)
            else:
                said.append(line)

    listening = threading.Thread(target=listen)
    listening.start()
    out = b"" if shows else call.stdout.read()
    listening.join()
    status = call.wait()
    return out.decode(errors="replace"), b"".join(said).decode(errors="replace"), 128 - status if status < 0 else status


def read_text(path):
    """The text of a file, nothing where it cannot be read; bytes that are no UTF-8 are kept, so columns stay."""
    try:
        if path == INPUT:
            given_input().seek(0)
            return given_input().read().decode(errors="surrogateescape")
        return pathlib.Path(path).read_bytes().decode(errors="surrogateescape")
    except (OSError, ValueError):
        return ""


def page_of(script):
    """What the words -h and --help print: the usage and what the script is, from its names."""
    print(script["USAGE"], script["__doc__"].strip(), sep="\n\n")
    return 0


def last_words(line=""):
    """A line on the error output, where that can be written; what a stream cannot take is dropped."""
    try:
        if line:
            print(line, file=sys.stderr)
    except OSError:
        pass
    for stream, number in ((sys.stdout, 1), (sys.stderr, 2)):
        try:
            stream.flush()
        except OSError:
            os.dup2(os.open(os.devnull, os.O_WRONLY), number)


def run_script(main, name):
    """Ends the script with what `main` answers; no input ends it with a traceback.

    Where its output is closed or cannot be written, the status is 103, as that of upc.
    """
    is_closed = sys.stdout is None
    sys.stdout, sys.stderr = (stream or open(os.devnull, "w", encoding="utf-8") for stream in (sys.stdout, sys.stderr))
    sys.stdout.reconfigure(errors="backslashreplace")
    words = sys.argv[1:]
    is_asked = {"-h", "--help"} & set(words[:words.index("--")] if "--" in words else words)
    try:
        status = page_of(main.__globals__) if is_asked else main(words)
        sys.stdout.flush()
    except Failed as failed:
        starts = ("usage", " ", "upc:")
        last_words(failed.line if not failed.line or failed.line.startswith(starts) else f"{name}: {failed.line}")
        status = failed.status
    except BrokenPipeError:
        last_words()
        status = 103
    except OSError as error:
        last_words(f"{name}: {error.strerror or error}")
        status = 103
    except KeyboardInterrupt:
        status = 130
    sys.exit(103 if is_closed and status == 0 else status)
