"""What the checks of the built program share: calls and what is expected of them, files of a scratch folder, places in texts."""

import os
import re
import subprocess
import sys
from dataclasses import dataclass

CHECKS = os.path.dirname(os.path.realpath(__file__))
EMPTY_SCHEDULE = "/dev/null"
STEPS = "100000"


@dataclass
class Called:
    """What a call has left: its exit status, standard output and standard error."""

    status: int
    out: str
    err: str

    def leaves(self, status, out, err):
        """Whether it has left this; line feeds at the end don't count."""
        return self.status == status and self.out.rstrip("\n") == out.rstrip("\n") and self.err.rstrip("\n") == err.rstrip("\n")


def call(*words, **others):
    """Calls a command, and gives what it has left; bytes that are no UTF-8 are kept."""
    streams = {"stdout": subprocess.PIPE, "stderr": subprocess.PIPE, **others}
    ran = subprocess.run(words, check=False, encoding="utf-8", errors="surrogateescape", **streams)
    return Called(ran.returncode, ran.stdout or "", ran.stderr or "")


def make(*words):
    """Calls a command that makes what checks need, and gives what it writes; where it fails, nothing after it can be checked."""
    made = call(*words)
    if made.status:
        sys.exit(f"end_to_end: {' '.join(words)}: status {made.status}\n{made.err}")
    return made.out


def make_by(script, *words):
    return make(sys.executable, os.path.join(CHECKS, script), *words)


class Checks:
    """Counts what is as expected, and shows what isn't."""

    def __init__(self, program, watcher, scratch):
        self.program, self.watcher, self.scratch = program, watcher, scratch
        self.passed, self.failed = 0, 0

    def path(self, name):
        return os.path.join(self.scratch, name)

    def file(self, name, text):
        """Writes a file of the scratch folder, and gives its path."""
        with open(self.path(name), "wb") as file:
            file.write(text if isinstance(text, bytes) else text.encode("utf-8", "surrogateescape"))
        return self.path(name)

    def expect(self, name, called, status, out="", err=""):
        if called.leaves(status, out, err):
            self.passed += 1
        else:
            self.failed += 1
            shown = [f"end_to_end: {name}: status {called.status}, standard output:", called.out, "standard error:", called.err]
            print("\n".join(shown), file=sys.stderr)

    def go(self, name, text, status, out="", err=""):
        """Runs a text by `go`, and expects this."""
        source = self.file("source", text)
        self.expect(name, call(self.program, "go", source, EMPTY_SCHEDULE, STEPS), status, out, err)

    def script(self, name, words, told=None):
        """Runs a script of checks, which ends well and writes this on standard output, or whatever it writes."""
        ran = call(sys.executable, os.path.join(CHECKS, words[0]), *words[1:])
        self.expect(name, ran, 0, ran.out if told is None else told)
        if told is None:
            print(ran.out, end="", flush=True)


def lines_of_trace(trace):
    """The lines of a run, with its last line, of its trace."""
    *rows, last = trace.splitlines() or [""]
    written = [found[1] for row in rows if (found := re.search(r"^\S+ \S+ \S+ writes (.*?)(?: at \d+:\d+)?$", row))]
    return "".join(f"{line}\n" for line in [*written, last]) if trace else ""


def text_of(path):
    with open(path, encoding="utf-8") as file:
        return file.read()


def place_of(text, at):
    """The line and the column of a byte of an ASCII text, both from 1, as the program writes them."""
    return f"{text.count(chr(10), 0, at) + 1}:{at - (text.rfind(chr(10), 0, at) + 1) + 1}"


def place_of_mark(text, mark, without):
    """The line and the column of a mark, in the text that is left when `without` has taken away all marks before it."""
    before = without(text[: text.index(mark)])
    return place_of(before, len(before))
