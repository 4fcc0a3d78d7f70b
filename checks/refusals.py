#!/usr/bin/env python3
"""Calls the program with each of its requests for memory refused in turn, up to the first call in which none is refused.

    refusals.py PROGRAM REFUSING SCRATCH

REFUSING is what refuses, and tells that it did (refuse.c). A call in which a request was refused writes nothing but `no memory`, ends with status 8, and leaves
the files as they were, so that the same call with memory, made after it, does what it should; the others do that too. Three go on where docs/FORMATS.md has it
("Commands", "Exit statuses"): one of `simulate` that has reported less for want of memory leaves what `go` does, and a search that found none, and `measure` of a
set, which were refused room ahead for the digits of a number, leave their answer.
"""
import os
import subprocess
import sys
from concurrent.futures import ThreadPoolExecutor

import limits
import mnemonics
from rows import row_of
from shared import place_of

HERE = os.path.dirname(os.path.abspath(__file__))
MOST = 10_000
JOBS = 2
TERMS = ("programs", "a sign takes a whole term, mod and rem keep to their signs, division cuts towards zero")
ROWS = [
    TERMS,
    ("programs", "an exception of a handler passes by the other handlers of its sequence"),
    ("tasks", "a channel before its first line, at the very time of its line, and behind it"),
    ("entries", "who is served runs as soon as the active priority falls below its own"),
    ("entries", "a consumer that waits is served by the producer, before that goes on"),
    ("entries", "a caller that nobody serves"),
    ("interrupts", "a task that waits is served by a handler, and the next line's handler runs before it"),
]


def content(path):
    """The bytes of a file, None where there is none."""
    if not os.path.exists(path):
        return None
    with open(path, "rb") as file:
        return file.read()


def write(path, data):
    with open(path, "wb") as file:
        file.write(data)


class Call:
    """A call of the program in a folder of its own: its words and files, what it writes and its status, and the files that it leaves otherwise."""

    def __init__(self, name, words, files, out, err="", status=0, leaves=(), less=None):
        self.name, self.words, self.files, self.leaves, self.less = name, words, files, dict(leaves), less
        self.ample = (out.encode(), err.encode(), status)

    def prepare(self, folder):
        """Makes the files as they are before the call."""
        for name in {*self.files, *self.leaves}:
            path = os.path.join(folder, name)
            if os.path.exists(path):
                os.remove(path)
            if name in self.files:
                write(path, self.files[name])

    def attempt(self, program, refusing, folder, number):
        """Whether a request was refused in this call, 0 for none of them, and what went wrong, if anything did."""
        told = os.path.join(folder, "refused")
        if os.path.exists(told):
            os.remove(told)
        environment = {**os.environ, "LD_PRELOAD": refusing, "REFUSE": str(number), "REFUSED": told}
        run = subprocess.run([program, *self.words], cwd=folder, env=environment, capture_output=True, check=False)
        was_refused = os.path.exists(told)
        found = (run.stdout, run.stderr, run.returncode)
        expected = [(b"", b"no memory\n", 8), self.less] if was_refused else [self.ample]
        if found not in expected:
            return was_refused, f"status {run.returncode}, {run.stdout[-200:]!r}, {run.stderr!r}"
        for name in {*self.files, *self.leaves}:
            wanted = self.files.get(name) if was_refused else self.leaves.get(name, self.files.get(name))
            if content(os.path.join(folder, name)) != wanted:
                return was_refused, f"{name} is another file"
        return was_refused, None

    def attempt_all(self, program, refusing, folder):
        """How many requests were refused, each with a call with memory behind it, and what went wrong."""
        os.makedirs(folder)
        wrong = []
        for number in range(1, MOST):
            self.prepare(folder)
            was_refused, told = self.attempt(program, refusing, folder, number)
            wrong += [f"{self.name}: request {number}{' refused' if was_refused else ''}: {told}"] if told else []
            if not was_refused:
                return number - 1, wrong
            _, told = self.attempt(program, refusing, folder, 0)
            wrong += [f"{self.name}: again with memory, behind refused request {number}: {told}"] if told else []
        return MOST, [*wrong, f"{self.name}: no call without a refused request"]


def go_of(table, name):
    """A call by `go` of a row of a table."""
    source, schedule, limit, out, err, status = row_of(table, name)
    return Call(f"go: {name}", ["go", "main.adb", "input", limit], {"main.adb": source, "input": schedule}, out.decode(), err.decode(), status)


def example(name):
    folder = os.path.join(HERE, "..", "examples")
    return content(os.path.join(folder, name + ".adb")), content(os.path.join(folder, name + ".out")).decode()


def ample_call(program, folder, name, words, files, less=None):
    """A call that leaves what the program leaves with memory."""
    for file, data in files.items():
        write(os.path.join(folder, file), data)
    ran = subprocess.run([program, *words], cwd=folder, capture_output=True, text=True, check=False)
    call = Call(name, words, files, ran.stdout, ran.stderr, ran.returncode, less=less)
    call.less = call.ample if less == "the answer" else less
    return call


def calls_of_commands(program, folder):
    """Calls of the commands that report more than a run."""
    faulty = b"pragma Profile (Ravenscar);\npackage App is N : Integer := True; M : Nobody; end App;\npackage body App is end App;\n"
    faulty += b"with App;\nprocedure Main is begin null; end Main;\n"
    entry, _, _, lines, _, status = row_of("entries", "a caller that nobody serves")
    raised, _, _, raised_lines, _, raised_status = row_of("programs", "an exception of a handler passes by the other handlers of its sequence")
    tank = example("tank")[0]
    schedule, choices = content(os.path.join(HERE, "..", "examples", "tank.schedule")), b"0 1 50|90\n8000 1 70|-\n"
    files = {"main.adb": tank, "input": schedule}
    whole_ada = b"package Q is\n   A, B : Integer := 16#F#;\n   procedure F;\n   pragma Inline (F);\nend;\n"
    calls = [
        ("check", ["check", "main.adb"], files, None),
        ("check of a text with faults", ["check", "main.adb"], {"main.adb": faulty}, None),
        ("format", ["format", "main.adb"], files, None),
        ("lower", ["lower", "main.adb"], {"main.adb": whole_ada}, None),
        ("lower of a refused text", ["lower", "main.adb"], {"main.adb": b"procedure Main is begin select null; end select; end Main;\n"}, None),
        ("simulate", ["simulate", "main.adb", "input"], files, None),
        ("simulate of a refused text", ["simulate", "main.adb"], {"main.adb": faulty}, (b"", b"fault 18 at 2:9\n", 2)),
        ("simulate of a run that waits", ["simulate", "main.adb"], {"main.adb": entry}, (lines, b"", status)),
        ("simulate of an exception", ["simulate", "main.adb"], {"main.adb": raised}, (raised_lines, b"", raised_status)),
        ("trace", ["trace", "main.adb", "input", "1000"], files, None),
        ("trace --vcd", ["trace", "--vcd", "main.adb", "input", "1000"], files, None),
        ("trace --vcd --time", ["trace", "--vcd", "--time", "main.adb", "input", "1000"], files, None),
        ("trace --chart", ["trace", "--chart", "main.adb", "input", "1000"], files, None),
        ("trace --svg", ["trace", "--svg", "main.adb", "input", "1000"], files, None),
        ("measure", ["measure", "main.adb", "input", "1000"], files, None),
        ("measure --tsv", ["measure", "--tsv", "main.adb", "input", "1000"], files, None),
        ("measure up to a time", ["measure", "main.adb", "input", "1000", "--until", "9000"], files, None),
        ("measure of a set", ["measure", "main.adb", "choices", "20000", "1000"], {"main.adb": tank, "choices": choices}, "the answer"),
        ("search that finds none", ["search", "main.adb", "choices", "20000", "1000"], {"main.adb": tank, "choices": choices}, "the answer"),
        ("search that finds a line", ["search", "main.adb", "choices", "20000", "1000", "line", "alarm"], {"main.adb": tank, "choices": choices}, None),
        ("search of a part", ["search", "main.adb", "choices", "20000", "1000", "line", "alarm", "--part", "2/2"], {"main.adb": tank, "choices": choices}, None),
        ("explain of a number", ["explain", "52"], {}, None),
        ("manual", ["manual"], {}, None),
        ("version", ["version"], {}, None),
        ("explain of a text", ["explain", "12", "main.adb"], {"main.adb": faulty}, None),
    ]
    return [ample_call(program, folder, *call) for call in calls]


def calls_of(program, folder):
    """The calls, each of which the program makes once with ample memory first where its image or listing is to be compared."""
    empty = {"empty": b""}
    terms, _, _, out, _, _ = row_of(*TERMS)
    term_lines = out.decode()
    found = [
        *(go_of(*row) for row in ROWS),
        Call("go of a refused text", ["go", "main.adb", "empty", "1"], {"main.adb": b"procedure Main is begin null; end Main;", **empty}, "", "fault 39 at 1:1\n", 2),
        Call("go with a refused schedule", ["go", "main.adb", "faulty", "1"], {"main.adb": terms, "faulty": b"5 1 7\n4 1 7\n"}, "", "schedule fault 51 at line 2\n", 7),
    ]
    for name in ("state_machine", "calculator", "producer_consumer"):
        text, lines = example(name)
        found.append(Call(f"go of {name}", ["go", "main.adb", "empty", "100000"], {"main.adb": text, **empty}, lines))
    text, lines = example("sampler")
    schedule = content(os.path.join(HERE, "..", "examples", "sampler.schedule"))
    found.append(Call("go of sampler", ["go", "main.adb", "input", "100000"], {"main.adb": text, "input": schedule}, lines))
    write(os.path.join(folder, "main.adb"), terms)
    subprocess.run([program, "compile", "main.adb", "main.img"], cwd=folder, check=True)
    image = content(os.path.join(folder, "main.img"))
    listing = subprocess.run([sys.executable, os.path.join(HERE, "listing.py"), "main.img"], cwd=folder, check=True, capture_output=True, text=True).stdout
    words = ["compile", "main.adb", "new.img"]
    found += [
        Call("compile to a new file", words, {"main.adb": terms}, "", leaves={"new.img": image}),
        Call("compile over a file", words, {"main.adb": terms, "new.img": b"what was there"}, "", leaves={"new.img": image}),
        Call("list", ["list", "main.img"], {"main.img": image}, listing),
        Call("run", ["run", "main.img", "empty", "100000"], {"main.img": image, **empty}, term_lines),
        Call("run of a handler of interrupts", ["run", "main.img", "empty", "1"], {"main.img": mnemonics.image_of("handled"), **empty}, "ended at 0\n"),
        Call("run of a refused image", ["run", "main.img", "empty", "1"], {"main.img": mnemonics.image_of("return_alone 102=00"), **empty}, "", "image fault 43 at byte 102\n", 6),
        Call("usage", ["go", "main.adb", "empty", "x"], {}, "", "usage\n", 1),
    ]
    text, mark = limits.large(*limits.LARGE_BODIES[0][:2])
    explained = subprocess.run([program, "explain", "23"], check=True, capture_output=True, text=True).stdout
    told = explained + limits.frame_line("GO", place_of(text, mark))
    found.append(Call("explain of code that passes a limit", ["explain", "23", "main.adb"], {"main.adb": text.encode()}, told))
    return found + calls_of_commands(program, folder)


def main():
    program, refusing, scratch = (os.path.abspath(word) for word in sys.argv[1:])
    os.makedirs(scratch)
    calls = calls_of(program, scratch)
    with ThreadPoolExecutor(JOBS) as pool:
        tried = list(pool.map(lambda call: call.attempt_all(program, refusing, os.path.join(scratch, call.name)), calls))
    failed = False
    for call, (refused, wrong) in zip(calls, tried):
        for told in wrong:
            print(f"refusals: {told}", file=sys.stderr)
        print(f"refusals: {call.name}: {refused} requests for memory refused in turn")
        failed = failed or wrong or not refused
    return 1 if failed else 0


if __name__ == "__main__":
    sys.exit(main())
