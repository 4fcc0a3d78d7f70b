#!/usr/bin/env python3
"""Runs programs with as many tasks, protected objects and subprograms as there may be at once (docs/LANGUAGE.md, "Limits"), one of them with as many frames of each task,
words and lines of a schedule, too, by each command that takes a source, by `run` and `list`, and with exclusion after each of the first 3,000 steps.

    full_programs.py PROGRAM WATCHER SCRATCH
"""
import os
import re
import subprocess
import sys
from xml.etree import ElementTree

sys.dont_write_bytecode = True
import listing  # noqa: E402 (no file of it is to be kept)
from shared import lines_of_trace  # noqa: E402

TASKS = OBJECTS = 64
SUBPROGRAMS, FRAMES, WORDS, LINES = 128, 128, 8_192, 4_096
# Those of an image: a task's body, and main's, is one too.
IMAGE_SUBPROGRAMS = SUBPROGRAMS + TASKS + 1
LIMIT = 1_000_000
# Steps after which exclusion is looked at, where there are as many: each look goes over all tasks and objects.
WATCHED = 3_000
SVG = "{http://www.w3.org/2000/svg}svg"

FRAME = """pragma Profile (Ravenscar);
with Ada.Real_Time; use Ada.Real_Time;
with Control_IO; use Control_IO;
package App is
{}
end App;
package body App is
{}
end App;
with App;
procedure Main{} is begin App.Run; end Main;
"""


def program_of(declarations, bodies, main=""):
    return FRAME.format("\n".join([*declarations, "procedure Run;"]), "\n".join(bodies), main)


def turns(main, order):
    """Each task writes once, in the order of declaration among those of one priority, to which main may belong."""
    numbers = range(1, TASKS + 1)
    declarations = [f"task T{n} with Priority => 5;" for n in numbers]
    bodies = [f'task body T{n} is begin Put ("n", 1); end T{n};' for n in numbers]
    bodies.append('procedure Run is begin Put ("n", 1); end Run;')
    tasks = [f"0 T{n} n 1" for n in numbers]
    return program_of(declarations, bodies, main), order(tasks), TASKS + 2


def nested():
    """Main and all tasks sleep, each until a time of its own, the last declared task the shortest. Who wakes calls the first object, which calls the second one, and so on up
    to the last one: all are open then. There the first one is called again, which is refused, and the number of the task is added up."""
    numbers = range(1, OBJECTS + 1)
    declarations = ["procedure Deepest (N : Integer);", "Sum : Integer := 0;"]
    declarations += [f"protected P{n} with Priority => 20 is procedure Go (N : Integer); end P{n};" for n in numbers]
    declarations += [f"task T{n} with Priority => 5;" for n in range(1, TASKS + 1)]
    # the subprograms besides these: so many as are left
    others = [f"Q{n}" for n in range(1, SUBPROGRAMS - OBJECTS - 1)]
    bodies = [f"procedure {name} is begin null; end {name};" for name in others]
    bodies += [
        f"protected body P{n} is procedure Go (N : Integer) is begin " + (f"P{n + 1}.Go (N);" if n < OBJECTS else "Again (N);") + f" end Go; end P{n};"
        for n in numbers
    ]
    bodies = [body.replace("Again (N)", "Sum := Sum + N; P1.Go (0)") for body in bodies]
    bodies.append("procedure Deepest (N : Integer) is begin P1.Go (N); exception when Program_Error => null; end Deepest;")
    bodies += [
        f'task body T{n} is begin delay until Clock + Microseconds ({TASKS + 1 - n}); Deepest ({n}); Put ("sum", Sum); end T{n};'
        for n in range(1, TASKS + 1)
    ]
    bodies.append(f'procedure Run is begin delay until Clock + Microseconds ({TASKS + 1}); Deepest (1000); Put ("sum", Sum); end Run;')
    lines, total = [], 0
    for n in range(TASKS, 0, -1):
        total += n
        lines.append(f"{TASKS + 1 - n} T{n} sum {total}")
    return program_of(declarations, bodies), [*lines, f"{TASKS + 1} MAIN sum {total + 1000}", f"ended at {TASKS + 1}"], IMAGE_SUBPROGRAMS


def served():
    """Each task calls the entry of an object of its own, of which the last alone is open. Main opens the others from the last to the first, and serves each caller."""
    numbers = range(1, OBJECTS + 1)
    declarations = [
        f"protected P{n} with Priority => 20 is " + (f"procedure Open (N : Integer); " if n < OBJECTS else "") + "entry Take (X : out Integer);"
        f" private V : Integer := {n}; Due : Boolean := {n == OBJECTS}; end P{n};"
        for n in numbers
    ]
    declarations += [f"task T{n} with Priority => 5;" for n in numbers]
    bodies = [
        f"protected body P{n} is " + ("procedure Open (N : Integer) is begin V := N; Due := True; end Open; " if n < OBJECTS else "")
        + f"entry Take (X : out Integer) when Due is begin X := V; end Take; end P{n};"
        for n in numbers
    ]
    bodies += [f'task body T{n} is X : Integer := 0; begin P{n}.Take (X); Put ("x", X); end T{n};' for n in numbers]
    opened = range(OBJECTS - 1, 0, -1)
    bodies.append("procedure Run is begin delay until Clock + Microseconds (1); " + "\n".join(f"P{n}.Open ({n * 10});" for n in opened) + " end Run;")
    return program_of(declarations, bodies), [f"0 T{OBJECTS} x {OBJECTS}", *(f"1 T{n} x {n * 10}" for n in opened), "ended at 1"], IMAGE_SUBPROGRAMS


def everything():
    """All tasks and main sleep in a procedure that has called itself, each until a time of its own. Who wakes calls the first object, which calls the second one, and so
    on up to the last one, in the last frame that there may be, where one more is refused. There the value of the schedule's last line up to now is added up. The
    objects and the package have as many words as there may be."""
    numbers = range(1, OBJECTS + 1)
    each, large = 63, 1_024
    rest = WORDS - OBJECTS * each - 4 * large - 1
    declarations = [f"type {name} is array (1 .. {length}) of Integer;" for name, length in (("Words", each), ("Large", large), ("Rest", rest))]
    declarations += [*(f"L{n} : Large;" for n in range(1, 5)), "Few : Rest;", "Sum : Integer := 0;", "procedure More;", "procedure Deep (Left : Integer; Id : Integer);"]
    declarations += [f"protected P{n} with Priority => 20 is procedure Go (N : Integer); private W : Words; end P{n};" for n in numbers]
    declarations += [f"task T{n} with Priority => 5;" for n in range(1, TASKS + 1)]
    last = f"Sum := Sum + Read (1); W ({each}) := N; begin More; exception when Storage_Error => Sum := Sum + 1; end;"
    bodies = ["procedure More is begin Sum := 0; end More;"]
    bodies += [f"protected body P{n} is procedure Go (N : Integer) is begin {f'P{n + 1}.Go (N);' if n < OBJECTS else last} end Go; end P{n};" for n in numbers]
    deep = f"if Left > 0 then Deep (Left - 1, Id); else delay until Clock + Microseconds (100 * ({TASKS + 1} - Id)); P1.Go (Id); end if;"
    bodies.append(f"procedure Deep (Left : Integer; Id : Integer) is begin {deep} end Deep;")
    first = FRAMES - OBJECTS - 2
    bodies += [f'task body T{n} is begin Deep ({first}, {n}); Put ("sum", Sum); L1 ({n}) := Sum; Few ({rest}) := L1 ({n}); end T{n};' for n in range(1, TASKS + 1)]
    bodies.append(f'procedure Run is begin Deep ({first - 1}, 0); Put ("sum", Sum); L4 ({large}) := Sum; end Run;')
    lines, total = [], 0
    for n in range(TASKS, -1, -1):
        time = 100 * (TASKS + 1 - n)
        total += min(time, LINES - 1) + 1
        lines.append(f"{time} {f'T{n}' if n else 'MAIN'} sum {total}")
    return program_of(declarations, bodies), [*lines, f"ended at {100 * (TASKS + 1)}"], OBJECTS + 3 + TASKS + 1


PROGRAMS = [
    ("tasks of one priority below main's", turns("", lambda tasks: ["0 MAIN n 1", *tasks, "ended at 0"])),
    ("tasks of main's priority", turns(" with Priority => 5", lambda tasks: [*tasks, "0 MAIN n 1", "ended at 0"])),
    ("objects that are open at once, and sleepers", nested()),
    ("callers that wait at entries", served()),
    ("all frames, words and lines", everything()),
]
SCHEDULE = "".join(f"{time} 1 {time}\n" for time in range(LINES))
CHOICES = f"0..{LINES - 1}/1 1 5\n"
UNTIL = str(LINES)


def called(words):
    run = subprocess.run(words, capture_output=True, text=True, check=False)
    return run.returncode, run.stdout, run.stderr


class Scratch:
    """A folder with the source of a program, the longest schedule and the largest set of schedules, and what the program makes of them."""

    def __init__(self, program, folder, text):
        self.program, self.folder = program, folder
        self.source, self.schedule, self.choices = (self.write(*file) for file in (("full.adb", text), ("input", SCHEDULE), ("choices", CHOICES)))
        self.image = self.path("full.img")

    def path(self, name):
        return os.path.join(self.folder, name)

    def write(self, name, text):
        with open(self.path(name), "w", encoding="utf-8") as file:
            file.write(text)
        return self.path(name)

    def call(self, *words):
        return called([self.program, *words])

    def run_by(self, *words):
        """What a command leaves of the whole run of the source."""
        return self.call(*words, self.source, self.schedule, str(LIMIT))


def wrong(program, watcher, folder, text, lines, subprograms):
    """What is done with a program, what comes of it, and what should."""
    scratch, ended = Scratch(program, folder, text), lines[-1]
    expected = 0, "".join(line + "\n" for line in lines), ""
    yield "go", scratch.run_by("go"), expected
    yield "compile", scratch.call("compile", scratch.source, scratch.image), (0, "", "")
    yield "run", scratch.call("run", scratch.image, scratch.schedule, str(LIMIT)), expected
    with open(scratch.image, "rb") as file:
        data = file.read()
    yield "subprograms", int.from_bytes(data[8:10], "big"), subprograms
    yield "list", scratch.call("list", scratch.image), (0, "".join(f"{line}\n" for line in listing.listing(data)), "")
    yield "simulate", scratch.run_by("simulate"), expected
    yield "check", scratch.call("check", scratch.source), (0, "", "")
    status, out, err = scratch.run_by("trace")
    yield "trace", (status, lines_of_trace(out), err), expected
    for words, last in (("trace --vcd", "$end"), ("trace --vcd --time", "$end"), ("trace --chart", ended), ("measure", ended), ("measure --tsv", ended)):
        status, out, err = scratch.run_by(*words.split())
        yield words, (status, out.splitlines()[-1:], err), (0, [last], "")
    status, out, err = scratch.run_by("trace", "--svg")
    yield "trace --svg", (status, ElementTree.fromstring(out).tag, err), (0, SVG, "")
    yield "search", scratch.call("search", scratch.source, scratch.choices, UNTIL, str(LIMIT))[::2], (0, "")
    status, out, err = called([watcher, scratch.image, os.devnull, str(WATCHED)])
    yield "exclusion", (status, bool(re.fullmatch(r"held after \d+ steps\n", out)), err), (0, True, "")


def main():
    program, watcher, scratch = sys.argv[1:]
    right = 0
    for name, given in PROGRAMS:
        failed = [(what, got, expected) for what, got, expected in wrong(program, watcher, scratch, *given) if got != expected]
        right += not failed
        for what, got, expected in failed:
            print(f"full_programs: {name}: {what}: {got!r}, expected {expected!r}", file=sys.stderr)
    print(f"full_programs: {right} of {len(PROGRAMS)} programs write what they should, and exclusion holds")
    return 0 if right == len(PROGRAMS) else 1


if __name__ == "__main__":
    sys.exit(main())
