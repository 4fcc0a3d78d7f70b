#!/usr/bin/env python3
"""Calls the program with less and less memory: it leaves its whole answer, or `no memory` alone, with status 8 (docs/FORMATS.md, "Exit statuses").

    little_memory.py PROGRAM STACK SCRATCH

The limit is that of the address space (setrlimit(2), RLIMIT_AS), at 24 sizes from the least one with which the program starts, which is where it writes its version,
to one that is ample; STACK has its stack there from the start (stack.c). The calls are those of refusals.py, of programs with all tasks and objects, and of the
longest texts: what each leaves is compared there and in full_programs.py. A `simulate` that reports less for want of memory leaves what `go` does ("Commands").
"""
import os
import resource
import subprocess
import sys

import full_programs
import large_texts
import refusals

SIZES = 24
PAGE = 4_096
AMPLE = 1 << 30
FOLDER = os.path.join(refusals.HERE, "..", "examples", "search")
EMPTY = {"empty": b""}


def calls_of_large(program, folder):
    """Calls that take much memory: 64 tasks and as many objects, a long source, one with 1,000 faults, and a search that keeps many worlds."""
    full, _, steps = full_programs.nested()
    full, limit = {"main.adb": full.encode(), **EMPTY}, str(10 * steps)
    mended = {"main.adb": refusals.content(os.path.join(FOLDER, "lost_wake_up_mended.adb")), "choices": refusals.content(os.path.join(FOLDER, "lost_wake_up.choices"))}
    head, tail = (part.encode() for part in large_texts.statements())
    long, faulty = ({"main.adb": head + part * times + tail} for part, times in ((b"null; ", 10_000), (b"X:=Y; ", 500)))
    calls = [
        ("go of a full program", ["go", "main.adb", "empty", limit], full),
        ("simulate of a full program", ["simulate", "main.adb"], full),
        ("trace of a full program", ["trace", "main.adb", "empty", limit], full),
        ("trace --vcd of a full program", ["trace", "--vcd", "main.adb", "empty", limit], full),
        ("trace --chart of a full program", ["trace", "--chart", "main.adb", "empty", limit], full),
        ("trace --svg of a full program", ["trace", "--svg", "main.adb", "empty", limit], full),
        ("measure of a full program", ["measure", "main.adb", "empty", limit], full),
        ("search of a full program", ["search", "main.adb", "empty", "100", limit], full),
        ("check of a full program", ["check", "main.adb"], full),
        ("search with many worlds", ["search", "main.adb", "choices", "40000", "10000"], mended),
        ("simulate of a long text", ["simulate", "main.adb"], long),
        ("check of a long text", ["check", "main.adb"], long),
        ("format of a long text", ["format", "main.adb"], long),
        ("lower of a long text", ["lower", "main.adb"], long),
        ("check of 1,000 faults", ["check", "main.adb"], faulty),
        ("go of 1,000 faults", ["go", "main.adb", "empty", "1"], {**faulty, **EMPTY}),
    ]
    return [refusals.ample_call(program, folder, *call) for call in calls]


class Confined:
    """The program with a limit of memory, in a folder, and how many calls were made."""

    def __init__(self, program, stack, folder):
        self.program, self.folder, self.calls = program, folder, 0
        self.environment = {**os.environ, "LD_PRELOAD": stack}

    def left(self, words, size):
        """What a call leaves with so many bytes."""
        self.calls += 1

        def confine():
            resource.setrlimit(resource.RLIMIT_AS, (size, size))

        run = subprocess.run([self.program, *words], cwd=self.folder, env=self.environment, capture_output=True, check=False, preexec_fn=confine)
        return run.stdout, run.stderr, run.returncode

    def least(self, words, left, low):
        """The least number of bytes, more than `low`, with which the call leaves this."""
        high = AMPLE
        while high - low > PAGE:
            middle = (low + high) // 2
            low, high = (low, middle) if self.left(words, middle) == left else (middle, high)
        return high


def attempts(confined, call, start):
    """How often the call has its answer at the sizes, how often no memory, and what is wrong."""
    call.prepare(confined.folder)
    enough = confined.least(call.words, call.ample, start)
    step, answers, refused, wrong = (enough - start) // (SIZES - 4), 0, 0, []
    for size in (start + number * step for number in range(SIZES)):
        call.prepare(confined.folder)
        left = confined.left(call.words, size)
        files = {name: refusals.content(os.path.join(confined.folder, name)) for name in {*call.files, *call.leaves}}
        if left in (call.ample, call.less) and files == {**call.files, **call.leaves}:
            answers += 1
        elif left == (b"", b"no memory\n", 8) and files == {name: call.files.get(name) for name in files}:
            refused += 1
        else:
            wrong.append(f"{call.name}: {size} bytes: status {left[2]}, {left[0][-200:]!r}, {left[1][-200:]!r}")
    return answers, refused, wrong


def main():
    program, stack, scratch = (os.path.abspath(word) for word in sys.argv[1:])
    os.makedirs(scratch)
    calls = refusals.calls_of(program, scratch) + calls_of_large(program, scratch)
    confined, answers, refused, wrong = Confined(program, stack, scratch), 0, 0, []
    version = confined.left(["version"], AMPLE)
    start = confined.least(["version"], version, 0)
    for call in calls:
        more_answers, more_refused, told = attempts(confined, call, start)
        answers, refused, wrong = answers + more_answers, refused + more_refused, wrong + told
        if not more_answers:
            wrong.append(f"{call.name}: no size is enough")
    for told in wrong:
        print(f"little_memory: {told}", file=sys.stderr)
    print(f"little_memory: {len(calls)} calls with {SIZES} sizes: {answers} answers, {refused} without memory, {len(wrong)} wrong")
    return 1 if wrong else 0


if __name__ == "__main__":
    sys.exit(main())
