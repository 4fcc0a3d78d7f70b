#!/usr/bin/env python3
"""Calls the program with each of its writes to standard error failing in turn, taking nothing or taking one byte, and with a standard error that is full, closed, or
a pipe that nobody reads: standard output, the files and the exit status are what they are otherwise.

    failing_reports.py PROGRAM WRITING SCRATCH

WRITING is what makes a write go wrong, and tells that it did (streams.c). The status says the cause (docs/FORMATS.md, "Exit statuses"), whatever standard error takes,
but for `check`, whose status is 1 where it takes no more ("Commands"). What is reported then is a beginning of what it is otherwise; where writes take one byte,
all of it is there.
"""
import os
import subprocess
import sys

from failing_writes import FAILING, MOST, write
from refusals import content
from rows import row_of

FAULTY = b"pragma Profile (Ravenscar);\npackage App is N : Integer := True; M : Nobody; end App;\npackage body App is end App;\nwith App;\nprocedure Main is begin null; end Main;\n"
MISSPELLED = b"procedure Main is begin X := 1__2; end Main;\n"
ROWS = {
    "waits.adb": ("entries", "a caller that nobody serves"),
    "raises.adb": ("programs", "an exception of a handler passes by the other handlers of its sequence"),
    "ends.adb": ("entries", "who is served runs as soon as the active priority falls below its own"),
}
CALLS = [
    ["go", "faulty.adb", "empty", "1"],
    ["go", "nothing", "empty", "1"],
    ["go", "ends.adb", "faulty.adb", "1"],
    ["go", "ends.adb", "empty", "x"],
    ["compile", "faulty.adb", "new.img"],
    ["list", "faulty.adb"],
    ["run", "faulty.adb", "empty", "1"],
    ["trace", "faulty.adb", "empty", "1"],
    ["trace", "--vcd", "faulty.adb", "empty", "1"],
    ["measure", "faulty.adb", "empty", "1"],
    ["search", "faulty.adb", "empty", "1", "1"],
    ["search", "ends.adb", "faulty.adb", "1", "1"],
    ["explain", "6", "nothing"],
    ["simulate", "faulty.adb"],
    ["simulate", "ends.adb", "faulty.adb"],
    ["simulate", "waits.adb"],
    ["simulate", "raises.adb"],
    ["simulate", "ends.adb", "empty", "3"],
    ["check", "faulty.adb"],
    ["format", "misspelled.adb"],
    ["lower", "misspelled.adb"],
]
# What is written where nothing is reported.
SILENT = [["go", "ends.adb", "empty", "100000"], ["simulate", "ends.adb"], ["check", "ends.adb"], ["compile", "ends.adb", "new.img"], ["version"]]


class Call:
    """A call of the program in a folder, what it leaves otherwise, and its status where standard error takes no more."""

    def __init__(self, program, writing, folder, words):
        self.program, self.writing, self.folder, self.words = program, writing, folder, words
        self.wrong, self.calls = [], 0
        self.ample = self.leave(subprocess.PIPE)
        self.status = 1 if words[0] == "check" and self.ample[1] else self.ample[2]

    def leave(self, stream, **others):
        """What the call leaves with this standard error, with the image that it has written, if any."""
        self.calls += 1
        image = os.path.join(self.folder, "new.img")
        if os.path.exists(image):
            os.remove(image)
        run = subprocess.run([self.program, *self.words], cwd=self.folder, stdout=subprocess.PIPE, stderr=stream, check=False, **others)
        self.image = content(image)
        return run.stdout, run.stderr, run.returncode

    def with_write(self, number, how):
        """What the call leaves where this write goes wrong, 0 for each of them, and whether it came to it."""
        told = os.path.join(self.folder, "reached")
        if os.path.exists(told):
            os.remove(told)
        environment = {**os.environ, "LD_PRELOAD": self.writing, "WHERE": "errors", "NUMBER": str(number), "HOW": how, "REACHED": told}
        return self.leave(subprocess.PIPE, env=environment), os.path.exists(told)

    def expect(self, holds, what, left):
        if not holds:
            self.wrong.append(f"{' '.join(self.words)}: {what}: status {left[2]}, {left[0][-200:]!r}, {left[1]!r}")

    def fails(self, how):
        """Each write fails in turn, or takes nothing; how many there are."""
        for number in range(1, MOST):
            left, is_reached = self.with_write(number, how)
            if not is_reached:
                self.expect(left == self.ample, f"no write {number}, {how}", left)
                return number - 1
            is_less = self.ample[1].startswith(left[1]) and left[1] != self.ample[1]
            self.expect(is_less and (left[0], left[2]) == (self.ample[0], self.status), f"write {number}, {how}", left)
        return MOST

    def is_short(self, writes):
        for number in range(writes + 1):
            left, is_reached = self.with_write(number, "byte")
            self.expect(is_reached and left == self.ample, f"write {number or 'each'}, byte", left)

    def is_unwritable(self):
        """Standard error is full, closed, open to be read alone, or a pipe whose reader has gone."""
        image = self.image
        reader, writer = os.pipe()
        os.close(reader)
        with open("/dev/full", "wb") as full, open("/dev/null", "rb") as read:
            streams = [("full", full, {}), ("closed", None, {"preexec_fn": lambda: os.close(2)}), ("open to be read", read, {}), ("unread", writer, {})]
            for what, stream, others in streams:
                left = self.leave(stream, **others)
                self.expect((left[0], left[2], self.image) == (self.ample[0], self.status, image), what, left)
        os.close(writer)


def main():
    program, writing, folder = (os.path.abspath(word) for word in sys.argv[1:])
    os.makedirs(folder)
    write(folder, "faulty.adb", FAULTY)
    write(folder, "misspelled.adb", MISSPELLED)
    write(folder, "empty", b"")
    for name, row in ROWS.items():
        write(folder, name, row_of(*row)[0])
    failed, calls = False, [Call(program, writing, folder, words) for words in CALLS + SILENT]
    for call in calls:
        call.is_unwritable()
        writes = [call.fails(how) for how in FAILING]
        call.expect(len(set(writes)) == 1 and bool(writes[0]) == (call.words in CALLS), f"{writes} writes", call.ample)
        if writes[0]:
            call.is_short(writes[0])
        for told in call.wrong:
            print(f"failing_reports: {told}", file=sys.stderr)
        failed = failed or call.wrong
    print(f"failing_reports: {len(calls)} calls, {sum(call.calls for call in calls)} times, {sum(len(call.wrong) for call in calls)} wrong")
    return 1 if failed else 0


if __name__ == "__main__":
    sys.exit(main())
