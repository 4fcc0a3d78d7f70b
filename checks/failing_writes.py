#!/usr/bin/env python3
"""Calls the program with each of its writes to standard output failing in turn, taking nothing or taking one byte: what went out is a beginning of what should.

    failing_writes.py PROGRAM WRITING SCRATCH

WRITING is what makes a write go wrong, and tells that it did (streams.c). Where the nth write fails, or takes nothing, the program says `cannot write` and ends with
status 1 (`simulate` says nothing), and standard output has a beginning of what the call writes, nothing where n is 1; the beginnings grow with n, up to the first n
that no call comes to, whose call writes all. Where the nth write takes one byte, or each of them does, all of it is written. Where nobody reads the pipe that
standard output is, it says nothing, and has status 1; so it does where the reader goes after the first line of more than the pipe holds, as `head -1`. `check`
has status 1 where standard error is that pipe.
"""
import errno
import fcntl
import os
import subprocess
import sys

import full_programs
import mnemonics
from rows import row_of

UNREAD = str(errno.EPIPE)
FAILING = [str(number) for number in (errno.ENOSPC, errno.EIO, errno.EAGAIN, errno.EFBIG)] + [UNREAD, "none"]
MOST = 1_000
CANNOT_WRITE = (b"cannot write\n", 1)
SILENT = (b"", 1)
ROWS = [
    ("programs", "a sign takes a whole term, mod and rem keep to their signs, division cuts towards zero"),
    ("entries", "who is served runs as soon as the active priority falls below its own"),
    ("tasks", "a channel before its first line, at the very time of its line, and behind it"),
    ("tasks", "the same without a step"),
    ("entries", "a caller that nobody serves"),
    ("programs", "an exception of a handler passes by the other handlers of its sequence"),
]


SECONDS = 60
PIPE = 4_096
LONG = b"""pragma Profile (Ravenscar);
with Ada.Real_Time; use Ada.Real_Time; with Control_IO; use Control_IO;
package App is procedure Run; end App;
package body App is
   procedure Run is
   begin
      delay until Clock + Milliseconds (10);
      for I in 1 .. 2_000 loop
         Put ("n", I);
         delay until Clock + Milliseconds (1);
      end loop;
   end Run;
end App;
with App;
procedure Main is begin App.Run; end Main;
"""
FAULTS = LONG.replace(b'Put ("n", I);', b"X := Y;\n" * 100)
# Calls with long answers: their words, and which stream has the answer.
FIRST_LINES = [
    (["go", "long.adb", "empty", "100000"], "stdout"),
    (["simulate", "long.adb"], "stdout"),
    (["trace", "long.adb", "empty", "100000"], "stdout"),
    (["trace", "--vcd", "long.adb", "empty", "100000"], "stdout"),
    (["trace", "--vcd", "--time", "long.adb", "empty", "100000"], "stdout"),
    (["trace", "--chart", "full.adb", "empty", "100000"], "stdout"),
    (["trace", "--svg", "long.adb", "empty", "100000"], "stdout"),
    (["measure", "full.adb", "empty", "100000"], "stdout"),
    (["measure", "--tsv", "full.adb", "empty", "100000"], "stdout"),
    (["measure", "long.adb", "many", "20000", "100000"], "stdout"),
    (["run", "long.img", "empty", "100000"], "stdout"),
    (["list", "every.img"], "stdout"),
    (["search", "long.adb", "many", "20000", "100000", "line", "n"], "stdout"),
    (["format", "nulls.adb"], "stdout"),
    (["lower", "lines.adb"], "stdout"),
    (["check", "faults.adb"], "stderr"),
]


class Call:
    """A call of the program in a folder: its words, and what it writes and its status where each write is taken."""

    def __init__(self, name, words, ample, failed=CANNOT_WRITE):
        self.name, self.words, self.ample, self.failed, self.wrong, self.calls = name, words, ample, failed, [], 0

    def with_write(self, program, writing, folder, number, how):
        """What the call leaves where this write goes wrong, 0 for each of them, and whether it came to it."""
        told = os.path.join(folder, "reached")
        if os.path.exists(told):
            os.remove(told)
        environment = {**os.environ, "LD_PRELOAD": writing, "WHERE": "out", "NUMBER": str(number), "HOW": how, "REACHED": told}
        run = subprocess.run([program, *self.words], cwd=folder, env=environment, capture_output=True, check=False)
        self.calls += 1
        return (run.stdout, run.stderr, run.returncode), os.path.exists(told)

    def expect(self, holds, number, how, left):
        if not holds:
            self.wrong.append(f"{self.name}: write {number or 'each'}, {how}: status {left[2]}, {left[0][-200:]!r}, {left[1]!r}")

    def fails(self, program, writing, folder, how):
        """Each write fails in turn, or takes nothing; how many there are."""
        written = b""
        for number in range(1, MOST):
            left, is_reached = self.with_write(program, writing, folder, number, how)
            if not is_reached:
                self.expect(left == self.ample and number > 1, number, how, left)
                return number - 1
            is_beginning = self.ample[0].startswith(left[0]) and len(written) <= len(left[0]) < len(self.ample[0])
            failed = SILENT if how == UNREAD else self.failed
            self.expect(is_beginning and left[1:] == failed and (number > 1 or not left[0]), number, how, left)
            written = left[0]
        self.expect(False, MOST, how, left)
        return MOST

    def is_short(self, program, writing, folder, writes):
        """Each write takes one byte, and each in turn does."""
        for number in range(writes + 1):
            left, is_reached = self.with_write(program, writing, folder, number, "byte")
            self.expect(is_reached and left == self.ample, number, "byte", left)

    def is_unread(self, program, folder):
        """Standard output is a pipe whose reader has gone."""
        reader, writer = os.pipe()
        os.close(reader)
        run = subprocess.run([program, *self.words], cwd=folder, stdout=writer, stderr=subprocess.PIPE, check=False)
        os.close(writer)
        self.calls += 1
        self.expect((run.stderr, run.returncode) == SILENT, "any", "unread", (b"", run.stderr, run.returncode))


def write(folder, name, data):
    with open(os.path.join(folder, name), "wb") as file:
        file.write(data)


def calls_of(folder):
    """The calls, whose files are made in the folder."""
    found = []
    for number, row in enumerate(ROWS):
        source, schedule, limit, *ample = row_of(*row)
        write(folder, f"{number}.adb", source)
        write(folder, f"{number}.schedule", schedule)
        found.append(Call(f"go: {row[1]}", ["go", f"{number}.adb", f"{number}.schedule", limit], tuple(ample)))
        if tuple(ample)[1:] == (b"", 0):
            found.append(Call(f"simulate: {row[1]}", ["simulate", f"{number}.adb", f"{number}.schedule", limit], tuple(ample), SILENT))
    write(folder, "thousand.img", mnemonics.image_of("thousand"))
    write(folder, "empty", b"")
    found.append(Call("run", ["run", "thousand.img", "empty", "3"], (b"0 MAIN x 1000\nended at 0\n", b"", 0)))
    listing = os.path.join(os.path.dirname(os.path.abspath(__file__)), "listing.py")
    lines = subprocess.run([sys.executable, listing, "thousand.img"], cwd=folder, capture_output=True, check=True).stdout
    found.append(Call("list", ["list", "thousand.img"], (lines, b"", 0)))
    found.append(Call("explain", ["explain", "52"], row_of("words", "a fault that is explained")[3:]))
    return found


def calls_of_commands(program, folder):
    """Calls of the commands that write more than lines; what they write where each write is taken is compared elsewhere."""
    examples = os.path.join(os.path.dirname(os.path.abspath(__file__)), "..", "examples")
    for name in ("tank.adb", "tank.schedule"):
        with open(os.path.join(examples, name), "rb") as file:
            write(folder, name, file.read())
    write(folder, "choices", b"0 1 50|90\n8000 1 70|-\n")
    words = [
        ["trace", "tank.adb", "tank.schedule", "60"],
        ["trace", "tank.adb", "tank.schedule", "60", "--until", "9000"],
        ["trace", "--vcd", "tank.adb", "tank.schedule", "60"],
        ["trace", "--vcd", "--time", "tank.adb", "tank.schedule", "60"],
        ["trace", "--chart", "tank.adb", "tank.schedule", "60"],
        ["trace", "--svg", "tank.adb", "tank.schedule", "60"],
        ["measure", "tank.adb", "tank.schedule", "60"],
        ["measure", "--tsv", "tank.adb", "tank.schedule", "60"],
        ["measure", "tank.adb", "choices", "20000", "60"],
        ["measure", "--tsv", "tank.adb", "choices", "20000", "1000"],
        ["search", "tank.adb", "choices", "20000", "1000"],
        ["search", "tank.adb", "choices", "20000", "1000", "line", "alarm"],
        ["search", "--quiet", "tank.adb", "choices", "20000", "1000", "waits", "--part", "1/2"],
        ["explain", "6", "tank.adb"],
        ["format", "tank.adb"],
        ["lower", "tank.adb"],
        ["manual"],
        ["version"],
    ]
    found = []
    for call in words:
        ran = subprocess.run([program, *call], cwd=folder, capture_output=True, check=False)
        found.append(Call(" ".join(call), call, (ran.stdout, ran.stderr, ran.returncode)))
    return found


def first_line(program, folder, words, stream):
    """What a call leaves whose reader takes the first line of this stream and goes: the other stream and the status."""
    reader, writer = os.pipe()
    fcntl.fcntl(writer, fcntl.F_SETPIPE_SZ, PIPE)
    other = {"stdout": "stderr", "stderr": "stdout"}[stream]
    with subprocess.Popen([program, *words], cwd=folder, **{stream: writer, other: subprocess.PIPE}) as process:
        os.close(writer)
        while os.read(reader, 1) not in (b"\n", b""):
            pass
        os.close(reader)
        out, err = process.communicate(timeout=SECONDS)
    return err if stream == "stdout" else out, process.returncode


def first_lines(program, folder):
    """How many calls whose reader goes after the first line there are, and what is wrong of them."""
    full = full_programs.nested()[0].encode()
    for name, data in (("long.adb", LONG), ("full.adb", full), ("faults.adb", FAULTS), ("nulls.adb", b"null;\n" * PIPE), ("lines.adb", b"procedure P is begin\n" + b"null;\n" * PIPE + b"end P;\n"), ("many", b"0..4095/1 1 5\n")):
        write(folder, name, data)
    subprocess.run([program, "compile", "long.adb", "long.img"], cwd=folder, check=True)
    images = os.path.join(os.path.dirname(os.path.abspath(__file__)), "images.py")
    subprocess.run([sys.executable, images, "large", "every.img", "2000"], cwd=folder, check=True)
    wrong = []
    for words, stream in FIRST_LINES:
        whole = subprocess.run([program, *words], cwd=folder, capture_output=True, check=False)
        left = first_line(program, folder, words, stream)
        if left != SILENT or len(getattr(whole, stream)) < 2 * PIPE:
            wrong.append(f"{' '.join(words)}: the reader goes after the first line: {left} where {SILENT} is expected")
    return len(FIRST_LINES), wrong


def main():
    program, writing, folder = (os.path.abspath(word) for word in sys.argv[1:])
    os.makedirs(folder)
    calls = calls_of(folder) + calls_of_commands(program, folder)
    readers, wrong = first_lines(program, folder)
    for told in wrong:
        print(f"failing_writes: {told}", file=sys.stderr)
    print(f"failing_writes: {readers} readers go after the first line, {len(wrong)} wrong")
    failed = bool(wrong)
    for call in calls:
        writes = [call.fails(program, writing, folder, how) for how in FAILING]
        call.expect(len(set(writes)) == 1, "all", "differ in number", (b"", b"", writes))
        call.is_short(program, writing, folder, writes[0])
        call.is_unread(program, folder)
        for told in call.wrong:
            print(f"failing_writes: {told}", file=sys.stderr)
        print(f"failing_writes: {call.name}: {writes[0]} writes, {call.calls} calls, {len(call.wrong)} wrong")
        failed = failed or call.wrong
    return 1 if failed else 0


if __name__ == "__main__":
    sys.exit(main())
