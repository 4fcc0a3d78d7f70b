#!/usr/bin/env python3
"""Calls the program with each of its reads of files and of standard input failing in turn, or giving one byte, or giving the bytes of a file that has just grown.

    failing_reads.py PROGRAM STREAMS SCRATCH

STREAMS is what makes a read go wrong, and tells that it did (streams.c). Files are read in the order of the words (docs/FORMATS.md, "Commands"): where the nth read
fails, the program writes `cannot read FILE` alone, with status 1, of a file that is no earlier one than where an earlier read fails, up to the first n that no call
comes to; where the system has no memory for the read, `no memory` with status 8. Where reads give one byte, the call leaves what it leaves otherwise. A file to which a byte is added before one of its reads, the last one included, which
would find its end, is read with this byte (read(2)): the call leaves what it leaves of the longer file.
"""
import errno
import os
import subprocess
import sys

import mnemonics
from rows import row_of

UNREADABLE = [str(number) for number in (errno.EIO, errno.EAGAIN, errno.EISDIR)]
NO_MEMORY = str(errno.ENOMEM)
MOST = 1_000
ROW = ("entries", "a consumer that waits is served by the producer, before that goes on")
CHOICES = b"0 1 50|90\n8000 1 70|-\n"
FAULTY = b"pragma Profile (Ravenscar);\nprocedure Main is begin end Main;\n"


class Call:
    """A call: its words, the files that it reads in their order, and what it leaves otherwise. A source `-` is standard input, which has the bytes of main.adb."""

    def __init__(self, files, program, streams, words, names):
        self.files, self.program, self.streams, self.words, self.names = files, program, streams, words, names
        self.wrong, self.calls = [], 0
        self.ample = self.leave()

    def leave(self, **variables):
        """What the call leaves with these variables of the environment, with the files as they are."""
        self.calls += 1
        with open(self.files.path("main.adb"), "rb") as source:
            run = subprocess.run([self.program, *self.words], cwd=self.files.folder, stdin=source, capture_output=True, check=False, env={**os.environ, **variables})
        return run.stdout, run.stderr, run.returncode

    def with_read(self, number, how, **others):
        """What the call leaves where this read goes wrong, 0 for each of them, and whether it came to it."""
        told = self.files.path("reached")
        if os.path.exists(told):
            os.remove(told)
        left = self.leave(LD_PRELOAD=self.streams, WHERE="reads", NUMBER=str(number), HOW=how, REACHED=told, **others)
        return left, os.path.exists(told)

    def expect(self, holds, number, how, left):
        if not holds:
            self.wrong.append(f"{' '.join(self.words)}: read {number or 'each'}, {how}: status {left[2]}, {left[0][-200:]!r}, {left[1]!r}")

    def fails(self, how):
        """Each read fails in turn; of which file each is, by its number among those that are read."""
        expected = [(b"", b"no memory\n", 8)] if how == NO_MEMORY else [(b"", b"cannot read %s\n" % name.encode(), 1) for name in self.names]
        found = []
        for number in range(1, MOST):
            left, is_reached = self.with_read(number, how)
            if not is_reached:
                self.expect(left == self.ample and set(found) == set(expected), number, how, left)
                return [expected.index(earlier) for earlier in found]
            self.expect(left in expected, number, how, left)
            if left in expected:
                self.expect(expected.index(left) >= max((expected.index(earlier) for earlier in found), default=0), number, how, left)
                found.append(left)
        self.expect(False, MOST, how, self.ample)
        return []

    def is_short(self, reads):
        """Each read gives one byte, and each in turn does."""
        for number in range(reads + 1):
            left, is_reached = self.with_read(number, "byte")
            self.expect(is_reached and left == self.ample, number, "byte", left)

    def grows(self, name, reads):
        """A file has one byte more before each read in turn, up to its last one, which is the read of this number."""
        data = self.files.read(name)
        self.files.write(name, data + b"?")
        longer = self.leave()
        self.expect(longer != self.ample, "no", f"{name} is longer", longer)
        for number in range(1, reads + 1):
            self.files.write(name, data)
            left, is_reached = self.with_read(number, "grow", GROWN=self.files.path(name))
            self.expect(is_reached and left == longer, number, f"{name} grows", left)
        self.files.write(name, data)


class Files:
    """The files of a folder, which are made there."""

    def __init__(self, folder):
        self.folder = folder
        os.makedirs(folder)
        self.write("main.adb", row_of(*ROW)[0])
        self.write("faulty.adb", FAULTY)
        self.write("lines", b"5 1 7\n9 1 8\n")
        self.write("choices", CHOICES)
        self.write("main.img", mnemonics.image_of("thousand"))

    def path(self, name):
        return os.path.join(self.folder, name)

    def write(self, name, data):
        with open(self.path(name), "wb") as file:
            file.write(data)

    def read(self, name):
        with open(self.path(name), "rb") as file:
            return file.read()


CALLS = [
    (["go", "main.adb", "lines", "100000"], ["main.adb", "lines"]),
    (["simulate", "main.adb", "lines"], ["main.adb", "lines"]),
    (["simulate", "-", "lines"], ["-", "lines"]),
    (["simulate", "faulty.adb"], ["faulty.adb"]),
    (["check", "main.adb"], ["main.adb"]),
    (["check", "faulty.adb"], ["faulty.adb"]),
    (["check", "-"], ["-"]),
    (["format", "main.adb"], ["main.adb"]),
    (["format", "-"], ["-"]),
    (["lower", "main.adb"], ["main.adb"]),
    (["lower", "-"], ["-"]),
    (["trace", "main.adb", "lines", "100000"], ["main.adb", "lines"]),
    (["trace", "--vcd", "main.adb", "lines", "100000"], ["main.adb", "lines"]),
    (["trace", "--vcd", "--time", "main.adb", "lines", "100000"], ["main.adb", "lines"]),
    (["trace", "--chart", "main.adb", "lines", "100000"], ["main.adb", "lines"]),
    (["trace", "--svg", "main.adb", "lines", "100000"], ["main.adb", "lines"]),
    (["measure", "main.adb", "lines", "100000"], ["main.adb", "lines"]),
    (["measure", "--tsv", "main.adb", "lines", "100000"], ["main.adb", "lines"]),
    (["measure", "main.adb", "choices", "20000", "100000"], ["main.adb", "choices"]),
    (["search", "main.adb", "choices", "20000", "1000"], ["main.adb", "choices"]),
    (["search", "-", "choices", "20000", "1000"], ["-", "choices"]),
    (["search", "--quiet", "main.adb", "choices", "20000", "1000", "waits", "--part", "1/2"], ["main.adb", "choices"]),
    (["explain", "6", "faulty.adb"], ["faulty.adb"]),
    (["compile", "main.adb", "new.img"], ["main.adb"]),
    (["list", "main.img"], ["main.img"]),
    (["run", "main.img", "lines", "3"], ["main.img", "lines"]),
]


def main():
    program, streams, folder = (os.path.abspath(word) for word in sys.argv[1:])
    files, failed = Files(folder), False
    for words, names in CALLS:
        call = Call(files, program, streams, words, names)
        reads = [call.fails(how) for how in [*UNREADABLE, NO_MEMORY]]
        call.expect({len(each) for each in reads} == {len(reads[0])}, "all", f"{reads} reads", call.ample)
        call.is_short(len(reads[0]))
        for file, name in enumerate(names):
            if name != "-":
                call.grows(name, sum(read <= file for read in reads[0]))
        for told in call.wrong:
            print(f"failing_reads: {told}", file=sys.stderr)
        print(f"failing_reads: {' '.join(words)}: {len(reads[0])} reads, {call.calls} calls, {len(call.wrong)} wrong")
        failed = failed or call.wrong
    return 1 if failed else 0


if __name__ == "__main__":
    sys.exit(main())
