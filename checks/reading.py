#!/usr/bin/env python3
"""Gives the program files that have no end, are as long as any that is accepted, or longer, and sources on its standard input.

    reading.py PROGRAM SCRATCH

A file that has no end is refused within seconds by what its first bytes break. The longest schedule is accepted, and one byte more isn't. The longest line of a set
of schedules breaks no rule but the last one, 86, where the search ends before its slot, and with one byte more it breaks the first. An image with more bytes after
it than any image has is refused at the first of them. The source `-` of `simulate`, `check` and `search` is standard input, and each says of it what it says of the
file, under the name `-`; for `go` it is the file of this name, and so is `./-` for all.
"""
import os
import subprocess
import sys

SECONDS = 60
SOURCE = b"pragma Profile (Ravenscar);\nprocedure Main is begin null; end Main;\n"
REFUSED = b"pragma Profile (Ravenscar);\nprocedure Main is begin end Main;\n"
ENDED = (b"ended at 0\n", b"", 0)
LINE = b"9223372036854775807 8 -9223372036854775808\n"
LINES = 4_096
ALTERNATIVES = 4_096
LIMIT = 65_536
IMAGE = 1_000_000


def longest_line():
    """The longest line of a set of schedules: as many alternatives as there may be, each a range of one value of 20 characters."""
    values = [str(-(2**63) + number) for number in range(ALTERNATIVES)]
    alternatives = "|".join(f"{value}..{value}" for value in values)
    return f"9223372036854775806..9223372036854775807/9223372036854775807 8 {alternatives}\n".encode()


def straddling():
    """A text whose last label begins before the limit and ends after it, at byte 65,545: the bytes that are read don't close it."""
    label = b'"' + b"a" * 20 + b'"'
    return b" " * (LIMIT - 14) + label + b" " * 100, LIMIT - 14


class Checks:
    def __init__(self, program, folder):
        self.program, self.folder, self.wrong, self.calls = program, folder, [], 0

    def write(self, name, data):
        with open(os.path.join(self.folder, name), "wb") as file:
            file.write(data)

    def call(self, words, given=b""):
        self.calls += 1
        try:
            run = subprocess.run([self.program, *words], cwd=self.folder, input=given, capture_output=True, check=False, timeout=SECONDS)
        except subprocess.TimeoutExpired:
            return (b"", b"takes too long", None)
        return (run.stdout, run.stderr, run.returncode)

    def expect(self, words, expected, given=b""):
        left = self.call(words, given)
        if left != expected:
            self.wrong.append(f"{' '.join(words)}: {left} where {expected} is expected")

    def files_without_end(self):
        fault = (b"", b"fault 2 at 1:1\n", 2)
        for words in (["go", "/dev/zero", "empty", "1"], ["compile", "/dev/zero", "new.img"], ["trace", "/dev/zero", "empty", "1"], ["search", "/dev/zero", "empty", "0", "1"]):
            self.expect(words, fault)
        for command in ("simulate", "check"):
            left = self.call([command, "/dev/zero"])
            if left[2] != 2 or not left[1].startswith(b"/dev/zero:1:1: error: "):
                self.wrong.append(f"{command} /dev/zero: {left}")
        self.expect(["go", "main.adb", "/dev/zero", "1"], (b"", b"schedule fault 50 at line 1\n", 7))
        for words in (["list", "/dev/zero"], ["run", "/dev/zero", "empty", "1"]):
            self.expect(words, (b"", b"image fault 40 at byte 0\n", 6))

    def longest_files(self):
        self.write("longest", LINE * LINES)
        self.write("longer", LINE * LINES + b"x")
        self.expect(["go", "main.adb", "longest", "100"], ENDED)
        self.expect(["go", "main.adb", "longer", "100"], (b"", b"schedule fault 53 at line 4097\n", 7))
        line = longest_line()
        self.write("longest.set", line)
        self.write("longer.set", line[:-1] + b"1\n")
        self.expect(["search", "main.adb", "longest.set", "0", "100"], (b"", b"choices fault 86 at line 1\n", 7))
        self.expect(["search", "main.adb", "longer.set", "0", "100"], (b"", b"choices fault 80 at line 1\n", 7))
        if len(line) != 63 + 43 * ALTERNATIVES:
            self.wrong.append(f"the longest line of a set has {len(line)} bytes")

    def longer_sources(self):
        self.write("full.adb", SOURCE + b" " * (LIMIT - len(SOURCE)))
        self.write("over.adb", SOURCE + b" " * (LIMIT + 1 - len(SOURCE)))
        self.write("long.adb", SOURCE + b" " * 1_000_000 + b"?")
        text, place = straddling()
        self.write("label.adb", text)
        self.expect(["go", "full.adb", "empty", "100"], ENDED)
        for name in ("over.adb", "long.adb"):
            self.expect(["go", name, "empty", "100"], (b"", f"fault 1 at 3:{LIMIT + 1 - len(SOURCE)}\n".encode(), 2))
        self.expect(["go", "label.adb", "empty", "100"], (b"", f"fault 5 at 1:{place + 1}\n".encode(), 2))

    def longer_images(self):
        self.expect(["compile", "main.adb", "main.img"], (b"", b"", 0))
        with open(os.path.join(self.folder, "main.img"), "rb") as file:
            image = file.read()
        self.write("longer.img", image + b"\0" * IMAGE)
        self.expect(["run", "main.img", "empty", "100"], ENDED)
        for words in (["list", "longer.img"], ["run", "longer.img", "empty", "100"]):
            self.expect(words, (b"", f"image fault 42 at byte {len(image)}\n".encode(), 6))

    def standard_input(self):
        for words in (["simulate"], ["check"]):
            named = self.call([*words, "refused.adb"])
            self.expect([*words, "-"], (named[0], named[1].replace(b"refused.adb:", b"-:"), named[2]), REFUSED)
        self.expect(["simulate", "-"], ENDED, SOURCE)
        self.expect(["simulate", "-", "empty", "100"], ENDED, SOURCE)
        self.expect(["simulate", "--", "-", "empty"], ENDED, SOURCE)
        self.expect(["check", "-"], (b"", b"", 0), SOURCE)
        self.expect(["format", "-"], (SOURCE, b"", 0), SOURCE)
        self.expect(["lower", "-"], (SOURCE, b"", 0), SOURCE)
        self.expect(["search", "-", "empty", "0", "100"], (b"none of 1 schedules, 0 worlds\n", b"", 0), SOURCE)
        self.expect(["search", "-", "empty", "0", "100"], (b"", b"fault 6 at 2:25\n", 2), REFUSED)
        self.expect(["go", "-", "empty", "100"], (b"", b"cannot read -\n", 1), SOURCE)
        self.write("-", SOURCE)
        self.expect(["go", "-", "empty", "100"], ENDED, REFUSED)
        self.expect(["simulate", "./-"], ENDED, REFUSED)


def main():
    program, folder = (os.path.abspath(word) for word in sys.argv[1:])
    os.makedirs(folder)
    checks = Checks(program, folder)
    for name, data in (("main.adb", SOURCE), ("refused.adb", REFUSED), ("empty", b"")):
        checks.write(name, data)
    checks.files_without_end()
    checks.longest_files()
    checks.longer_sources()
    checks.longer_images()
    checks.standard_input()
    for told in checks.wrong:
        print(f"reading: {told}", file=sys.stderr)
    print(f"reading: {checks.calls} calls, {len(checks.wrong)} wrong")
    return 1 if checks.wrong else 0


if __name__ == "__main__":
    sys.exit(main())
