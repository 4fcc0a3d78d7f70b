#!/usr/bin/env python3
"""Tries each pair of docs/FROM_ADA.md: what Ada has is refused here, and taken by GNAT where that is installed; what to write here is run, and writes what GNAT
makes the first one write where the pair has no tasks, objects and times. Then each whole program of examples/from_ada in both forms: NAME.ada is refused here,
and NAME.adb writes NAME.out; GNAT takes both.

    from_ada.py PROGRAM SCRATCH
"""
import os
import re
import shutil
import subprocess
import sys

HERE = os.path.join(os.path.dirname(os.path.abspath(__file__)), "..")
DOCUMENT = os.path.join(HERE, "docs", "FROM_ADA.md")
PROGRAMS = os.path.join(HERE, "examples", "from_ada")
GNAT_RUN = os.path.abspath(os.path.join(HERE, "examples", "gnat", "run"))
FRAME = """pragma Profile (Ravenscar);
with Ada.Real_Time; use Ada.Real_Time;
with Control_IO; use Control_IO;
package App is
{spec}
procedure Run;
end App;
package body App is
{body}
end App;
with App;
procedure Main is begin App.Run; end Main;
"""
REFUSED, LIMIT = 2, "100000"
TIMED = re.compile(r"\b(task|protected|delay|Clock)\b")


def pairs_of(text):
    """The title of each section with its two texts."""
    for section in re.split(r"\n### ", text)[1:]:
        title, _, rest = section.partition("\n")
        blocks = ["\n".join(line[4:] for line in block.split("\n")) for block in re.findall(r"(?:^    .*\n?(?:\n(?=    ))?)+", rest.split("\n## ")[0], re.M)]
        yield title, blocks


def framed(block):
    spec, _, body = block.rpartition("--  body\n")
    return FRAME.format(spec=spec, body=body)


class Tried:
    """Pairs as they are tried, with what was wrong of them."""

    def __init__(self, program, scratch):
        self.program, self.scratch, self.wrong = os.path.abspath(program), scratch, []
        self.has_gnat = shutil.which("gnatmake") is not None

    def file(self, name, text):
        path = os.path.join(self.scratch, name)
        with open(path, "w", encoding="utf-8") as file:
            file.write(text)
        return path

    def expect(self, title, holds, what):
        if not holds:
            self.wrong.append(f"{title}: {what}")

    def called(self, words):
        return subprocess.run(words, capture_output=True, text=True, check=False)

    def pair(self, title, blocks):
        self.expect(title, len(blocks) == 2, f"{len(blocks)} texts, expected 2")
        ada, here = (self.file(f"{name}.adb", framed(block)) for name, block in zip(("ada", "here"), blocks))
        refused = self.called([self.program, "go", ada, os.devnull, LIMIT])
        self.expect(title, refused.returncode == REFUSED, f"the first is not refused: {refused.stdout}{refused.stderr}")
        ran = self.called([self.program, "go", here, os.devnull, LIMIT])
        self.expect(title, ran.returncode == 0 and ran.stdout.count("\n") > 1, f"the second does not run to its end: {ran.stdout}{ran.stderr}")
        if self.has_gnat:
            self.beside_gnat(title, ada, here, ran.stdout, not any(TIMED.search(block) for block in blocks))

    def program_in_both_forms(self, name):
        ada, here = (os.path.join(PROGRAMS, f"{name}.{form}") for form in ("ada", "adb"))
        with open(os.path.join(PROGRAMS, f"{name}.out"), encoding="utf-8") as file:
            lines = file.read()
        self.expect(name, self.called([self.program, "go", ada, os.devnull, LIMIT]).returncode == REFUSED, f"{name}.ada is not refused")
        ran = self.called([self.program, "go", here, os.devnull, LIMIT])
        self.expect(name, (ran.returncode, ran.stdout, ran.stderr) == (0, lines, ""), f"{name}.adb writes {ran.stdout}{ran.stderr}")
        if self.has_gnat:
            self.beside_gnat(name, ada, here, lines, False)

    def compiled(self, path):
        """Has GNAT compile a text, without the profile and without running it."""
        units = os.path.join(self.scratch, "units")
        shutil.rmtree(units, ignore_errors=True)
        os.mkdir(units)
        with open(path, encoding="utf-8") as file:
            text = self.file("units.txt", file.read().replace("pragma Profile (Ravenscar);\n", ""))
        self.called(["gnatchop", "-c", "-q", text, units])
        return subprocess.run(
            ["gnatmake", "-q", "-c", "-gnat2012", "-gnatws", f"-I{os.path.dirname(GNAT_RUN)}", "main.adb"], cwd=units, capture_output=True, text=True, check=False
        )

    def beside_gnat(self, title, ada, here, lines, is_compared):
        """GNAT takes both texts, and where it is to be compared makes them write these lines."""
        for path in (ada, here):
            ran = self.called([GNAT_RUN, path]) if is_compared else self.compiled(path)
            self.expect(title, ran.returncode == 0, f"GNAT refuses {os.path.basename(path)}: {ran.stdout}{ran.stderr}")
            self.expect(title, not is_compared or ran.stdout == lines, f"GNAT writes {ran.stdout!r}, expected {lines!r}")


def main():
    program, scratch = sys.argv[1:]
    tried, many = Tried(program, scratch), 0
    with open(DOCUMENT, encoding="utf-8") as file:
        for title, blocks in pairs_of(file.read()):
            tried.pair(title, blocks)
            many += 1
    programs = sorted(name.removesuffix(".ada") for name in os.listdir(PROGRAMS) if name.endswith(".ada"))
    for name in programs:
        tried.program_in_both_forms(name)
    for line in tried.wrong:
        print(f"from_ada: {line}", file=sys.stderr)
    print(f"from_ada: {many} pairs and {len(programs)} program in both forms, {len(tried.wrong)} wrong{'' if tried.has_gnat else ', without GNAT'}")
    return 1 if tried.wrong or not many or not programs else 0


if __name__ == "__main__":
    sys.exit(main())
