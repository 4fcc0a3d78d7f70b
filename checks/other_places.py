#!/usr/bin/env python3
"""Gives the texts of other_places.txt to the program, and compares the other place that it tells of each with the row.

    other_places.py PROGRAM OTHERS SCRATCH

A row's text is refused with the row's number at its mark `^`. Behind the explanation of this number `explain` tells the place of the mark `~`, and nothing where
there is none.
"""
import os
import subprocess
import sys

from shared import place_of_mark

SPECIFIED = "package App is {} procedure Run; end App;\npackage body App is {} procedure Run is begin null; end Run; end App;\nwith App;\nprocedure Main is begin App.Run; end Main;"


def without_marks(text):
    return text.replace("^", "").replace("~", "")


def rows_of(lines):
    """Each row's number, its text, its place, and the other one (None where there is none)."""
    for line in lines:
        if line and not line.startswith("#"):
            number, row = line.split(" ", 1)
            marked = "pragma Profile (Ravenscar);\n" + (SPECIFIED.format(*row.split("|")) if "|" in row else row) + "\n"
            other = place_of_mark(marked, "~", without_marks) if "~" in marked else None
            yield number, without_marks(marked), place_of_mark(marked, "^", without_marks), other


def main():
    program, others, scratch = sys.argv[1:]
    source = os.path.join(scratch, "row.adb")
    with open(others, encoding="utf-8") as file:
        rows = list(rows_of(file.read().split("\n")))
    wrong = 0
    for number, text, place, other in rows:
        with open(source, "w", encoding="utf-8") as file:
            file.write(text)
        alone, told, run = (
            subprocess.run([program, *words], capture_output=True, text=True, check=False)
            for words in (["explain", number], ["explain", number, source], ["go", source, "/dev/null", "1000"])
        )
        behind = told.stdout.removeprefix(alone.stdout).split("\n")
        said = [line for line in behind if line and not line.startswith("hint: ")]
        expected = [f"the other one is at {other}"] if other else []
        if not told.stdout.startswith(alone.stdout) or (said, told.returncode, run.stderr) != (expected, 0, f"fault {number} at {place}\n"):
            wrong += 1
            print(f"other_places: {number} at {place}, and {other} was expected, {run.stderr.strip()}, {told.stdout[len(alone.stdout):].strip()} was told of\n{text}", file=sys.stderr)
    print(f"other_places: of {len(rows) - wrong} of {len(rows)} texts the other place is told as it should be")
    return 1 if wrong or not rows else 0


if __name__ == "__main__":
    sys.exit(main())
