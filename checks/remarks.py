#!/usr/bin/env python3
"""Gives the texts of remarks.txt to the program, and compares what `simulate` says below the line of the fault with the row.

    remarks.py PROGRAM REMARKS SCRATCH

A row is the fault's number and a text: what stands in the specification of a package and, behind `|`, in its body, both before a procedure Run; or, without `|`,
the whole text behind the pragma. The mark `^` is before the place of the fault, and `~` before another one. The indented lines below a row are what is said; in
them `~` and `^` are the line and column of that mark.
"""
import os
import subprocess
import sys

from other_places import SPECIFIED, without_marks
from shared import place_of_mark


def rows_of(lines):
    """The number, the marked text and the lines that are expected, of each row."""
    row = None
    for line in [*lines, ""]:
        if line.startswith("    ") and row:
            row[2].append(line.strip())
            continue
        if row:
            yield row
        row = None
        if line and not line.startswith("#"):
            number, text = line.split(" ", 1)
            row = (number, "pragma Profile (Ravenscar);\n" + (SPECIFIED.format(*text.split("|")) if "|" in text else text) + "\n", [])


def main():
    program, remarks, scratch = sys.argv[1:]
    source = os.path.join(scratch, "remark.adb")
    with open(remarks, encoding="utf-8") as file:
        rows = list(rows_of(file.read().split("\n")))
    wrong = 0
    for number, marked, expected in rows:
        place = place_of_mark(marked, "^", without_marks)
        if "~" in marked:
            expected = [line.replace("~", place_of_mark(marked, "~", without_marks)) for line in expected]
        expected = [line.replace("^", place) for line in expected]
        with open(source, "w", encoding="utf-8") as file:
            file.write(marked.replace("^", "").replace("~", ""))
        run = subprocess.run([program, "simulate", source], capture_output=True, text=True, check=False)
        heading, _line, _mark, *said = run.stderr.rstrip("\n").split("\n")
        if run.returncode != 2 or not heading.startswith(f"{source}:{place}: ") or not heading.endswith(f" [fault {number}]") or said != expected:
            wrong += 1
            print(f"remarks: {number} at {place} and {expected} was expected, {run.stderr.strip()} was said of\n{marked}", file=sys.stderr)
    print(f"remarks: of {len(rows) - wrong} of {len(rows)} texts it is said what to mend")
    return 1 if wrong or not rows else 0


if __name__ == "__main__":
    sys.exit(main())
