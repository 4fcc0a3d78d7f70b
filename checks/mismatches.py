#!/usr/bin/env python3
"""Gives the texts of mismatches.txt to the program, and compares what it writes of the types at the place of the fault 12 of each with the row.

    mismatches.py PROGRAM ROWS SCRATCH

A row is a text, the mark `^` in it at the place of its fault, and behind ` => ` what is written of the types: `EXPECTED / FOUND`, `LEFT * RIGHT` of the operands
of an operator, `variable`, or `nothing`. Where a type is declared is looked up in the text itself.
"""
import os
import re
import subprocess
import sys

from shared import place_of

SPECIFIED = "with Ada.Real_Time; use Ada.Real_Time;\nwith Control_IO; use Control_IO;\npackage App is {} procedure Run; end App;\npackage body App is {} procedure Run is {} end Run; end App;\nwith App;\nprocedure Main is begin App.Run; end Main;"
OF_NO_NAME = {"any integer": "an integer type", "discrete": "an integer type or BOOLEAN", "universal": "type universal integer, that of a number"}


def type_of(name, text):
    """What is written of the type with this name."""
    if name in OF_NO_NAME:
        return OF_NO_NAME[name]
    declared = re.search(rf"\btype ({name})\b", text, re.IGNORECASE)
    return f"type {name.upper()}, " + (f"declared at {place_of(text, declared.start(1))}" if declared else "of the language")


def lines_of(written, text):
    """The lines that a row asks for."""
    if written == "nothing":
        return ""
    if written == "variable":
        return "\nexpected a variable, for a formal parameter of mode out or in out\n"
    if " * " in written:
        left, right = written.split(" * ")
        return f"\nleft operand: {type_of(left, text)}\nright operand: {type_of(right, text)}\n"
    expected, found = written.split(" / ")
    return f"\nexpected {type_of(expected, text)}\nfound {type_of(found, text)}\n"


def rows_of(lines):
    """Each row's text, the place of its fault, and what is written of it."""
    for line in lines:
        if line and not line.startswith("#"):
            row, written = line.rsplit(" => ", 1)
            marked = "pragma Profile (Ravenscar);\n" + SPECIFIED.format(*row.split("|")) + "\n"
            yield marked.replace("^", ""), place_of(marked, marked.index("^")), written.strip()


def main():
    program, table, scratch = sys.argv[1:]
    source = os.path.join(scratch, "row.adb")
    with open(table, encoding="utf-8") as file:
        rows = list(rows_of(file.read().split("\n")))
    wrong = 0
    for text, place, written in rows:
        with open(source, "w", encoding="utf-8") as file:
            file.write(text)
        alone, told, run = (
            subprocess.run([program, *words], capture_output=True, text=True, check=False)
            for words in (["explain", "12"], ["explain", "12", source], ["go", source, "/dev/null", "1000"])
        )
        lines = lines_of(written, text)
        behind = re.sub(r"^hint: .*\n", "", told.stdout[len(alone.stdout):], flags=re.MULTILINE)
        if run.stderr != f"fault 12 at {place}\n" or not told.stdout.startswith(alone.stdout) or not behind.endswith(lines) or (not lines and "type" in behind):
            wrong += 1
            print(f"mismatches: 12 at {place} and {lines!r} were expected, {run.stderr.strip()} and {behind!r} are written of\n{text}", file=sys.stderr)
    print(f"mismatches: of {len(rows) - wrong} of {len(rows)} texts the types are written as they should be")
    return 1 if wrong or not rows else 0


if __name__ == "__main__":
    sys.exit(main())
