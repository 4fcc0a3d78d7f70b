#!/usr/bin/env python3
"""Gives the program what the tables of docs/FAULTS.md, "What to write instead", have in their first columns, and compares what it says with the second ones.

    hints.py PROGRAM FAULTS.md SCRATCH
    hints.py --write PROGRAM FAULTS.md SCRATCH

With --write the second columns are made of what the program says (crates/remedies has these texts by hand).

Each is put into a text by the heading of its table. `simulate` refuses the text, and what the lines that begin with `hint: ` go on
with, in their order with a blank between them, is the second column.
"""
import os
import re
import subprocess
import sys

SPECIFICATION = "pragma Profile (Ravenscar);\nwith Control_IO; use Control_IO;\npackage App is\n%s\nprocedure Run;\nend App;\n"
BODY = "package body App is\n%s\nprocedure Run is N : Integer; B : Boolean; begin\n%s\nend Run;\nend App;\nwith App;\nprocedure Main is begin App.Run; end Main;\n"
FRAMES = {
    "declaration": (SPECIFICATION % "{}") + BODY % ("", "null;"),
    "body": (SPECIFICATION % "") + BODY % ("{}", "null;"),
    "statement": (SPECIFICATION % "") + BODY % ("", "{}"),
    "text": "{}\n",
}


def rows_of(lines):
    """The number of the line of each row of the tables, what the row has written in its text, and what is to be said of it."""
    frame = None
    for number, line in enumerate(lines):
        heading = re.match(r"\| (\w+) \| what to write \|$", line)
        row = re.match(r"\| `(.*?)` \| (.*) \|$", line)
        if heading:
            frame = FRAMES[heading[1]]
        elif not line.startswith("|"):
            frame = None
        elif row and frame:
            yield number, frame.replace("{}", row[1]), row[2]


def said_of(program, source, text):
    """The status of the program on a text, the hints that it gives, and all that it says."""
    with open(source, "w", encoding="utf-8") as file:
        file.write(text)
    run = subprocess.run([program, "simulate", source], capture_output=True, text=True, check=False)
    return run.returncode, [line.removeprefix("hint: ") for line in run.stderr.split("\n") if line.startswith("hint: ")], run.stderr.strip()


def write_rows(program, faults, source):
    with open(faults, encoding="utf-8") as file:
        lines = file.read().split("\n")
    for number, text, expected in rows_of(lines):
        _status, hints, _said = said_of(program, source, text)
        lines[number] = lines[number].removesuffix(f"{expected} |") + f"{' '.join(hints)} |"
    with open(faults, "w", encoding="utf-8") as file:
        file.write("\n".join(lines))


def main():
    words = [word for word in sys.argv[1:] if word != "--write"]
    program, faults, scratch = words
    source = os.path.join(scratch, "hinted.adb")
    if len(words) < len(sys.argv) - 1:
        write_rows(program, faults, source)
        return 0
    with open(faults, encoding="utf-8") as file:
        rows = list(rows_of(file.read().split("\n")))
    wrong = 0
    for _number, text, expected in rows:
        status, hints, said = said_of(program, source, text)
        if status != 2 or " ".join(hints) != expected:
            wrong += 1
            print(f"hints: {expected!r} was expected, {said} was said of\n{text}", file=sys.stderr)
    print(f"hints: of {len(rows) - wrong} of {len(rows)} texts it is told what to write instead")
    return 1 if wrong or not rows else 0


if __name__ == "__main__":
    sys.exit(main())
