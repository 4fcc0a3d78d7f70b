#!/usr/bin/env python3
"""Gives the texts of rules.txt to the program, and compares what it tells of each with the row.

    rules.py PROGRAM RULES SCRATCH

A row's text is refused with the row's number at its mark; a legal one within the profile is compiled and run, but a large one, whose code passes a limit of
images, is refused with 23 at main.
"""
import os
import subprocess
import sys

from shared import place_of

FRAMED = "    "
LIMIT_PASSED = 23


def rows_of(lines):
    """Each row's text with the number that it is refused with (None where it is legal) and the place of its mark."""
    frame = []
    for line in lines:
        if line.startswith("frame "):
            frame = []
        elif line.startswith(FRAMED) or not line:
            frame.append(line[len(FRAMED):])
        elif not line.startswith("#"):
            word, row = line.split(" ", 1)
            text = "\n".join(frame).rstrip("\n") + "\n"
            before, after = text.split("*\n", 1) if text == "*\n" else text.split("\n*\n", 1)
            before += "\n" if before else ""
            mark = len(before) + row.find("^")
            text = before + row.replace("^", "") + "\n" + after
            if word == "large":
                yield text, LIMIT_PASSED, text.rindex("procedure Main")
            else:
                yield text, None if word == "legal" else int(word), mark


def told(number, text, mark):
    """The line that the program writes of this fault at this place."""
    return f"fault {number} at {place_of(text, mark)}\n"


def main():
    program, rules, scratch = sys.argv[1:]
    source = os.path.join(scratch, "row.adb")
    with open(rules, encoding="utf-8") as file:
        rows = list(rows_of(file.read().split("\n")))
    wrong = 0
    for text, number, mark in rows:
        with open(source, "w", encoding="utf-8") as file:
            file.write(text)
        run = subprocess.run([program, "go", source, "/dev/null", "100000"], capture_output=True, text=True, check=False)
        is_right = run.stderr == told(number, text, mark) if number else run.returncode != 2
        if not is_right:
            wrong += 1
            print(f"rules: {number or 'legal'} was expected, {run.stderr.strip()} was told of\n{text}", file=sys.stderr)
    print(f"rules: {len(rows) - wrong} of {len(rows)} texts are judged as they should be")
    return 1 if wrong or not rows else 0


if __name__ == "__main__":
    sys.exit(main())
