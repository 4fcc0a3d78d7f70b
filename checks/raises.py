#!/usr/bin/env python3
"""Gives the texts of raises.txt to the program, and compares the exceptions that their traces tell, and where they come from, with the rows.

    raises.py PROGRAM RAISES SCRATCH RUN

Where an exception that nothing handles ends the run of a text, RUN (./run) shows the place where it was raised, and not that of a call out of which it came.
"""
import os
import re
import subprocess
import sys

from shared import place_of_mark

FRAME = """pragma Profile (Ravenscar);
with Ada.Real_Time; use Ada.Real_Time;
with Control_IO; use Control_IO;
package App is
   Bad : exception;
   subtype Digit is Integer range 0 .. 9;
   type Row is array (1 .. 3) of Digit;
   N : Integer := 10; Most : Integer := Integer'Last; D : Digit; R : Row;
   {} procedure Run;
end App;
package body App is
   {} procedure Run is {} end Run;
end App;
with App;
procedure Main is begin App.Run; end Main;
"""
MARK = re.compile(r"\^\d")


def without_marks(text):
    return MARK.sub("", text)


def rows_of(lines):
    """Each row's text, and what it raises: the words of a trace, with the place behind them."""
    for line in lines:
        if line and not line.startswith("#"):
            raises, *parts = line.replace("\\n", "\n").replace("\\t", "\t").split(" | ")
            marked = FRAME.format(*[""] * (3 - len(parts)), *parts)
            told = []
            for words in raises.split(", "):
                words, number = words.rsplit(" ", 1)
                told.append((words, place_of_mark(marked, "^" + number, without_marks)))
            yield without_marks(marked), told


def shown(source, text, told):
    """What is said of the raise that ended the run, the last one that isn't one at a call; of a long line what is near the place."""
    name, place = [(words, place) for words, place in told if not words.endswith(" at its call")][-1]
    line, column = map(int, place.split(":"))
    here = text.split("\n")[line - 1]
    front, back = here[: column - 1], here[column - 1 :]
    if len(here) > 160:
        front, back = front[-80:], back[:80]
    mark = re.sub(r"[^\t]", " ", front) + "^"
    return f"{source}:{place}: {name} was raised here\n{front}{back}\n{mark}\n"


def main():
    program, raises, scratch, run = sys.argv[1:]
    source = os.path.join(scratch, "row.adb")
    with open(raises, encoding="utf-8") as file:
        rows = list(rows_of(file.read().split("\n")))
    wrong = 0
    for text, told in rows:
        with open(source, "w", encoding="utf-8") as file:
            file.write(text)
        traced, ran = (subprocess.run(words, capture_output=True, text=True, check=False) for words in ([program, "trace", source, "/dev/null", "10000"], [run, source]))
        found = re.findall(r"^\d+ \d+ \w+ raises (.*)$", traced.stdout, re.M)
        expected = [f"{words} at {place}" for words, place in told]
        ending = shown(source, text, told) if re.search(r"^unhandled ", traced.stdout, re.M) else ""
        if (found, traced.stderr, ran.stderr) != (expected, "", ending):
            wrong += 1
            print(f"raises: {expected} and {ending!r} were expected, {found}, {traced.stderr!r} and {ran.stderr!r} were told of\n{text}", file=sys.stderr)
    print(f"raises: of {len(rows) - wrong} of {len(rows)} texts it is told where exceptions come from")
    return 1 if wrong or not rows else 0


if __name__ == "__main__":
    sys.exit(main())
