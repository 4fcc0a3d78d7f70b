#!/usr/bin/env python3
"""Runs programs, and compares what they write with what is stored.

    sequential.py FOLDER SCRATCH COMMAND WORD..

Each text NAME.adb of the folder writes NAME.out, on the schedule NAME.schedule, if there is one; each row of values.txt there, if there is one, leads to its
number or its exception. The command gets the text's name, and that of the schedule, as its last words: `./run` runs the compiled program, `examples/gnat/run`
what GNAT makes of it.
"""
import os
import subprocess
import sys

FRAMED = "    "
STATUSES = {"unhandled": 3, "waits": 4}
EXCEPTIONS = {"raises": "CONSTRAINT_ERROR", "overflows": "STORAGE_ERROR"}


def status_of(lines):
    """The exit status behind these lines (docs/FORMATS.md)."""
    return STATUSES.get(lines.splitlines()[-1].split()[0], 0)


def lines_of(word):
    """What a row's program writes: its number, or that an exception ends it, which is named, or told by what happens."""
    name = EXCEPTIONS.get(word, word)
    return f"unhandled {name} in MAIN at 0\n" if name.isidentifier() else f"0 MAIN n {word}\nended at 0\n"


def rows_of(lines):
    """The text of each row, and the first word of the row."""
    frame = []
    for line in lines:
        if line == "frame":
            frame = []
        elif line.startswith(FRAMED) or not line:
            frame.append(line[len(FRAMED):])
        elif not line.startswith("#"):
            word, row = line.split(" ", 1)
            yield "\n".join(row if framed == "*" else framed for framed in frame).rstrip("\n") + "\n", word


def texts_of(folder, scratch):
    """The names of all texts, those of rows written to the scratch folder, and the lines of each."""
    for name in sorted(os.listdir(folder)):
        stem, suffix = os.path.splitext(os.path.join(folder, name))
        if suffix == ".adb":
            with open(stem + ".out", encoding="utf-8") as file:
                yield stem + suffix, file.read()
    values = os.path.join(folder, "values.txt")
    if os.path.exists(values):
        source = os.path.join(scratch, "row.adb")
        with open(values, encoding="utf-8") as file:
            rows = list(rows_of(file.read().split("\n")))
        for text, word in rows:
            with open(source, "w", encoding="utf-8") as file:
                file.write(text)
            yield source, lines_of(word)


def is_written(command, source, lines):
    """Whether the command writes these lines of the text, and ends with their status; else it is told what it does."""
    schedule = os.path.splitext(source)[0] + ".schedule"
    words = [source, schedule] if os.path.exists(schedule) else [source]
    run = subprocess.run(command + words, capture_output=True, text=True, check=False)
    if run.stdout == lines and run.returncode == status_of(lines):
        return True
    with open(source, encoding="utf-8") as file:
        print(f"sequential: {source}: status {run.returncode}\n{run.stdout}{run.stderr}expected was\n{lines}of\n{file.read()}", file=sys.stderr)
    return False


def main():
    folder, scratch, *command = sys.argv[1:]
    results = [is_written(command, source, lines) for source, lines in texts_of(folder, scratch)]
    print(f"sequential: {sum(results)} of {len(results)} texts of {folder} write what they should")
    return 0 if results and all(results) else 1


if __name__ == "__main__":
    sys.exit(main())
