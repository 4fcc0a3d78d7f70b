#!/usr/bin/env python3
"""Compares the traces of the sources in the tables and of the examples, byte for byte, with those that bench/reference.py makes of their images. An image has no
places of the source: those of rows are left out there, compared with the statements and declarations that begin there, and by raises.txt and the examples' whole
traces.

    traces.py PROGRAM FOLDER EXAMPLES SCRATCH

FOLDER has the tables of rows.py, of which all count whose sources are compiled; EXAMPLES has programs NAME.adb, some with a NAME.schedule, and their traces
NAME.trace, which the reference has made too but for those places. Each source is traced again up to the half of its last time, and simulated up to then.
"""
import os
import re
import subprocess
import sys

import rows
from calling import called

sys.path.insert(0, os.path.join(os.path.dirname(os.path.abspath(__file__)), "..", "bench"))
from reference import STATUSES, World  # noqa: E402

TABLES = ("programs", "time", "delays", "tasks", "protected", "entries", "interrupts", "traces")
STEPS, ALL_STEPS = 3_000, 1_000_000
REFUSED = (rows.STATUSES["fault"], rows.STATUSES["schedule"])
PLACED = re.compile(r"^(\d+ \d+ \w+ .*) at \d+:\d+$", re.M)


def rows_of(folder):
    """Names, sources and schedules of the rows that are compiled and run."""
    for table in TABLES:
        with open(os.path.join(folder, f"{table}.txt"), encoding="utf-8") as file:
            for row in rows.rows_of(table, file.read().split("\n")):
                if rows.expected_of(row)[2] not in REFUSED:
                    yield row["name"], rows.framed(row["frame"], row), rows.bytes_of("".join(row.get("schedule", [])))


def examples_of(folder):
    """Names, sources, schedules and traces of the examples."""
    for name in sorted(name[:-4] for name in os.listdir(folder) if name.endswith(".adb")):
        source, schedule, trace = (os.path.join(folder, f"{name}.{kind}") for kind in ("adb", "schedule", "trace"))
        yield name, read(source), read(schedule) if os.path.exists(schedule) else b"", read(trace).decode()


# What the statement or declaration begins with at the place of a row, by what the row reports.
PLACES = {
    r"writes \d+ \w+ (.*) -?\d+": lambda found: rf'put\s*\(\s*"{re.escape(found[1])}"',
    r"(?:waits until|is late by) -?\d+": lambda found: r"delay\b",
    r"(?:reads -?\d+ from \d+|(?:enters|leaves|queues|is refused).*)": lambda found: r"[a-z]",
}

# What the declaration of an object has in its first value, where one is at the place of such a row.
DECLARATION = re.compile(r"[a-z]\w*\s*:(?!=)", re.I)
FIRST_VALUES = {
    r"reads -?\d+ from \d+": r"[^;]*:=[^;]*\bread\b",
    r"(?:enters|is refused).*": r"[^;]*:=[^;]*\w\s*\.\s*[a-z]",
}

# What statements and declarations do; a task also leaves an object at the end of a body, where none stands.
DONE = re.compile(r"\d+ \d+ \w+ (?:writes|reads|raises|is refused|enters|queues|is late|waits until)\b.*")


def unplaced(trace):
    """The rows of a trace that report what a statement or a declaration does, and have no place."""
    return [row for row in trace.splitlines() if DONE.fullmatch(row) and not PLACED.match(row)]


def misplaced(source, trace):
    """The rows of a trace at whose place in the source no statement or declaration begins that does what they report."""
    lines = source.decode("latin-1").split("\n")
    for row in trace.splitlines():
        placed = re.fullmatch(r"\d+ \d+ \w+ (.*) at (\d+):(\d+)", row)
        if placed and not placed[1].startswith("raises "):
            text = "\n".join([lines[int(placed[2]) - 1][int(placed[3]) - 1 :], *lines[int(placed[2]) : int(placed[2]) + 3]])
            for form, wanted in PLACES.items():
                found = re.fullmatch(form, placed[1])
                if found and not re.match(wanted(found), text, re.I):
                    yield row
            for form, value in FIRST_VALUES.items():
                if DECLARATION.match(text) and re.fullmatch(form, placed[1]) and not re.match(value, text, re.I):
                    yield row


def objects_of(source):
    """The names of the protected objects that a source declares, in their order, in upper case."""
    text = re.sub(r"--[^\n]*|\"[^\"\n]*\"", " ", source.decode("latin-1")).upper()
    return [name for name in re.findall(r"\bPROTECTED\s+(\w+)", text) if name != "BODY"]


def bodies_of(source):
    """The names of the bodies that a source has, in their order, in upper case, which is that of the image's subprograms."""
    text = re.sub(r"--[^\n]*|\"[^\"\n]*\"", " ", source.decode("latin-1")).upper()
    return re.findall(r"\b(?:PROCEDURE|FUNCTION|ENTRY|TASK\s+BODY)\s+(\w+)\s*(?:\([^()]*\)\s*)?(?:RETURN\s+\w+\s+)?(?:WHEN\s+\w+\s+)?IS\b", text)


def world_of(program, folder, source, schedule, names=(), bodies=(), kind=World):
    """The reference's world at the start of what the program compiles of a source."""
    write(os.path.join(folder, "main.adb"), source)
    subprocess.run([program, "compile", "main.adb", "main.img"], cwd=folder, capture_output=True, check=False)
    lines = [tuple(map(int, line.split())) for line in schedule.decode().splitlines()]
    return kind(read(os.path.join(folder, "main.img")), lines, names, bodies)


def write(path, content):
    with open(path, "wb") as file:
        file.write(content)


def read(path):
    with open(path, "rb") as file:
        return file.read()


class Comparer:
    """Traces sources with the program, and their images with the reference."""

    def __init__(self, program, folder):
        self.program, self.folder = os.path.abspath(program), folder
        self.rows, self.wrong = 0, []
        os.makedirs(folder, exist_ok=True)

    def call(self, *words):
        return called([self.program, *words], self.folder)

    def write(self, source, schedule):
        for file, content in (("main.adb", source), ("input", schedule)):
            write(os.path.join(self.folder, file), content)

    def reference_of(self, source, schedule, until=None):
        return world_of(self.program, self.folder, source, schedule, objects_of(source), bodies_of(source)).trace(STEPS, until)

    def compare_timed(self, name, source, schedule, whole):
        """Traces and simulates the source that was written up to the half of the last time of its whole trace."""
        until = int(whole.split()[-1]) // 2
        self.compare(name, STEPS, self.reference_of(source, schedule, until), False, "--until", str(until))
        expected = world_of(self.program, self.folder, source, schedule).run(STEPS, until)
        run = self.call("simulate", "main.adb", "input", str(STEPS), "--until", str(until))
        if (run.stdout.decode(), run.returncode) != (expected, STATUSES[expected.splitlines()[-1].split()[0]]):
            self.wrong.append(f"{name}: simulated up to {until}: status {run.returncode}, {run.stdout.decode()!r}")

    def compare(self, name, steps, expected, placed, *words):
        """Traces the source that was written: its trace is what is expected, with the places of rows or without them, each row of what a statement or a declaration
        does has a place, at each place one begins that does what the row reports, and the status is that of the last line."""
        run = self.call("trace", "main.adb", "input", str(steps), *words)
        told = run.stdout.decode() if placed else PLACED.sub(r"\1", run.stdout.decode())
        self.rows += told.count("\n")
        if (told, run.stderr, run.returncode) != (expected, b"", STATUSES[expected.splitlines()[-1].split()[0]]):
            first = next((pair for pair in zip(told.splitlines(), expected.splitlines()) if pair[0] != pair[1]), None)
            self.wrong.append(f"{name}: status {run.returncode}, {run.stderr!r}; they differ first in {first}")
        self.wrong += [f"{name}: nothing that does this is there: {row}" for row in misplaced(read(os.path.join(self.folder, "main.adb")), run.stdout.decode())]
        self.wrong += [f"{name}: the row has no place: {row}" for row in unplaced(run.stdout.decode())]


def main():
    program, folder, examples, scratch = sys.argv[1:]
    comparer, sources = Comparer(program, scratch), 0
    for name, source, schedule in rows_of(folder):
        comparer.write(source, schedule)
        whole = comparer.reference_of(source, schedule)
        comparer.compare(name, STEPS, whole, False)
        comparer.compare_timed(name, source, schedule, whole)
        sources += 1
    for name, source, schedule, trace in examples_of(examples):
        comparer.write(source, schedule)
        whole = comparer.reference_of(source, schedule)
        comparer.compare(name, STEPS, whole, False)
        comparer.compare_timed(name, source, schedule, whole)
        comparer.compare(name, ALL_STEPS, trace, True)
        sources += 1
    for told in comparer.wrong:
        print(f"traces: {told}", file=sys.stderr)
    print(f"traces: {sources} sources, {comparer.rows} rows, {len(comparer.wrong)} wrong")
    sys.exit(1 if comparer.wrong or not comparer.rows else 0)


if __name__ == "__main__":
    main()
