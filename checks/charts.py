#!/usr/bin/env python3
"""Compares the charts that `trace --chart` writes of the sources in the tables and of the examples, byte for byte, with those drawn here from the traces that
bench/reference.py makes of their images, and from who takes each step there.

    charts.py PROGRAM FOLDER EXAMPLES SCRATCH

FOLDER has the tables of rows.py, of which all count whose sources are compiled; EXAMPLES has programs NAME.adb, some with a NAME.schedule, and the charts of some
of them, NAME.chart. Of each source a chart is drawn again up to the half of its last time.

    charts.py --of PROGRAM SOURCE [SCHEDULE]      draws the chart of a source, by the reference, whose image the program makes
"""
import os
import re
import subprocess
import sys
import tempfile

sys.path.insert(0, os.path.dirname(os.path.abspath(__file__)))
from traces import ALL_STEPS, STEPS, bodies_of, examples_of, objects_of, read, rows_of, world_of, write  # noqa: E402

sys.path.insert(0, os.path.join(os.path.dirname(os.path.abspath(__file__)), "..", "bench"))
from reference import STATUSES  # noqa: E402

COLUMNS = 120
UNITS = ((100_000, 1_000_000, "s"), (100, 1_000, "ms"), (0, 1, "us"))
# What a row of a trace says of its task: a mark, or how it rests from there on.
MARKS = {r"is left by .*": "!", r"is late by .*": "L", r"is preempted by .*": "P"}
RESTS = {r"is ready|wakes|has been served at .*": "=", r"waits until .*": ".", r"queues at .*": "q", r"ends": " "}
# And of an object: whether it is used, and whether a call is queued there from there on.
USES = r"(?:enters|leaves|queues at) (object \d+|\w+).*"
QUEUES = {r"queues at (object \d+|\w+).*": "q", r"is served at (object \d+|\w+) by .*": " "}


class Row:
    """The marks of a row by column, of which the first in a given order is shown, and how it rests at the end of columns."""

    def __init__(self, order):
        self.order, self.marks, self.rests = order, {}, {}

    def mark(self, column, mark):
        self.marks.setdefault(column, set()).add(mark)

    def text(self, columns):
        shown, rest = "", " "
        for column in range(columns):
            rest = self.rests.get(column, rest)
            shown += next((mark for mark in self.order if mark in self.marks.get(column, ())), rest)
        return shown


class Chart:
    """The chart of a run, drawn from its trace and from a second run that says who takes each step."""

    def __init__(self, make_world, limit, until=None):
        world = make_world()
        *rows, self.last = world.trace(limit, until).splitlines()
        self.time = int(self.last.split()[-1])
        self.scale = next(s for s in (digit * 10**n for n in range(20) for digit in (1, 2, 5)) if self.time < COLUMNS * s)
        self.inputs, self.lines = Row("^"), Row("v")
        self.actors = {actor.name: Row("!LP#") for actor in world.everyone}
        self.objects = {world.object(o): Row("x") for o in range(len(world.objects))}
        self.tasks = [task.name for task in world.tasks]
        for row in rows:
            time, _, who, told = row.split(" ", 3)
            self.tell(int(time) // self.scale, who, told)
        self.take_steps(make_world(), limit, until)

    def tell(self, column, who, told):
        if who == "-":
            if told.startswith("line "):
                self.inputs.mark(column, "^")
            return
        if told.startswith("writes "):
            self.lines.mark(column, "v")
            return
        for form, mark in MARKS.items():
            if re.fullmatch(form, told):
                self.actors[who].mark(column, mark)
        for form, rest in RESTS.items():
            if re.fullmatch(form, told):
                self.actors[who].rests[column] = rest
        used = re.fullmatch(USES, told)
        if used:
            self.objects[used[1]].mark(column, "x")
        for form, rest in QUEUES.items():
            queues = re.fullmatch(form, told)
            if queues:
                self.objects[queues[1]].rests[column] = rest

    def take_steps(self, world, limit, until):
        taken = 0
        while taken < limit and world.outcome is None:
            ran, column = world.name(world.running), world.now // self.scale
            world.step()
            taken += 1
            if world.is_past(until):
                return
            self.actors[ran].mark(column, "#")

    def axis(self, columns):
        axis = ""
        divisor, unit = next((divisor, unit) for least, divisor, unit in UNITS if least <= self.scale)
        for column in range(0, columns, 10):
            axis = axis.ljust(column) + f"|{column * self.scale // divisor} {unit}"
        return axis

    def text(self):
        columns = self.time // self.scale + 1
        shown = [("inputs", self.inputs), ("lines", self.lines)]
        shown += [(name, row) for name, row in self.actors.items() if name in self.tasks or row.marks]
        shown += self.objects.items()
        rows = [f"{row.text(columns)} {name}" for name, row in shown]
        return "".join(line + "\n" for line in [f"1 column = {self.scale} us", self.axis(columns), *rows, self.last])


class Comparer:
    """Draws sources by the program, and their images by the reference."""

    def __init__(self, program, folder):
        self.program, self.folder, self.texts, self.wrong = os.path.abspath(program), folder, 0, []
        os.makedirs(folder)

    def compare(self, name, expected, *words):
        run = subprocess.run([self.program, "trace", "--chart", *words], cwd=self.folder, capture_output=True, check=False)
        self.texts += 1
        if (run.stdout.decode(), run.stderr, run.returncode) != (expected, b"", STATUSES[expected.splitlines()[-1].split()[0]]):
            first = next((pair for pair in zip(run.stdout.decode().splitlines(), expected.splitlines()) if pair[0] != pair[1]), None)
            self.wrong.append(f"{name}: {words}: status {run.returncode}, {run.stderr!r}; they differ first in {first}")

    def draw(self, name, source, schedule):
        """Draws a source whole and up to the half of its last time."""
        for file, content in (("main.adb", source), ("input", schedule)):
            write(os.path.join(self.folder, file), content)

        def make_world():
            return world_of(self.program, self.folder, source, schedule, objects_of(source), bodies_of(source))

        whole = Chart(make_world, STEPS)
        until = whole.time // 2
        self.compare(name, whole.text(), "main.adb", "input", str(STEPS))
        self.compare(name, Chart(make_world, STEPS, until).text(), "main.adb", "input", str(STEPS), "--until", str(until))


def chart_of(program, source, schedule):
    """The chart of a source, by the reference."""
    with tempfile.TemporaryDirectory() as folder:
        return Chart(lambda: world_of(os.path.abspath(program), folder, source, schedule, objects_of(source), bodies_of(source)), ALL_STEPS).text()


def main():
    if sys.argv[1] == "--of":
        program, source, *schedule = sys.argv[2:]
        print(chart_of(program, read(source), read(schedule[0]) if schedule else b""), end="")
        return
    program, folder, examples, scratch = sys.argv[1:]
    comparer, sources = Comparer(program, scratch), 0
    for name, source, schedule in rows_of(folder):
        comparer.draw(name, source, schedule)
        sources += 1
    for name, source, schedule, _ in examples_of(examples):
        comparer.draw(name, source, schedule)
        sources += 1
        stored = os.path.join(examples, f"{name}.chart")
        if os.path.exists(stored):
            comparer.compare(name, read(stored).decode(), "main.adb", "input", str(ALL_STEPS))
    for told in comparer.wrong:
        print(f"charts: {told}", file=sys.stderr)
    print(f"charts: {sources} sources, {comparer.texts} texts, {len(comparer.wrong)} wrong")
    sys.exit(1 if comparer.wrong or not comparer.texts else 0)


if __name__ == "__main__":
    main()
