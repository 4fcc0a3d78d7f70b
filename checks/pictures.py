#!/usr/bin/env python3
"""Compares the pictures that `trace --svg` writes of the sources in the tables and of the examples, byte for byte, with those drawn here from the traces that
bench/reference.py makes of their images. A reader of XML reads each, and what is to be seen there, bars covered by later ones, is compared with the trace.

    pictures.py PROGRAM FOLDER EXAMPLES SCRATCH

FOLDER has the tables of rows.py, of which all count whose sources are compiled; EXAMPLES has programs NAME.adb, some with a NAME.schedule, and the pictures of
some of them, NAME.svg. Of each source a picture is drawn again up to the half of its last time.

    pictures.py --of PROGRAM SOURCE [SCHEDULE]    draws the picture of a source, by the reference, whose image the program makes
"""
import os
import re
import subprocess
import sys
import tempfile
from xml.etree import ElementTree
from xml.sax.saxutils import escape

sys.path.insert(0, os.path.dirname(os.path.abspath(__file__)))
from traces import ALL_STEPS, STEPS, bodies_of, examples_of, objects_of, read, rows_of, world_of, write  # noqa: E402

sys.path.insert(0, os.path.join(os.path.dirname(os.path.abspath(__file__)), "..", "bench"))
from reference import STATUSES  # noqa: E402

LEFT, WIDTH, TOP, ROW, GAP, MOST_STEPS = 2800, 14000, 1700, 360, 1500, 2000
INPUTS = "inputs, interrupts"
BAR, TICK, CROSS = "H16800", "v-120", "m-50-110 100 100m0-100-100 100"
OBJECT = r"(object \d+|\w+)"
# What a row of a trace says of its task: the class of a bar or a mark, its outline, how far below the edge of its row it is, and its title.
SHAPES = (
    (r"is ready|wakes|has been served at .*|gives way to .*|is preempted by .*", "ready", BAR, 250, "is ready"),
    (r"runs at .*", "running", BAR, 250, "runs"),
    (r"waits until (\d+)", "delayed", BAR, 250, "waits until {ms}"),
    (rf"queues at {OBJECT}.*", "queued", BAR, 250, "queues at {}"),
    (r"ends", "ended", BAR, 250, "ends"),
    (r"runs at .*", "ran", TICK, 170, "runs"),
    (r"is preempted by (\w+)", "preempted", "l-45-100h90z", 170, "is preempted by {}"),
    (r"is late by (\d+)", "late", "l-55-60 55-60 55 60z", 170, "is late by {ms}"),
    (r"is refused.*", "refused", CROSS, 170, "is refused an operation"),
    (r"raises (\w+).*", "raised", CROSS, 170, "raises {}"),
    (r"is left by (\w+)", "unhandled", CROSS, 170, "is left by {}"),
)
# And of its object.
OBJECT_SHAPES = (
    (rf"enters {OBJECT}.*", "entered", BAR, 285, "enters {}"),
    (rf"leaves {OBJECT}.*", "left", BAR, 285, "leaves {}"),
    (rf"queues at {OBJECT}.*", "waits", BAR, 225, "queues at {}"),
    (rf"is served at {OBJECT} by .*", "served", BAR, 225, "is served at {}"),
    (rf"enters {OBJECT}.*", "used", TICK, 170, "enters {}"),
)
BARS = {"ready", "running", "delayed", "queued", "ended"}
SPACINGS = [digit * 10**n for n in range(19) for digit in (1, 2, 5)]


def style():
    """The style as FORMATS has it: the text between its fences."""
    return re.search(r"```svg\n(.*?)```", read(os.path.join(os.path.dirname(os.path.abspath(__file__)), "..", "docs", "FORMATS.md")).decode(), re.S)[1]


def milliseconds(time):
    return f"{time // 1000}.{time % 1000:03}"


class Picture:
    """The picture of a run, by the rows of its trace, its last line, and how many steps it takes."""

    def __init__(self, rows, last, tasks, objects, steps):
        self.tasks, self.objects, self.last, self.text = tasks, objects, last, []
        self.names = tasks + objects + [INPUTS]
        self.spans = max(int(last.split()[-1]), 1), max(min(steps, MOST_STEPS), 1)
        self.tops = TOP, TOP + len(self.names) * ROW + GAP
        self.bottom = self.tops[1] + len(self.names) * ROW
        self.front()
        self.rows = [row.split(" ", 3) for row in rows]
        for time, step, who, told in self.rows:
            self.tell(int(time), int(step), who, re.sub(r" at \d+:\d+$", "", told))
        self.text.append(f'<text class="last" x="2800" y="{self.bottom + 450}">{last}</text>\n</svg>\n')

    def x(self, part, at):
        return LEFT + at * WIDTH // self.spans[part]

    def front(self):
        height = self.bottom + 700
        self.text.append(
            f'<svg xmlns="http://www.w3.org/2000/svg" viewBox="0 0 17100 {height}" width="1710" height="{height // 10}">\n' + style()
        )
        self.part(0)
        self.text.append(
            f'<text class="heading" x="300" y="{self.tops[1] - 700}">Over the first {self.spans[1]} steps: each instant has its time above, in ms</text>\n'
        )
        self.part(1)
        self.instant(0, 0)

    def part(self, part):
        """The rows and the axis of one part."""
        top, span = self.tops[part], self.spans[part]
        for number, name in enumerate(self.names):
            y = top + number * ROW
            self.text.append(f'<path class="row" d="M2800 {y + 250}H16800"/>\n<text class="name" x="2700" y="{y + 290}">{name}</text>\n')
        bottom = top + len(self.names) * ROW
        spacing = next(spacing for spacing in SPACINGS if span // 14 < spacing)
        for at in range(0, span + 1, spacing):
            x, label = self.x(part, at), str(at)
            if part == 0:
                label = (milliseconds(at) if at % 1000 else str(at // 1000)) + " ms"
            y = bottom + 150 if part else top - 60
            self.text.append(f'<path class="tick" d="M{x} {top}V{bottom}"/>\n<text class="tick" x="{x}" y="{y}">{label}</text>\n')

    def instant(self, time, step):
        if step <= self.spans[1]:
            x, top = self.x(1, step), self.tops[1]
            self.text.append(f'<path class="instant" d="M{x} {top}V{self.bottom}"/>\n')
            self.text.append(f'<text class="instant" transform="translate({x} {top - 40})rotate(-60)">{milliseconds(time)}</text>\n')

    def draw(self, moment, row, kind, outline, offset, title):
        """In both parts, as far as their axes go."""
        time, step = moment
        for part, at in enumerate((time, step)):
            if at <= self.spans[part]:
                y = self.tops[part] + self.names.index(row) * ROW + offset
                title_text = f"{title} at {milliseconds(time)} ms, step {step}"
                self.text.append(f'<path class="{kind}" d="M{self.x(part, at)} {y}{outline}"><title>{title_text}</title></path>\n')

    def tell(self, time, step, who, told):
        moment, row = (time, step), who if who in self.tasks else INPUTS
        if told == "the clock moves":
            self.instant(time, step)
        elif who == "-":
            self.draw(moment, INPUTS, "input", "l-50 90h100z", 70, told)
        elif told.startswith("writes "):
            self.draw(moment, row, "line", "v-150h110l-35 40 35 40h-110", 170, f"{who} {escape(told)}")
        for form, kind, outline, offset, title in SHAPES:
            found = re.fullmatch(form, told)
            if found:
                detail = found[1] if found.groups() else ""
                shown = title.format(detail, ms=f"{milliseconds(int(detail))} ms" if detail.isdigit() else "")
                self.draw(moment, row, kind, outline, offset, f"{who} {shown}")
        for form, kind, outline, offset, title in OBJECT_SHAPES:
            found = re.fullmatch(form, told)
            if found:
                self.draw(moment, found[1], kind, outline, offset, f"{who} {title.format(found[1])}")

    def whole(self):
        return "".join(self.text)


def states(picture):
    """In which state each task is after each of the first steps, as the trace has it."""
    state, after = {}, {}
    for _, step, who, told in picture.rows:
        for form, kind, *_ in SHAPES:
            if kind in BARS and who in picture.tasks and re.fullmatch(form, re.sub(r" at \d+:\d+$", "", told)):
                state[who] = kind
        after[int(step)] = dict(state)
    return after


def misread(picture, text):
    """What a reader of XML doesn't find there."""
    wrong = []
    svg = ElementTree.fromstring(text)
    bars = {name: [] for name in picture.tasks}
    for path in svg.findall("{http://www.w3.org/2000/svg}path"):
        kind, x, y = path.get("class"), *map(int, re.match(r"M(\d+) (\d+)", path.get("d")).groups())
        row = (y - picture.tops[1]) // ROW
        if kind in BARS and y >= picture.tops[1] and row < len(picture.tasks):
            bars[picture.tasks[row]].append((x, kind))
        if not LEFT <= x <= LEFT + WIDTH or y > picture.bottom:
            wrong.append(f"a {kind} at {x} {y}")
        if kind not in ("row", "tick", "instant") and path.find("{http://www.w3.org/2000/svg}title") is None:
            wrong.append(f"a {kind} without title")
    for step, state in states(picture).items():
        for name, kind in state.items():
            x = picture.x(1, step)
            seen = [found for at, found in bars[name] if at <= x]
            if step < picture.spans[1] and picture.x(1, step + 1) > x and seen[-1:] != [kind]:
                wrong.append(f"{name} is {seen[-1:]} after step {step}, and not {kind}")
    return wrong


class Comparer:
    """Draws sources by the program, and their images by the reference."""

    def __init__(self, program, folder):
        self.program, self.folder, self.texts, self.wrong = os.path.abspath(program), folder, 0, []
        os.makedirs(folder)

    def compare(self, name, picture, *words):
        run = subprocess.run([self.program, "trace", "--svg", *words], cwd=self.folder, capture_output=True, check=False)
        self.texts += 1
        text, expected = run.stdout.decode(), picture.whole()
        if (text, run.stderr, run.returncode) != (expected, b"", STATUSES[picture.last.split()[0]]):
            first = next((pair for pair in zip(text.splitlines(), expected.splitlines()) if pair[0] != pair[1]), None)
            self.wrong.append(f"{name}: {words}: status {run.returncode}, {run.stderr!r}; they differ first in {first}")
            return
        self.wrong += [f"{name}: {words}: {told}" for told in misread(picture, text)]

    def draw(self, name, source, schedule):
        """Draws a source whole and up to the half of its last time."""
        for file, content in (("main.adb", source), ("input", schedule)):
            write(os.path.join(self.folder, file), content)
        whole = picture_by(self.program, self.folder, source, schedule, STEPS)
        until = whole.spans[0] // 2
        self.compare(name, whole, "main.adb", "input", str(STEPS))
        half = picture_by(self.program, self.folder, source, schedule, STEPS, until)
        self.compare(name, half, "main.adb", "input", str(STEPS), "--until", str(until))


def picture_by(program, folder, source, schedule, limit, until=None):
    """The picture of a source, by the reference."""
    world, steps = world_of(program, folder, source, schedule, objects_of(source), bodies_of(source)), 0
    while steps < limit and world.outcome is None:
        world.step()
        if world.is_past(until):
            break
        steps += 1
    world = world_of(program, folder, source, schedule, objects_of(source), bodies_of(source))
    *rows, last = world.trace(limit, until).splitlines()
    objects = [world.object(o) for o in range(len(world.objects))]
    return Picture(rows, last, [task.name for task in world.tasks], objects, steps)


def main():
    if sys.argv[1] == "--of":
        program, source, *schedule = sys.argv[2:]
        with tempfile.TemporaryDirectory() as folder:
            picture = picture_by(os.path.abspath(program), folder, read(source), read(schedule[0]) if schedule else b"", ALL_STEPS)
        print(picture.whole(), end="")
        return
    program, folder, examples, scratch = sys.argv[1:]
    comparer, sources = Comparer(program, scratch), 0
    for name, source, schedule in rows_of(folder):
        comparer.draw(name, source, schedule)
        sources += 1
    for name, source, schedule, _ in examples_of(examples):
        comparer.draw(name, source, schedule)
        sources += 1
        stored = os.path.join(examples, f"{name}.svg")
        if os.path.exists(stored):
            picture = picture_by(comparer.program, scratch, source, schedule, ALL_STEPS)
            if read(stored).decode() != picture.whole():
                comparer.wrong.append(f"{name}: {stored} is another picture")
    for told in comparer.wrong:
        print(f"pictures: {told}", file=sys.stderr)
    print(f"pictures: {sources} sources, {comparer.texts} texts, {len(comparer.wrong)} wrong")
    sys.exit(1 if comparer.wrong or not comparer.texts else 0)


if __name__ == "__main__":
    main()
