#!/usr/bin/env python3
"""Compares what `measure` writes of the sources in the tables and of the examples, byte for byte and in both forms, with what is measured here of the worlds that
bench/reference.py leads their images through.

    measures.py PROGRAM FOLDER EXAMPLES SCRATCH

FOLDER has the tables of rows.py, of which all count whose sources are compiled; EXAMPLES has programs NAME.adb, some with a NAME.schedule, and what is measured of
some of them, NAME.measure. Each source is measured again up to the half of its last time. And of the examples that are searched (searches.py) it compares what is
written of the runs on a set of at most 64 schedules, made with a fixed seed, with the greatest and least values of the reference's runs, one after the other.

    measures.py --of PROGRAM SOURCE [SCHEDULE]      writes the table for a source, by the reference, whose image the program makes
"""
import os
import random
import sys
import tempfile
from bisect import bisect_right

sys.path.insert(0, os.path.dirname(os.path.abspath(__file__)))
from calling import called  # noqa: E402
from searches import PROGRAMS, random_set, schedules_of, slots_of  # noqa: E402
from traces import ALL_STEPS, STEPS, examples_of, objects_of, read, rows_of, world_of, write  # noqa: E402

sys.path.insert(0, os.path.join(os.path.dirname(os.path.abspath(__file__)), "..", "bench"))
from reference import STATUSES  # noqa: E402

WORK_HEADING = " priority      jobs     steps     least   longest  response  blocking preempted task\n"
WAITS_HEADING = "\n   queued     worst     total      late     worst     apart task\n"
FRAMES_HEADING = "\n   frames     words task\n"
OBJECTS_HEADING = "\n  ceiling     calls    queued object\n"
USAGES_HEADING = "\n    calls   longest task object\n"
INSTANTS_HEADING = "\n    steps at time\n"
SET_HEADING = "    value  schedule measure\n"
HERE = ("ready", "running")
# The measures of a task or handler, in the order in which they are counted below, and whether the greatest value is asked for or the least.
OF_ACTORS = [
    ("jobs", max), ("steps", max), ("least steps", min), ("most steps", max), ("response", max), ("blocking", max), ("preemptions", max), ("queued calls", max),
    ("longest wait", max), ("total wait", max), ("late delays", max), ("lateness", max), ("least distance", min), ("frames", max), ("words", max),
]


class Actor:
    """What has happened to a task or handler: when its jobs began, after how many steps, and with which step they were over; its steps; its waits; how late it was;
    how many frames it had before each step, and how many words these had."""

    def __init__(self):
        self.jobs, self.over, self.steps, self.preempted, self.waits, self.late, self.frames, self.words = [], [], [], 0, [], [], [], []

    def job_of(self, step):
        """The number of the job that has a step of the run."""
        return bisect_right([begun for _, begun in self.jobs], step - 1) - 1

    def work(self, blocking):
        of_job = [self.job_of(step) for step in self.steps]
        return [
            len(self.jobs),
            len(self.steps),
            min((of_job.count(self.job_of(step)) for step in self.over), default="-"),
            max((of_job.count(job) for job in set(of_job)), default=0),
            max((step - self.jobs[job][1] for step, job in zip(self.steps, of_job)), default=0),
            blocking,
            self.preempted,
        ]

    def waiting(self):
        times = [time for time, _ in self.jobs]
        apart = [later - time for time, later in zip(times, times[1:])]
        return [len(self.waits), max(self.waits, default=0), sum(self.waits), len(self.late), max(self.late, default=0), min(apart, default="-")]


class Usage:
    """What a task or handler has done at an object: its calls, and of each action that it had open the steps that it took meanwhile."""

    def __init__(self):
        self.calls, self.actions = 0, []

    def longest(self):
        return max(self.actions, default=0)


class Measures:
    """A run of a world, and what is measured of it."""

    def __init__(self, world, limit, until=None):
        self.world, self.instants = world, []
        self.actors = [Actor() for _ in world.everyone]
        self.objects = [[0, 0] for _ in world.objects]
        self.usages = [[Usage() for _ in world.objects] for _ in world.everyone]
        for task in range(len(world.tasks)):
            self.actors[task].jobs.append((0, 0))
        self.handler_begins(0)
        taken, before = 0, world.now
        while taken < limit and world.outcome is None:
            before, taken = world.now, taken + 1
            done = self.step(taken, until)
            if not done:
                break
        self.last = world.last_line(before, until)

    def handler_begins(self, number):
        """The job of a handler, if one begins: inside its object from the start, without a call."""
        if self.world.running is not None and self.world.running >= len(self.world.tasks):
            self.actors[self.world.running].jobs.append((self.world.now, number))
            for o in self.world.inside(self.world.running):
                self.usages[self.world.running][o].actions.append(0)

    def step(self, number, until):
        """Takes a step, unless the clock passes the time with it."""
        world = self.world
        ran, now, places, inside, delivered = world.running, world.now, world.places(), world.inside(world.running), world.delivered
        frames = world.one(ran).frames[world.one(ran).below :]
        counted, words = len(frames), sum(len(frame.locals) + len(frame.stack) for frame in frames)
        world.step()
        if world.is_past(until):
            return False
        self.actors[ran].frames.append(counted)
        self.actors[ran].words.append(words)
        later, over = world.now > now, ran >= len(world.tasks) and world.delivered > delivered
        if not self.instants or self.instants[-1][1] != now:
            self.instants.append([0, now])
        self.instants[-1][0] += 1
        self.actors[ran].steps.append(number)
        for o in inside:
            self.usages[ran][o].actions[-1] += 1
        self.actors[ran].late += [int(row.split()[-1]) for row in world.asking if row.startswith("is late by ")]
        after = world.places()
        self.called(ran, set() if over else world.inside(ran), inside, after[ran])
        if later or over or after[ran][0] in ("asleep", "queued", "finished"):
            self.actors[ran].over.append(number)
        for task, (before, place) in enumerate(zip(places[: len(world.tasks)], after)):
            if place[0] in HERE and (before[0] in ("asleep", "served") or (later and before[0] == "running")):
                self.actors[task].jobs.append((world.now, number))
                self.actors[task].waits += [now - world.called_at[task]] if before[0] == "served" else []
        if ran < len(world.tasks) and not later and after[ran][0] == "ready" and world.active(ran) < world.active(world.running):
            self.actors[ran].preempted += 1
        if later or over or world.running != ran:
            self.handler_begins(number)
        return True

    def called(self, ran, now, before, place):
        for o in now - before:
            self.objects[o][0] += 1
            self.usages[ran][o].calls += 1
            self.usages[ran][o].actions.append(0)
        if place[0] == "queued":
            self.objects[place[1]][0] += 1
            self.objects[place[1]][1] += 1
            self.usages[ran][place[1]].calls += 1

    def blocking(self, priority):
        """The most steps of one action of a task or handler of a lower base priority, at an object whose ceiling is at or above this priority."""
        lower = [usages for task, usages in zip(self.world.everyone, self.usages) if task.base < priority]
        return max((usages[o].longest() for usages in lower for o, (ceiling, *_) in enumerate(self.world.objects) if ceiling >= priority), default=0)

    def rows(self):
        """Tables: their headings, and rows of words: what they are about, their numbers, and the names."""
        world = self.world
        shown = [(task, actor) for number, (task, actor) in enumerate(zip(world.everyone, self.actors)) if number < len(world.tasks) or actor.jobs]
        yield WORK_HEADING, [("task", [task.base, *actor.work(self.blocking(task.base))], [task.name]) for task, actor in shown]
        yield WAITS_HEADING, [("wait", actor.waiting(), [task.name]) for task, actor in shown]
        yield FRAMES_HEADING, [("frames", [max(actor.frames, default=int(task in world.tasks)), max(actor.words, default=0)], [task.name]) for task, actor in shown]
        yield OBJECTS_HEADING, [("object", [world.objects[o][0], *numbers], [world.object(o)]) for o, numbers in enumerate(self.objects)]
        used = [(task, o, usage) for task, usages in zip(world.everyone, self.usages) for o, usage in enumerate(usages) if usage.calls or usage.longest()]
        yield USAGES_HEADING, [("inside", [usage.calls, usage.longest()], [task.name, world.object(o)]) for task, o, usage in used]
        most = max((steps for steps, _ in self.instants), default=0)
        yield INSTANTS_HEADING, [("instant", [most], [next((time for steps, time in self.instants if steps == most), 0)])]

    def values(self):
        """What is measured: what a row of it is about, its name, whose it is, whether the greatest or the least is asked for, and the value, if there is one."""
        world = self.world
        for number, (task, actor) in enumerate(zip(world.everyone, self.actors)):
            has_run = number < len(world.tasks) or actor.jobs
            frames = [max(actor.frames, default=int(number < len(world.tasks))), max(actor.words, default=0)]
            for (measure, best), value in zip(OF_ACTORS, [*actor.work(self.blocking(task.base)), *actor.waiting(), *frames]):
                yield "task", measure, [task.name], best, value if has_run and value != "-" else None
        for o, numbers in enumerate(self.objects):
            for measure, value in zip(("calls", "queued calls"), numbers):
                yield "object", measure, [world.object(o)], max, value
        for task, usages in zip(world.everyone, self.usages):
            for o, usage in enumerate(usages):
                yield "inside", "calls", [task.name, world.object(o)], max, usage.calls
                yield "inside", "longest action", [task.name, world.object(o)], max, usage.longest()
        yield "instant", "steps at one time", [], max, max((steps for steps, _ in self.instants), default=0)

    def table(self):
        tables = (heading + "".join("".join(f"{number:>9} " for number in numbers) + " ".join(map(str, names)) + "\n" for _, numbers, names in rows) for heading, rows in self.rows())
        return "".join(tables) + self.last + "\n"

    def fields(self):
        text = "".join("\t".join(map(str, [about, *numbers, *names])) + "\n" for _, rows in self.rows() for about, numbers, names in rows)
        return text + self.last + "\n"


class SetMeasures:
    """What is measured of the runs on some schedules: rows of a value, the number of the first schedule that gives it, and what it is of."""

    def __init__(self, schedules, runs):
        self.schedules, self.rows, self.cut = schedules, [], sum(run.last.startswith("step limit") for run in runs)
        for column in zip(*(run.values() for run in runs)):
            about, measure, names, best, _ = column[0]
            values = [(row[-1], number) for number, row in enumerate(column, 1) if row[-1] is not None]
            value = best((value for value, _ in values), default=0)
            if value > 0 or (best is min and values):
                self.rows.append((about, value, next(number for other, number in values if other == value), measure, names))
        self.shown = sorted({number for _, _, number, _, _ in self.rows})
        self.status = STATUSES["step"] if self.cut else 0

    def last(self):
        return f"{len(self.schedules)} schedules" + (f", {self.cut} cut by the limit on steps" if self.cut else "") + "\n"

    def table(self):
        rows = (f"{value:>9} {number:>9} {measure}{''.join(f' {word} {name}' for word, name in zip(('of', 'at'), names))}\n" for _, value, number, measure, names in self.rows)
        shown = (f"\nschedule {number}\n{self.schedules[number - 1]}" for number in self.shown)
        return "".join([SET_HEADING, *rows, *shown, "\n", self.last()])

    def fields(self):
        rows = ("\t".join(map(str, [about, value, number, measure, *names])) + "\n" for about, value, number, measure, names in self.rows)
        shown = ("\t".join(["schedule", str(number), *line.split()]) + "\n" for number in self.shown for line in self.schedules[number - 1].splitlines())
        return "".join([*rows, *shown, self.last()])


class Comparer:
    """Measures sources with the program, and their images with the reference."""

    def __init__(self, program, folder):
        self.program, self.folder, self.texts, self.wrong = os.path.abspath(program), folder, 0, []
        os.makedirs(folder, exist_ok=True)

    def world_of(self, source, schedule):
        return world_of(self.program, self.folder, source, schedule, objects_of(source))

    def compare(self, name, expected, *words, status=None):
        run = called([self.program, "measure", *words], self.folder)
        self.texts += 1
        status = STATUSES[expected.splitlines()[-1].split()[0]] if status is None else status
        if (run.stdout.decode(), run.stderr, run.returncode) != (expected, b"", status):
            first = next((pair for pair in zip(run.stdout.decode().splitlines(), expected.splitlines()) if pair[0] != pair[1]), None)
            self.wrong.append(f"{name}: {words}: status {run.returncode}, {run.stderr!r}; they differ first in {first}")

    def measure(self, name, source, schedule):
        """Measures a source whole and up to the half of its last time, in both forms."""
        for file, content in (("main.adb", source), ("input", schedule)):
            write(os.path.join(self.folder, file), content)
        whole = Measures(self.world_of(source, schedule), STEPS)
        until = int(whole.last.split()[-1]) // 2
        timed = Measures(self.world_of(source, schedule), STEPS, until)
        for measures, words in ((whole, []), (timed, ["--until", str(until)])):
            self.compare(name, measures.table(), "main.adb", "input", str(STEPS), *words)
            self.compare(name, measures.fields(), "--tsv", "main.adb", "input", str(STEPS), *words)


    def measure_set(self, name, source, text, until, limit):
        """Measures a source on each schedule of a set, up to a time and with a limit on the steps of each run, in both forms."""
        schedules = list(schedules_of(slots_of(text, until)))
        measures = SetMeasures(schedules, [Measures(self.world_of(source, schedule.encode()), limit, until) for schedule in schedules])
        for file, content in (("main.adb", source), ("choices", text.encode())):
            write(os.path.join(self.folder, file), content)
        words = ["main.adb", "choices", str(until), str(limit)]
        self.compare(f"{name} on a set", measures.table(), *words, status=measures.status)
        self.compare(f"{name} on a set", measures.fields(), "--tsv", *words, status=measures.status)


def table_of(program, source, schedule):
    """The table for a source, by the reference."""
    with tempfile.TemporaryDirectory() as folder:
        return Measures(world_of(os.path.abspath(program), folder, source, schedule, objects_of(source)), ALL_STEPS).table()


def main():
    if sys.argv[1] == "--of":
        program, source, *schedule = sys.argv[2:]
        print(table_of(program, read(source), read(schedule[0]) if schedule else b""), end="")
        return
    program, folder, examples, scratch = sys.argv[1:]
    comparer, sources = Comparer(program, scratch), 0
    for name, source, schedule in rows_of(folder):
        comparer.measure(name, source, schedule)
        sources += 1
    for name, source, schedule, _ in examples_of(examples):
        comparer.measure(name, source, schedule)
        sources += 1
        stored = os.path.join(examples, f"{name}.measure")
        if os.path.exists(stored):
            comparer.compare(name, read(stored).decode(), "main.adb", "input", str(ALL_STEPS))
    rng = random.Random(17)
    for name, (channels, step, _) in PROGRAMS.items():
        text, until = random_set(rng, channels, step)
        for limit in (STEPS, 60):
            comparer.measure_set(name, read(os.path.join(examples, name)), text, until, limit)
    for told in comparer.wrong:
        print(f"measures: {told}", file=sys.stderr)
    print(f"measures: {sources} sources, {len(PROGRAMS)} of them on sets of schedules, {comparer.texts} texts, {len(comparer.wrong)} wrong")
    sys.exit(1 if comparer.wrong or not comparer.texts else 0)


if __name__ == "__main__":
    main()
