#!/usr/bin/env python3
"""Reads the value change dumps of sources in the tables, of full_programs.py and of the examples, over steps and over virtual time, and compares each value at each
tick with those of bench/reference.py: after each step, and where the reference's clock moves on. Which variables there are, and which words of the reference
they are, declared_words.py reads from the source.

    waves.py PROGRAM FOLDER EXAMPLES SCRATCH

FOLDER has the tables of rows.py, EXAMPLES programs NAME.adb, some with a NAME.schedule. The reader is written from the standard (IEEE 1364-2005, section 18.2) and
refuses what that doesn't allow. Each is dumped up to a time, too. Where GTKWave's vcd2fst and fst2vcd are installed, the examples' dumps go through both, and what
comes back has the same values.
"""
import os
import re
import shutil
import sys
from functools import partial

import declared_words
import full_programs
import rows
from calling import called
from traces import ALL_STEPS, REFUSED, STEPS, examples_of, world_of

sys.path.insert(0, os.path.join(os.path.dirname(os.path.abspath(__file__)), "..", "bench"))
from reference import STATUSES, World  # noqa: E402

TABLES = ("delays", "tasks", "protected", "entries", "interrupts", "traces")
STATES = {"ready": 0, "running": 1, "asleep": 2, "queued": 3, "served": 4, "finished": 5}
LEFT = 6
UNTIL = 20_000
FIRST_CODE, CODES = 33, 94
NAME = re.compile(r"[A-Za-z_][A-Za-z0-9_$]*$|\\[!-~]+$")
WIDE = 2**64
NOT_WRITTEN = object()


class Wrong(Exception):
    """What the standard doesn't allow, or another value than the reference's."""


def need(test, told):
    if not test:
        raise Wrong(told)


class Dump:
    """A dump: how long a tick is, its signals in the order in which they are declared, (scopes and name, bits, kind), what changes at each tick, and the last
    tick. A name that begins with `\\` is one without it (an escaped identifier), and a value of x is None: it isn't known."""

    def __init__(self, text):
        self.words, self.signals, self.codes, self.changes, self.end, self.comments = iter(text.split()), [], {}, {}, None, []
        self.timescale = None
        self.declarations()
        self.simulation()

    def until_end(self):
        words = []
        for word in self.words:
            if word == "$end":
                return words
            words.append(word)
        raise Wrong("a command has no $end")

    def declarations(self):
        scopes = []
        for word in self.words:
            words = self.until_end()
            if word == "$scope":
                need(len(words) == 2 and words[0] in ("module", "task", "function", "begin", "fork") and NAME.match(words[1]), f"scope {words}")
                scopes.append(words[1])
            elif word == "$upscope":
                need(scopes and not words, "$upscope")
                scopes.pop()
            elif word == "$var":
                self.declare(scopes, words)
            elif word == "$timescale":
                self.timescale = " ".join(words)
                need(re.match(r"(1|10|100) ?(s|ms|us|ns|ps|fs)$", self.timescale), f"timescale {words}")
            elif word == "$enddefinitions":
                need(not scopes and not words, "$enddefinitions")
                return
            else:
                need(word in ("$comment", "$date", "$version"), f"declaration {word}")
        raise Wrong("there is no $enddefinitions")

    def declare(self, scopes, words):
        kind, size, code, *reference = words
        need(kind in ("wire", "reg", "integer") and size.isdigit() and int(size) > 0, f"variable {words}")
        need(all("!" <= c <= "~" for c in code) and code not in self.codes, f"code {code}")
        need(len(reference) in (1, 2) and NAME.match(reference[0]), f"reference {reference}")
        self.codes[code] = len(self.signals)
        self.signals.append(((*scopes, reference[0].removeprefix("\\")), int(size), kind))

    def simulation(self):
        time, dumping = None, False
        for word in self.words:
            if word.startswith("#"):
                need(word[1:].isdigit() and not dumping and (time is None or int(word[1:]) > time), f"time {word}")
                time = int(word[1:])
                self.changes[time] = {}
            elif word == "$dumpvars":
                need(time is not None and not dumping, word)
                dumping = True
            elif word == "$end":
                need(dumping and len(self.changes[time]) == len(self.signals), "$dumpvars without all values")
                dumping = False
            elif word == "$comment":
                self.comments.append(" ".join(self.until_end()))
            else:
                need(time is not None, "a value without time")
                self.change(self.changes[time], word)
        need(not dumping, "$dumpvars without end")
        self.end = time

    def change(self, changes, word):
        if word[0] in "bB":
            bits, code = word[1:], next(self.words, "")
        else:
            bits, code = word[0], word[1:]
        need(bits and (set(bits) <= {"0", "1"} or set(bits) == {"x"}) and code in self.codes, f"value {word} {code}")
        signal = self.codes[code]
        need(len(bits) <= self.signals[signal][1] and signal not in changes, f"value {word} {code}")
        changes[signal] = None if bits[0] == "x" else int(bits, 2)


def signals_of(world):
    """The signals that docs/FORMATS.md tells of, with their bits."""
    (package, variables), objects = world.scopes
    signals = [(("run", "time"), 64, "wire")]
    for task in world.tasks:
        signals += [(("run", task.name, "state"), 3, "wire"), (("run", task.name, "priority"), 8, "wire")]
    signals += [(("run", package, name), 64, "integer") for name, _ in variables]
    for own, components in objects:
        signals += [(("run", own, "inside"), 8, "wire"), (("run", own, "queued"), 8, "wire")]
        signals += [(("run", own, name), 64, "integer") for name, _ in components]
    signals += [(("run", "inputs", f"CHANNEL_{channel}"), 64, "integer") for channel in channels_of(world)]
    signals += [(("run", "lines", f"{task}.{label}"), 64, "integer") for task, label in world.labels_put]
    return signals


def channels_of(world):
    """The channels that have a line in the schedule, in their order."""
    return sorted({channel for _, channel, _ in world.schedule})


def code_of(signal):
    """The code of a signal, by its number from 0."""
    first = chr(FIRST_CODE + signal // CODES) if signal >= CODES else ""
    return first + chr(FIRST_CODE + signal % CODES)


def values_of(world):
    """Their values, but those of lines."""
    (_, variables), objects = world.scopes
    left = world.running if world.outcome and world.outcome.startswith("unhandled") else None
    values = [world.now]
    for number, place in enumerate(world.places()[: len(world.tasks)]):
        values += [LEFT if number == left else STATES[place[0]], world.active(number)]
    values += [world.plain[word] % WIDE for _, word in variables]
    inside = [set() for _ in world.objects]
    for number, task in enumerate(world.everyone):
        for _, o, _ in task.actions:
            inside[o].add(number)
    for o, queued in enumerate(world.queued):
        need(len(inside[o]) <= 1, f"tasks {inside[o]} are inside object {o}")
        values += [min(*inside[o], len(world.tasks)) + 1 if inside[o] else 0, 0 if queued is None else queued + 1]
        values += [world.words[o][word] % WIDE for _, word in objects[o][1]]
    return values + world.inputs_now()


class Watched(World):
    """A world that keeps what its signals have at the start and after each step, and where its clock moves on from a time: nobody runs or is ready, and those
    due sleep still. Words are then those that the step has left which lets the clock move. With the values it keeps how many lines there were."""

    def __init__(self, scopes, *given):
        self.scopes, self.time, self.instants, self.seen, self.read, self.labels_put = scopes, None, [], [], (None, []), []
        super().__init__(*given)
        self.seen.append(self.moment())

    def step(self):
        super().step()
        self.seen.append(self.moment())

    def moment(self):
        return values_of(self), len(self.lines)

    def with_lines(self, moments):
        """The values at moments of the run, and after them those of the last lines under each label, None where there is none yet."""
        put, noted, shown = dict.fromkeys(self.labels_put), 0, []
        for values, count in moments:
            for line in self.lines[noted:count]:
                _, task, label, value = line.split()
                put[task, label] = int(value) % WIDE
            noted = count
            shown.append([*values, *put.values()])
        return shown

    def inputs_now(self):
        """The values of the channels that have a line, which are read once for each time."""
        if self.read[0] != self.time:
            self.read = (self.time, [self.input(channel) % WIDE for channel in channels_of(self)])
        return self.read[1]

    @property
    def now(self):
        return self.time

    @now.setter
    def now(self, time):
        if self.time is not None and time > self.time:
            self.instants.append((self.time, self.moment()))
        self.time = time

    def watched(self, until):
        """The values after the steps of a run up to a time, those at the end of each instant, and its last line. A step that passes the time is none of them."""
        past = -1 if self.is_past(until) else None
        seen = self.seen[:past]
        (end, *_), count = seen[-1]
        self.labels_put = list(dict.fromkeys(tuple(line.split()[1:3]) for line in self.lines[:count]))
        times, moments = zip(*self.instants[:past], (end, seen[-1]))
        return self.with_lines(seen), list(zip(times, self.with_lines(moments))), self.last_line(end, until)


def differing(told, values):
    """The values that are other ones than those that were told last."""
    return {signal: value for signal, value in enumerate(values) if value != told[signal]}


def declared(dump, world):
    need(dump.signals == signals_of(world), f"signals {dump.signals}")
    need(list(dump.codes) == [code_of(signal) for signal in range(len(dump.signals))], f"codes {list(dump.codes)}")


def compare_times(dump, instants):
    """Each value at each instant is the one that the reference has at its end, nothing else is told to change, and all instants are there, and no others."""
    need(dump.timescale == "1 us", f"timescale {dump.timescale}")
    told, changes = [NOT_WRITTEN] * len(dump.signals), {}
    for time, values in instants:
        changes[time], told = differing(told, values), values
    wrong = [time for time in {**changes, **dump.changes} if changes.get(time) != dump.changes.get(time)]
    need(not wrong, f"at time {wrong[:1]}: the reference changes {[changes.get(time) for time in wrong[:1]]}")
    need(list(dump.changes) == list(changes) and dump.end == instants[-1][0], f"the dump ends at {dump.end}")


def compare(dump, seen):
    """Each value at each tick is the reference's, nothing else is told to change, and the dump ends after the last step."""
    need(dump.timescale == "1 ns", f"timescale {dump.timescale}")
    told = [NOT_WRITTEN] * len(dump.signals)
    for step, values in enumerate(seen):
        changes = differing(told, values)
        need(dump.changes.pop(step, {}) == changes, f"at step {step}: the reference changes {changes}")
        told = values
    need(dump.changes == {len(seen): {}} and dump.end == len(seen), f"the dump ends at {dump.end}, the run behind step {len(seen) - 1}")


def sources_of(folder):
    """Names, sources and schedules of the rows that are compiled and run, and of the programs with as many tasks and objects as there may be."""
    for table in TABLES:
        with open(os.path.join(folder, f"{table}.txt"), encoding="utf-8") as file:
            for row in rows.rows_of(table, file.read().split("\n")):
                if rows.expected_of(row)[2] not in REFUSED:
                    yield row["name"], rows.framed(row["frame"], row), rows.bytes_of("".join(row.get("schedule", [])))
    for name, (text, *_) in full_programs.PROGRAMS:
        yield name, text.encode(), b""


class Checker:
    """Dumps the runs of sources with the program, and compares them with the reference's runs of their images."""

    def __init__(self, program, folder):
        self.program, self.folder = os.path.abspath(program), folder
        self.ticks, self.converted, self.wrong = 0, 0, []
        os.makedirs(folder, exist_ok=True)

    def call(self, *words):
        return called(words, self.folder)

    def path(self, name):
        return os.path.join(self.folder, name)

    def check(self, name, source, schedule, limit, until=None):
        """The dumps of a source over steps and over virtual time, which are returned."""
        for file, content in (("main.adb", source), ("input", schedule)):
            with open(self.path(file), "wb") as written:
                written.write(content)
        world = world_of(self.program, self.folder, source, schedule, kind=partial(Watched, declared_words.scopes_of(source)))
        world.run(limit, until)
        return self.check_run(name, world, limit, until)

    def check_run(self, name, world, limit, until=None):
        """The dumps of the source that was written, beside a world that has run so far."""
        seen, instants, last = world.watched(until)
        timed = [] if until is None else ["--until", str(until)]
        texts = []
        for options, by, values in (((), compare, seen), (("--time",), compare_times, instants)):
            run = self.call(self.program, "trace", "--vcd", *options, "main.adb", "input", str(limit), *timed)
            texts.append(run.stdout)
            try:
                dump = Dump(run.stdout.decode("ascii"))
                self.ticks += len(dump.changes)
                declared(dump, world)
                by(dump, values)
                need(dump.comments == [last], f"comments {dump.comments}")
                need((run.stderr, run.returncode) == (b"", STATUSES[last.split()[0]]), f"status {run.returncode}, {run.stderr!r}")
            except (Wrong, ValueError) as wrong:
                self.wrong.append(f"{name} {' '.join(options)}: {wrong}")
        return texts

    def convert(self, name, text):
        """The dump as GTKWave's tools read and write it again has the same signals and the same changes."""
        with open(self.path("run.vcd"), "wb") as written:
            written.write(text)
        self.call("vcd2fst", "run.vcd", "run.fst")
        rewritten = self.call("fst2vcd", "run.fst").stdout.decode("ascii")
        values = rewritten.partition("$dumpvars")[2]
        # fst2vcd leaves out the end of the first values where no others follow
        again = Dump(rewritten if "$end" in values else rewritten + "$end\n")
        first = Dump(text.decode("ascii"))
        self.converted += 1
        if (again.signals, again.changes, again.end) != (first.signals, first.changes, first.end):
            self.wrong.append(f"{name}: vcd2fst and fst2vcd make another dump of it")


def main():
    program, folder, examples, scratch = sys.argv[1:]
    checker, sources = Checker(program, scratch), 0
    installed = shutil.which("vcd2fst") and shutil.which("fst2vcd")
    for name, source, schedule in sources_of(folder):
        checker.check(name, source, schedule, STEPS)
        checker.check(name, source, schedule, STEPS, UNTIL)
        sources += 1
    for name, source, schedule, _ in examples_of(examples):
        texts = checker.check(name, source, schedule, ALL_STEPS)
        checker.check(name, source, schedule, ALL_STEPS, UNTIL)
        if installed:
            for text in texts:
                checker.convert(name, text)
        sources += 1
    for told in checker.wrong:
        print(f"waves: {told}", file=sys.stderr)
    by_others = f"{checker.converted} of them read by GTKWave too" if installed else "GTKWave is not installed"
    print(f"waves: {sources} sources, {checker.ticks} ticks with changes, {by_others}, {len(checker.wrong)} wrong")
    sys.exit(1 if checker.wrong or not checker.ticks else 0)


if __name__ == "__main__":
    main()
