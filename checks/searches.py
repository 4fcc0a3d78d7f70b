#!/usr/bin/env python3
"""Searches 40 programs through sets of schedules, with a fixed seed, and compares each answer with the runs of the set's schedules by `go`, one after the other
in the order of the alternatives; of each second set also the answers of its parts. And gives texts of sets with each fault, beside the rules as docs/FORMATS.md
states them ("Sets of schedules"), read here anew.

    searches.py PROGRAM EXAMPLES SCRATCH COUNT [MOST]

COUNT sets are made for each program, of at most 64 schedules each, and with MOST one more of at most so many (5000 for a night: some 100,000 runs). The programs
are 16 of EXAMPLES and 24 that are made here, of four kinds: a task that counts, a handler and an entry, a ring between two tasks, and waiting times that are read.
"""
import itertools
import math
import os
import random
import re
import sys
from collections import Counter
from concurrent.futures import ThreadPoolExecutor

from calling import called

MOST_SCHEDULES = 64
ENOUGH = 400_000
SECONDS = 60
LAST_TIME, LEAST, GREATEST, CHANNELS, SLOTS, ALTERNATIVES = 2**63 - 1, -(2**63), 2**63 - 1, 8, 4096, 4096
NUMBER = "(?:0|[1-9][0-9]*)"
VALUE = f"(?:{NUMBER}|-[1-9][0-9]*)"
TIMES = re.compile(rf"({NUMBER})(?:\.\.({NUMBER})/({NUMBER}))?")
RANGE = re.compile(rf"({VALUE})(?:\.\.({VALUE}))?")
LINE = re.compile(rf"([0-9./]+) ({NUMBER}) (.*)")
UNHANDLED, WAITS, TOO_LONG, REFUSED, LINE_FOUND = 3, 4, 5, 7, 9

# The channels that a program reads or has handlers for, values that it may meet there, the time between two inputs, and labels that it writes.
PROGRAMS = {
    "tank.adb": ({1: [0, 20, 50, 90, 100]}, 10_000, ["level", "alarm", "none"]),
    "gauge.adb": ({1: [0, 5, 90, 250]}, 10_000, ["above", "high", "most"]),
    "sampler.adb": ({1: [0, 1, 9, 100]}, 5_000, ["alarm", "last", "value"]),
    "controller.adb": ({1: [-10, 0, 80, 101], 2: [0, 1, 60]}, 10_000, ["valve", "lowest", "none"]),
    "mine_pump.adb": ({1: [0, 1, 3], 2: [0, 1, 80, 95]}, 20_000, ["pump", "gas", "on"]),
    "serial_line.adb": ({3: [0, 10, 65, 255]}, 1_000, ["bytes", "sum", "lost"]),
    "watchdog.adb": ({1: [0, 1, 5_000, 60_000]}, 10_000, ["bites", "starts_again", "done"]),
    "on_call_producer.adb": ({1: [0, 1]}, 100_000, ["refused", "on_call", "last_is_late"]),
}
SEARCHED = {
    "two_sensors": ({1: [50, 100], 2: [50, 100]}, 10_000, ["strike"]),
    "second_caller": ({1: [0, 7]}, 10_000, ["order", "spare"]),
    "long_run": ({1: [50, 90]}, 10_000, ["none"]),
    "lost_wake_up": ({1: [0, 1]}, 14_000, ["none", "packed"]),
}
PROGRAMS |= {f"search/{name}{end}.adb": rest for name, rest in SEARCHED.items() for end in ("", "_mended")}
# Programs that are made: what tasks and protected objects they declare, and the bodies of these.
PACKAGE = """pragma Profile (Ravenscar);
with Ada.Real_Time; use Ada.Real_Time;
with Control_IO; use Control_IO;
package App is
DECLARED
end App;
package body App is
BODIES
end App;
with App;
procedure Main is begin null; end Main;
"""
COUNTING = (
    """   subtype Small is Integer range 0 .. LEAST;
   Count : Small := 0;
   task Watch with Priority => 10;""",
    """   procedure Look (Level : Integer) is
   begin
      if Level > LIMIT then
         Count := Count + 1;
         Put ("high", Level);
      elsif Count > 0 then
         Count := Count - 1;
      end if;
   end Look;
   task body Watch is
      Next : Time := Clock;
   begin
      for Turn in 1 .. TURNS loop
         Look (Read (1));
         Next := Next + Milliseconds (PERIOD);
         delay until Next;
      end loop;
      Put ("done", Count);
   end Watch;""",
)
HANDLING = (
    """   protected Bell is
      procedure Ring with Attach_Handler => 1;
      entry Wait (Level : out Integer);
   private
      Last : Integer := 0;
      Due  : Boolean := False;
   end Bell;
   task Listener with Priority => 10;
   task Other with Priority => 5;""",
    """   protected body Bell is
      procedure Ring is
      begin
         Last := Read (1);
         Due := Last > LIMIT;
      end Ring;
      entry Wait (Level : out Integer) when Due is
      begin
         Level := Last;
         Due := False;
      end Wait;
   end Bell;
   task body Listener is
      Level : Integer;
   begin
      for Turn in 1 .. LEAST loop
         Bell.Wait (Level);
         Put ("high", Level);
         delay until Clock + Milliseconds (PERIOD);
      end loop;
   end Listener;
   task body Other is
      Level : Integer;
   begin
      delay until Clock + Milliseconds (TURNS * PERIOD);
      Bell.Wait (Level);
      Put ("done", Level);
   end Other;""",
)
RING = (
    """   type Row is array (0 .. LEAST) of Integer;
   protected Ring with Priority => 12 is
      procedure Add (Value : Integer);
      entry Take (Value : out Integer);
   private
      Values : Row;
      Count  : Integer := 0;
      Is_Any : Boolean := False;
   end Ring;
   task Giver with Priority => 10;
   task Taker with Priority => 5;""",
    """   protected body Ring is
      procedure Add (Value : Integer) is
      begin
         Values (Count) := Value;
         Count := Count + 1;
         Is_Any := True;
      end Add;
      entry Take (Value : out Integer) when Is_Any is
      begin
         Count := Count - 1;
         Value := Values (Count);
         Values (Count) := 0;
         Is_Any := Count > 0;
      end Take;
   end Ring;
   task body Giver is
      Next : Time := Clock;
   begin
      for Turn in 1 .. TURNS loop
         if Read (1) > LIMIT then
            Ring.Add (Turn mod 3);
            Ring.Add (1);
         end if;
         Next := Next + Milliseconds (PERIOD);
         delay until Next;
      end loop;
   end Giver;
   task body Taker is
      Value : Integer;
   begin
      loop
         Ring.Take (Value);
         if Value > 1 then
            Put ("high", Value);
         end if;
         delay until Clock + Milliseconds (PERIOD + 3);
      end loop;
   end Taker;""",
)
WAITING = (
    """   protected Place with Priority => 12 is
      procedure Enter (Is_Free : out Boolean);
      procedure Leave;
   private
      Taken : Boolean := False;
   end Place;
   task One with Priority => 10;
   task Two with Priority => 8;""",
    """   protected body Place is
      procedure Enter (Is_Free : out Boolean) is
      begin
         Is_Free := not Taken;
         Taken := True;
      end Enter;
      procedure Leave is
      begin
         Taken := False;
      end Leave;
   end Place;
   procedure Pass (Wait : Integer) is
      Is_Free : Boolean;
   begin
      Place.Enter (Is_Free);
      if not Is_Free then
         Put ("high", Wait);
      end if;
      delay until Clock + Milliseconds (LEAST);
      Place.Leave;
   end Pass;
   task body One is
   begin
      for Turn in 1 .. TURNS loop
         delay until Clock + Milliseconds (Read (1) mod 40);
         Pass (1);
      end loop;
   end One;
   task body Two is
      Next : Time := Clock;
   begin
      for Turn in 1 .. TURNS loop
         Next := Next + Milliseconds (PERIOD);
         delay until Next;
         Pass (2);
         if Read (1) > 2 * LIMIT then
            raise Program_Error;
         end if;
      end loop;
      Put ("done", TURNS);
   end Two;""",
)
KINDS = (COUNTING, HANDLING, RING, WAITING)
MADE = 24
# A loop that never waits, and programs whose lines and exceptions depend on what is read at time 0.
SMALL = {
    "loop": ("", "procedure Run is X : Integer := 0; begin while X >= 0 loop X := X mod 7; end loop; end Run;"),
    "sum": ("", 'procedure Run is X : Integer := Read (1); Y : Integer := Read (2); begin Put ("sum", X + Y); if X + Y = 7 then Put ("seven", X); end if; end Run;'),
    "index": ("type Row is array (1 .. 3) of Integer; R : Row;", 'procedure Run is begin R (Read (1)) := 1; Put ("in", R (2)); end Run;'),
}
# A program that never ends, and a set of which no computer could run each schedule: each world is met again and again.
CYCLE = """pragma Profile (Ravenscar);
with Ada.Real_Time; use Ada.Real_Time;
with Control_IO; use Control_IO;
package App is
   Level : Integer := 0;
   task Watch;
end App;
package body App is
   task body Watch is
      Next : Time := Clock;
   begin
      loop
         Level := Read (1);
         if Level > 80 then
            Put ("alarm", Level);
         end if;
         Next := Next + Milliseconds (10);
         delay until Next;
      end loop;
   end Watch;
end App;
with App;
procedure Main is begin null; end Main;
"""
CYCLE_SETS = [("0..380000/10000 1 20|50\n", 385_000, [], 0, f"none of {2**39} schedules, WORLDS worlds\n"),
    ("0..380000/10000 1 20|50\n390000 1 20|90\n", 395_000, ["line", "alarm"], LINE_FOUND, "found: 390000 WATCH alarm 90\n")]
FRAME = """pragma Profile (Ravenscar);
with Control_IO; use Control_IO;
package App is
   SPEC
   procedure Run;
end App;
package body App is
   BODY
end App;
with App;
procedure Main is begin App.Run; end Main;
"""


class Refused(Exception):
    """A fault of a set of schedules, with its number and its line."""


class StepLimit(Exception):
    """A run has taken all its steps before the end of the search."""


def alternatives_of(text):
    """The alternatives of a line as ranges: None for no line, or the first and the last value."""
    ranges = []
    for part in text.split("|"):
        found = RANGE.fullmatch(part)
        if part == "-":
            ranges.append(None)
        elif not found:
            return None
        else:
            first = int(found[1])
            last = int(found[2] or found[1])
            if not LEAST <= first <= last <= GREATEST:
                return None
            ranges.append((first, last))
    return ranges


def times_of(text):
    found = TIMES.fullmatch(text)
    if not found:
        return None
    first = int(found[1])
    last, step = (int(found[2]), int(found[3])) if found[2] else (first, 1)
    if max(first, last, step) > LAST_TIME or last < first or step < 1:
        return None
    return range(first, last + 1, step)


def slots_of(text, until):
    """The slots of a set, in the order of their times: time, channel, alternatives."""
    slots = []
    lines = text.split("\n")
    for number, line in enumerate(lines, 1):
        if number == len(lines) and not line:
            break
        found = LINE.fullmatch(line) if number < len(lines) else None
        times = found and times_of(found[1])
        ranges = found and alternatives_of(found[3])
        if not found or not times or not ranges:
            raise Refused(80, number)
        if not 1 <= int(found[2]) <= CHANNELS:
            raise Refused(82, number)
        if sum(1 if r is None else r[1] - r[0] + 1 for r in ranges) > ALTERNATIVES:
            raise Refused(84, number)
        values = [v for r in ranges for v in ([None] if r is None else range(r[0], r[1] + 1))]
        if len(set(values)) < len(values):
            raise Refused(85, number)
        if len(slots) + (times[-1] - times[0]) // times.step + 1 > SLOTS:
            raise Refused(83, number)
        if times[-1] > until:
            raise Refused(86, number)
        slots += [(time, int(found[2]), values) for time in times]
    return sorted(slots, key=lambda slot: slot[0])


def schedules_of(slots):
    for choice in itertools.product(*(values for _, _, values in slots)):
        yield "".join(f"{time} {channel} {value}\n" for (time, channel, _), value in zip(slots, choice) if value is not None)


def call(program, *words):
    done = called([program, *words], seconds=SECONDS)
    return done.returncode, done.stdout.decode("latin-1"), done.stderr.decode("latin-1")


def shown(run, until, wanted):
    """What a run shows that is wanted, with the status of a search that finds it; None where it shows nothing."""
    *lines, last = run.splitlines()
    ending, time = re.fullmatch(r"(.*) at (\d+)", last).groups()
    kind = "unhandled" if ending.startswith("unhandled ") else "waits" if ending == "waits forever" else ending
    if kind == "step limit" and int(time) <= until:
        raise StepLimit
    if wanted[:1] == ["line"]:
        for line in lines:
            if line.split()[2] == wanted[1] and int(line.split()[0]) <= until:
                return LINE_FOUND, line
        return None
    if int(time) <= until and kind in (wanted or ["unhandled", "waits"]):
        return {"unhandled": UNHANDLED, "waits": WAITS}[kind], last
    return None


def made_program(rng, kind):
    """A program of this kind with numbers chosen freely, and what its sets are made of."""
    period = rng.choice([4, 5, 10])
    numbers = {"LEAST": rng.randint(1, 4), "LIMIT": rng.choice([3, 10]), "TURNS": rng.randint(3, 9), "PERIOD": period}
    text = PACKAGE.replace("DECLARED", kind[0]).replace("BODIES", kind[1])
    for word, number in numbers.items():
        text = re.sub(rf"\b{word}\b", str(number), text)
    return text, ({1: [0, 2, 7, 15, 30]}, period * 1000, ["high", "done"])


def parts_agree(program, case, file, count, status, told):
    """Whether the answers of the parts of a set are together that of the set."""
    source, _, until, wanted = case
    answers = [call(program, "search", source, file, str(until), str(ENOUGH), *wanted, "--part", f"{k}/{count}") for k in range(1, count + 1)]
    if status == 0:
        numbers = [re.fullmatch(r"none of (\d+) schedules, \d+ worlds\n", out) for _, out, _ in answers]
        return all(numbers) and sum(int(number[1]) for number in numbers) == int(re.search(r"\d+", told)[0])
    return any(is_answer(answered, status, told) for answered in answers)


def most_worlds(slots):
    """How many worlds all runs come to at most just before the times of the slots: one for each choice of the slots before."""
    times = [time for time, _, _ in slots]
    return sum(math.prod(len(values) for _, _, values in slots[: times.index(time)]) for time in set(times))


def is_answer(got, status, told):
    """Whether a search has answered so, where WORLDS is any number: how many worlds it has kept follows from no run."""
    return got[0] == status and not got[2] and re.fullmatch(re.escape(told).replace("WORLDS", "[0-9]+"), got[1]) is not None


def by_go(program, source, file, steps=ENOUGH):
    """How the run on a schedule is taken: by `go`, from this file."""

    def run_of(schedule):
        with open(file, "w", encoding="ascii") as out:
            out.write(schedule)
        status, run, told = call(program, "go", source, file, str(steps))
        assert status in (0, UNHANDLED, WAITS, TOO_LONG), (status, told)
        return run

    return run_of


def answer(run_of, text, until, wanted):
    """What a search answers, by the runs of all schedules."""
    schedules = list(schedules_of(slots_of(text, until)))
    for schedule in schedules:
        found = shown(run_of(schedule), until, wanted)
        if found:
            return found[0], f"{schedule}found: {found[1]}\n"
    return 0, f"none of {len(schedules)} schedules, WORLDS worlds\n"


def random_set(rng, channels, step, most=MOST_SCHEDULES):
    """A text of a set of at most so many schedules, with its end."""
    lines, count = [], 1
    for _ in range(rng.randint(1, 4) if most == MOST_SCHEDULES else 12):
        channel = rng.choice(sorted(channels))
        first = rng.randint(0, 6) * step
        times = str(first)
        slots = 1
        if rng.random() < 0.4:
            slots = rng.randint(1, 3)
            times = f"{first}..{first + slots * step - 1}/{step}"
        values = rng.sample([*channels[channel], None], rng.randint(1, min(4, len(channels[channel]) + 1)))
        parts = ["-" if value is None else str(value) for value in values]
        size = len(values)
        if rng.random() < 0.2:
            low = max((value for value in values if value is not None), default=0) + 2
            parts.append(f"{low}..{low + 1}")
            size += 2
        if count * size**slots <= most:
            count *= size**slots
            lines.append(f"{times} {channel} {'|'.join(parts)}\n")
    until = max([0, *(times_of(line.split()[0])[-1] for line in lines)]) + rng.choice([0, 1, step // 2, 2 * step])
    return "".join(lines), until


FAULTY = [
    ("", None), ("0 1 5\n", None), ("0 1 -\n", None), ("0..10/3 8 -5|-|0..2\n", None), ("10 1 -3..-1\n", None), ("0 1 -9223372036854775808\n", None),
    ("0 1 5", 80), ("0 1 5\n\n", 80), ("0 1 05\n", 80), ("00 1 5\n", 80), ("0 1 -0\n", 80), ("0 1 5|\n", 80), ("0 1 |5\n", 80), ("0 1 \n", 80), ("0  1 5\n", 80),
    ("0 1 5 \n", 80), ("0 1 5|6|\n", 80), ("0 1 5..4\n", 80), ("0 1 5..\n", 80), ("0 1 ..5\n", 80), ("0 1 5...6\n", 80), ("0..10 1 5\n", 80), ("0..10/0 1 5\n", 80),
    ("10..0/1 1 5\n", 80), ("0..10/ 1 5\n", 80), ("0/1 1 5\n", 80), ("9223372036854775808 1 5\n", 80), ("0..9223372036854775808/1 1 5\n", 80),
    ("0..1/9223372036854775808 1 5\n", 80), ("0 1 9223372036854775808\n", 80), ("0 1 -9223372036854775809\n", 80), ("0 1 5\r\n", 80), ("0 1 --5\n", 80), ("0 1 5|--\n", 80),
    ("0 0 5\n", 82), ("0 9 5\n", 82), ("0 18446744073709551617 5\n", 82), ("0 9 0..5000\n", 82), ("0 1 0..4095\n", None), ("0 1 0..4096\n", 84),
    ("0 1 0..4095|-\n", 84), ("0 1 -9223372036854775808..9223372036854775807\n", 84), ("0 1 5|5\n", 85), ("0 1 0..3|3..5\n", 85), ("0 1 -|-\n", 85), ("0 1 3|0..2|4\n", None),
    ("0..4095/1 1 5\n", None), ("0..4096/1 1 5\n", 83), ("0..4094/1 1 5\n0 2 5\n0 2 6\n", 83), ("0..9223372036854775807/1 1 5\n", 83), ("5001 1 5\n", 86), ("5000 1 5\n", None),
    ("0..5002/2 1 5\n", 86), ("0..5001/2 1 5\n", None), ("4000 1 5\n1000 2 6|7\n", None), ("9 1 5\n5 9 5\n0 1 5|5\n", 82),
]


def main():
    program, examples, scratch, count, *most = sys.argv[1:]
    rng = random.Random(71)
    cases = []
    programs = {os.path.join(examples, name): rest for name, rest in PROGRAMS.items()}
    for number in range(MADE):
        text, rest = made_program(rng, KINDS[number % len(KINDS)])
        name = os.path.join(scratch, f"made{number}.adb")
        with open(name, "w", encoding="ascii") as file:
            file.write(text)
        programs[name] = rest
    for name, (channels, step, labels) in programs.items():
        for greatest in [MOST_SCHEDULES] * int(count) + [int(number) for number in most]:
            text, until = random_set(rng, channels, step, greatest)
            cases.append((name, text, until, rng.choice([[], ["unhandled"], ["waits"], *[["line", label] for label in labels]])))
    sources = {}
    for name, (spec, body) in SMALL.items():
        sources[name] = os.path.join(scratch, f"{name}.adb")
        with open(sources[name], "w", encoding="ascii") as file:
            file.write(FRAME.replace("SPEC", spec).replace("BODY", body))
    for wanted in ([], ["unhandled"], ["waits"], ["line", "seven"], ["line", "sum"]):
        cases.append((sources["sum"], "0 2 0..3\n0 1 4|-|7\n", 0, wanted))
        cases.append((sources["index"], "0 1 1..3|0|4\n", 100, wanted))
        cases.append((sources["index"], "0 1 1..3\n0 2 -|1\n", 100, wanted))
    failures, answers = [], Counter()

    def compare(number, case):
        source, text, until, wanted = case
        file = os.path.join(scratch, f"{number}.choices")
        with open(file, "w", encoding="ascii") as out:
            out.write(text)
        status, told = answer(by_go(program, source, os.path.join(scratch, f"{number}.schedule")), text, until, wanted)
        got = call(program, "search", source, file, str(until), str(ENOUGH), *wanted)
        answers[status] += 1
        if not is_answer(got, status, told):
            failures.append(f"{source} up to {until} {' '.join(wanted)}\n{text}gave {got}, and not {(status, told, '')}")
        elif status == 0 and int(re.findall(r"\d+", got[1])[1]) > most_worlds(slots_of(text, until)):
            failures.append(f"{source} up to {until} {' '.join(wanted)}\n{text}gave {got}, which are more worlds than its runs can come to")
        elif number % 2 and not parts_agree(program, case, file, 2 + number % 5, status, told):
            failures.append(f"{source} up to {until} {' '.join(wanted)}\n{text}its parts don't answer as the whole set: {told}")

    with ThreadPoolExecutor(os.cpu_count()) as pool:
        list(pool.map(lambda numbered: compare(*numbered), enumerate(cases)))
    refused = 0
    file = os.path.join(scratch, "faulty.choices")
    for text, fault in FAULTY:
        try:
            slots_of(text, 5000)
            known = None
        except Refused as raised:
            known = raised.args
        assert (known and known[0]) == fault, (text, known)
        with open(file, "w", encoding="ascii") as out:
            out.write(text)
        status, out, told = call(program, "search", sources["loop"], file, "5000", "10", "line", "none")
        if fault:
            refused += 1
            if (status, out, told) != (REFUSED, "", f"choices fault {known[0]} at line {known[1]}\n"):
                failures.append(f"{text!r}: {status} {told}, and not {known}")
        elif status != TOO_LONG or not out.endswith("found: more than 10 steps at 0\n") or told:
            failures.append(f"{text!r}: {status} {out} {told}, though it is a set")
    sources["cycle"] = os.path.join(scratch, "cycle.adb")
    with open(sources["cycle"], "w", encoding="ascii") as out:
        out.write(CYCLE)
    for text, until, wanted, status, last in CYCLE_SETS:
        with open(file, "w", encoding="ascii") as out:
            out.write(text)
        got = call(program, "search", sources["cycle"], file, str(until), str(ENOUGH), *wanted)
        if not is_answer((got[0], got[1][-len(last) :] if status else got[1], got[2]), status, last):
            failures.append(f"the cycle under {text!r}: {got}, and not {status} {last!r}")
    for failure in failures[:20]:
        print(f"searches: {failure}", file=sys.stderr)
    kinds = ", ".join(f"{answers[status]} with status {status}" for status in sorted(answers))
    print(f"searches: {len(cases)} sets of {len(programs)} programs and {len(CYCLE_SETS)} large ones ({kinds}), {refused} of {len(FAULTY)} texts refused: {len(failures)} failures")
    return 1 if failures else 0


if __name__ == "__main__":
    sys.exit(main())
