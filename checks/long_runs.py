#!/usr/bin/env python3
"""Runs a program of 16 tasks and 4 protected objects for many steps: its lines are those reckoned from its periods, and it needs no more memory than a thousand steps.

    long_runs.py PROGRAM SCRATCH STEPS

Eleven tasks add to the four objects, each in its period, four wait at the objects' entries and count, and one of the least priority writes all sums and counts every
ten seconds of virtual time: all that is due at a time is done before it. The least room of addresses with which a thousand steps run is enough for all steps, but for
64 KiB, by which two runs of one program may differ; and from a tenth of the run on its memory (VmHWM) doesn't grow.
"""
import os
import re
import resource
import subprocess
import sys
import time

PERIODS = [1, 1, 2, 2, 3, 4, 5, 6, 8, 10, 12]
OBJECTS = 4
TELLING = 10_000  # milliseconds between two tellings
FEW = 1_000
PAGE, MORE = 4_096, 64 << 10
LOOKING = 0.05  # seconds between two looks at the memory
STATUS_OF_LIMIT = 5
LIMIT_LINE = re.compile(r"step limit at (\d+)\n")


# The declarations and bodies of an object with the task that waits at its entry, of a task that adds, and of the one that tells.
OBJECT = """
protected O# with Priority => 20 is
   procedure Add (X : Integer); function Total return Integer; entry Take (X : out Integer);
private Sum : Integer := 0; Full : Boolean := False; end O#;
Seen# : Integer := 0;
task Takes# with Priority => PRIORITY;
""", """
protected body O# is
   procedure Add (X : Integer) is begin Sum := Sum + X; Full := True; end Add;
   function Total return Integer is begin return Sum; end Total;
   entry Take (X : out Integer) when Full is begin X := Sum; Full := False; end Take;
end O#;
task body Takes# is N : Integer := 0; begin loop O#.Take (N); Seen# := Seen# + 1; end loop; end Takes#;
"""
ADDS = """
task Adds# with Priority => PRIORITY;
""", """
task body Adds# is Next : Time := Clock;
begin loop O@.Add (#); Next := Next + Milliseconds (PERIOD); delay until Next; end loop; end Adds#;
"""
TELLS = """
task Tells with Priority => 1;
""", """
task body Tells is Next : Time := Clock;
begin loop TEXT Next := Next + Milliseconds (PERIOD); delay until Next; end loop; end Tells;
"""
PROGRAM = """pragma Profile (Ravenscar);
with Ada.Real_Time; use Ada.Real_Time;
with Control_IO; use Control_IO;
package App is
procedure Run;SPEC
end App;
package body App isBODY
procedure Run is begin null; end Run;
end App;
with App;
procedure Main is begin App.Run; end Main;
"""


def filled(texts, **words):
    """Both texts with these words in the place of their names; # is NUMBER, and @ is OBJECT."""
    for name, word in words.items():
        texts = [text.replace({"NUMBER": "#", "OBJECT": "@"}.get(name, name), str(word)) for text in texts]
    return texts


def source():
    """The text of the program: the task of number n adds n to the object of number n modulo 4. Those that wait have the highest priorities, the one that tells the lowest."""
    parts = [filled(OBJECT, NUMBER=number, PRIORITY=16 + number) for number in range(OBJECTS)]
    parts += [filled(ADDS, NUMBER=number, OBJECT=number % OBJECTS, PRIORITY=2 + number, PERIOD=period) for number, period in enumerate(PERIODS)]
    tells = " ".join(f'Put ("sum{number}", O{number}.Total); Put ("seen{number}", Seen{number});' for number in range(OBJECTS))
    parts.append(filled(TELLS, TEXT=tells, PERIOD=TELLING))
    spec, body = ("".join(texts).rstrip("\n") for texts in zip(*parts))
    return PROGRAM.replace("SPEC", spec).replace("BODY", body)


def lines_at(milliseconds):
    """What the last task writes at a time."""
    for o in range(OBJECTS):
        counts = {number: milliseconds // period + 1 for number, period in enumerate(PERIODS) if number % OBJECTS == o}
        yield f"{milliseconds * 1000} TELLS sum{o} {sum(number * count for number, count in counts.items())}\n"
        yield f"{milliseconds * 1000} TELLS seen{o} {sum(counts.values())}\n"


def expected(end):
    """All lines of a run that its limit cut at this time, and those among them that it may not have come to."""
    *whole, last = range(0, end // 1000 + 1, TELLING)
    certain = [line for at in whole for line in lines_at(at)]
    return (certain, list(lines_at(last))) if last * 1000 == end else (certain + list(lines_at(last)), [])


def run(program, path, steps, room=None):
    """What a run leaves: its text, its errors, its status, and the most memory that it had had at each look at it, in KiB."""

    def confined():
        if room:
            resource.setrlimit(resource.RLIMIT_AS, (room, room))

    seen = []
    with open(path + ".out", "w+", encoding="ascii") as out:
        child = subprocess.Popen([program, "go", path, os.devnull, str(steps)], stdout=out, stderr=subprocess.PIPE, preexec_fn=confined, text=True)
        while child.poll() is None:
            try:
                with open(f"/proc/{child.pid}/status", encoding="ascii") as status:
                    seen += [int(line.split()[1]) for line in status if line.startswith("VmHWM")]
            except OSError:
                pass
            time.sleep(LOOKING)
        out.seek(0)
        return out.read(), child.stderr.read(), child.returncode, seen


def least_room(program, path):
    """The least room of addresses with which a few steps run, in bytes, found by halving."""
    least, most = 0, 1 << 16
    while least + 1 < most:
        half = (least + most) // 2
        if run(program, path, FEW, half * PAGE)[2] == STATUS_OF_LIMIT:
            most = half
        else:
            least = half
    return most * PAGE


def main():
    program, scratch, steps = os.path.abspath(sys.argv[1]), sys.argv[2], int(sys.argv[3])
    os.makedirs(scratch, exist_ok=True)
    path = os.path.join(scratch, "long.adb")
    with open(path, "w", encoding="ascii") as file:
        file.write(source())
    room = least_room(program, path)
    begun = time.monotonic()
    text, errors, status, seen = run(program, path, steps, room + MORE)
    took = time.monotonic() - begun
    end = LIMIT_LINE.search(text)
    if status != STATUS_OF_LIMIT or errors or not end or not seen:
        print(f"long_runs: status {status}, {text[-200:]!r}, {errors!r}", file=sys.stderr)
        return 1
    certain, maybe = expected(int(end[1]))
    written = text.splitlines(keepends=True)[:-1]
    is_right = certain == written[: len(certain)] and written[len(certain) :] == maybe[: len(written) - len(certain)]
    grown = seen[-1] - seen[len(seen) // 10]
    if not is_right or grown > 0 or len(certain) < 8:
        print(f"long_runs: {len(written)} lines, right: {is_right}, the last {written[-1:]!r}; {grown} KiB more than at a tenth", file=sys.stderr)
        return 1
    speed, needs = f"{steps / took / 1e6:.0f} million steps a second", f"{(room + MORE) // 1024} KiB of addresses, where {FEW} steps need {room // 1024}"
    print(f"long_runs: {steps} steps, {len(written)} lines as reckoned up to {end[1]} microseconds, {speed}, in {needs}; at most {seen[-1]} KiB in memory")
    return 0


if __name__ == "__main__":
    sys.exit(main())
