#!/usr/bin/env python3
"""Gives the program schedules, with a fixed seed, of lines that keep each rule at its edge or break it there, and compares what it tells with the rules as
docs/FORMATS.md states them ("Schedule"), read here anew.

    schedules.py PROGRAM SOURCE SCRATCH COUNT

The source doesn't wait: under each schedule that is one its run is the same.
"""
import os
import random
import re
import subprocess
import sys
from collections import Counter
from concurrent.futures import ThreadPoolExecutor

NUMBER = rb"0|[1-9][0-9]*"
LINE = re.compile(rb"(%s) (%s) (-?(?:%s))" % (NUMBER, NUMBER, NUMBER))
LAST_TIME, LEAST, GREATEST, CHANNELS, LINES = 2**63 - 1, -(2**63), 2**63 - 1, 8, 4096
NO_LINE, BACK, CHANNEL, MANY = 50, 51, 52, 53
REFUSED, SECONDS = 7, 20


def fault_of(text):
    """The first faulty line and the first rule that it breaks, or None."""
    last, rest, number = 0, text, 0
    while rest:
        number += 1
        if number > LINES:
            return MANY, number
        line, end, rest = rest.partition(b"\n")
        found = LINE.fullmatch(line) if end else None
        if not found or found[3] == b"-0":
            return NO_LINE, number
        time, channel, value = (int(part) for part in found.groups())
        if time > LAST_TIME or not LEAST <= value <= GREATEST:
            return NO_LINE, number
        if not 1 <= channel <= CHANNELS:
            return CHANNEL, number
        if time < last:
            return BACK, number
        last = time
    return None


# What a taken schedule has at the edge of a rule, and what the faulty line of a refused one has just past it.
KEPT = {
    "the last time": rb"^9223372036854775807 ",
    "the least value": rb" -9223372036854775808$",
    "the greatest value": rb" 9223372036854775807$",
    "the first channel": rb"^\d+ 1 ",
    "the last channel": rb"^\d+ 8 ",
    "a value of 0": rb" 0$",
    "two lines of one time": rb"^(\d+) .*\n\1 ",
    "as many lines as there may be": rb"\A(.*\n){%d}\Z" % LINES,
}
BROKEN = {
    "a time past the last one": (NO_LINE, rb"9223372036854775808 .*"),
    "a value below the least": (NO_LINE, rb".* -9223372036854775809"),
    "a value above the greatest": (NO_LINE, rb".* 9223372036854775808"),
    "a leading zero": (NO_LINE, rb"0\d+ .*|.* -?0\d+ ?.*"),
    "a minus in front of 0": (NO_LINE, rb".* -0"),
    "no line feed": (NO_LINE, None),
    "two spaces": (NO_LINE, rb".*  .*"),
    "a carriage return": (NO_LINE, rb".*\r"),
    "no characters": (NO_LINE, rb""),
    "the channel 0": (CHANNEL, rb"\d+ 0 .*"),
    "the channel 9": (CHANNEL, rb"\d+ 9 .*"),
    "the time 0 behind another one": (BACK, rb"0 .*"),
    "another time that goes back": (BACK, rb"[1-9]\d* .*"),
    "a line more than there may be": (MANY, rb".*"),
}


def sides_of(text, fault):
    """At which edges of rules a schedule stands."""
    if not fault:
        return [name for name, form in KEPT.items() if re.search(form, text, re.MULTILINE)]
    rule, number = fault
    lines = text.split(b"\n")
    is_open = number == len(lines)
    return [
        name for name, (broken, form) in BROKEN.items()
        if broken == rule and (is_open if form is None else not is_open and re.fullmatch(form, lines[number - 1]))
    ]  # fmt: skip


def part(chance, usual, edges):
    return chance.choice(edges) if chance.random() < 0.12 else str(usual).encode()


def line(chance, time):
    """A line at about this time, with a part at the edge of a rule now and then."""
    times = [b"%d" % (time - 1), b"0", b"00", b"01", b"9223372036854775807", b"9223372036854775808", b"-1", b"", b"1 ", b"1e3", b"+1", b"\xd9\xa1"]
    channels = [b"0", b"1", b"8", b"9", b"01", b"-1", b"", b"18446744073709551617", b"a"]
    values = [b"0", b"-0", b"00", b"-9223372036854775808", b"-9223372036854775809", b"9223372036854775807", b"9223372036854775808", b"", b"--1", b"1\r", b"1 1", b" 1"]
    ends = [b"", b"\r\n", b" \n", b"\n\n", b"\t\n", b"\x00\n"]
    between = [chance.choice([b"", b"  ", b"\t", b"_", b"\xa0"]) if chance.random() < 0.01 else b" " for _ in range(2)]
    written = part(chance, max(time, 0), times) + between[0] + part(chance, chance.randint(1, 8), channels)
    written += between[1] + part(chance, chance.randint(-99, 99), values)
    before = chance.choice([b" ", b"\n", b"\xef\xbb\xbf"]) if chance.random() < 0.01 else b""
    return before + written + (chance.choice(ends) if chance.random() < 0.02 else b"\n")


def schedule(chance):
    count = chance.choice([0, 1, 1, 2, 3, 5, 8, LINES - 1, LINES, LINES + 1] if chance.random() < 0.01 else [0, 1, 1, 2, 2, 3, 5, 8])
    time, lines = 0, []
    for _ in range(count):
        lines.append(b"%d 1 1\n" % time if count >= LINES - 1 and chance.random() < 0.9995 else line(chance, time))
        time += chance.choice([0, 0, 1, 1000])
    return b"".join(lines)


def main():
    program, source, scratch, count = sys.argv[1], sys.argv[2], sys.argv[3], int(sys.argv[4])
    chance = random.Random("schedules")
    os.makedirs(scratch, exist_ok=True)
    lines = subprocess.run([program, "go", source, os.devnull, "100000"], capture_output=True, check=True).stdout

    def tried(number, text):
        path = os.path.join(scratch, f"{number}.schedule")
        with open(path, "wb") as file:
            file.write(text)
        call = subprocess.run([program, "go", source, path, "100000"], capture_output=True, timeout=SECONDS, check=False)
        fault = fault_of(text)
        wanted = (0, lines, b"") if not fault else (REFUSED, b"", b"schedule fault %d at line %d\n" % fault)
        if (call.returncode, call.stdout, call.stderr) == wanted:
            os.remove(path)
            return fault, None
        return fault, f"{path}: {call.stderr!r}, not {wanted[2]!r}"

    texts = [schedule(chance) for _ in range(count)]
    with ThreadPoolExecutor(os.cpu_count()) as pool:
        found = list(pool.map(tried, range(count), texts))
    failed = [it for _, it in found if it]
    sides = Counter(side for text, (fault, _) in zip(texts, found) for side in sides_of(text, fault))
    failed += [f"no schedule has {side}" for side in [*KEPT, *BROKEN] if not sides[side]]
    for it in failed[:20]:
        print(f"schedules: {it}", file=sys.stderr)
    rules = [fault and fault[0] for fault, _ in found]
    told = ", ".join(f"{rules.count(rule)} by {rule}" for rule in (NO_LINE, BACK, CHANNEL, MANY))
    print(f"schedules: of {count} {rules.count(None)} are taken, and refused are {told}; each of {len(sides)} edges is met by {min(sides.values())} or more")
    return 1 if failed else 0


if __name__ == "__main__":
    sys.exit(main())
