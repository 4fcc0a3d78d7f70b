#!/usr/bin/env python3
"""Runs images with 4,096 rows of handlers, nested, side by side and mixed, in several orders, and compares what they write with what the rows say: the shortest region that
covers the place and handles the exception, the first of equal ones (docs/FORMATS.md, "Handlers"). Their listings have the rows as they were given.

    handler_tables.py PROGRAM SCRATCH
"""
import os
import random
import subprocess
import sys

sys.path.insert(0, os.path.join(os.path.dirname(os.path.abspath(__file__)), "..", "bench"))
from assembler import TASK, Body, assembled  # noqa: E402

ROWS, PREDEFINED, EXCEPTIONS = 4_096, 4, 36


def nested():
    """All regions one in the other around one place that raises; the outermost handles all exceptions."""
    whole = 2 * ROWS + 1
    return whole, [ROWS], EXCEPTIONS, [(number, whole - number, number % EXCEPTIONS + 1 if number else 0) for number in range(ROWS)]


def beside():
    """Each place raises, and has a region of its own."""
    return ROWS, list(range(ROWS)), 1, [(number, number + 1, 0) for number in range(ROWS)]


def mixed(source):
    """Regions within regions, many of them equal, around 64 places that raise; the outermost handles all exceptions."""
    sites = 64
    regions, rows = [(0, sites)], [(0, sites, 0)]
    while len(rows) < ROWS:
        low, high = source.choice(regions)
        first = source.randrange(low, high)
        region = (first, source.randrange(first + 1, high + 1))
        if all(region[1] <= a or b <= region[0] or a <= region[0] and region[1] <= b or region[0] <= a and b <= region[1] for a, b in regions):
            regions.append(region)
            rows += [(*region, source.randrange(EXCEPTIONS + 1)) for _ in range(min(source.randint(1, 40), ROWS - len(rows)))]
    return sites, list(range(sites)), EXCEPTIONS, rows


def taker(rows, site, exception):
    """The number of the row that takes the exception."""
    return min((behind - first, number) for number, (first, behind, handled) in enumerate(rows) if first <= site < behind and handled in (0, exception))[1]


def image_of(count, sites, exceptions, rows):
    """An image that goes through `count` places, raises at its sites each of the exceptions in turn, and writes the number of the row that takes it."""
    text, raising = ["PUSH 1 STL 0 again:"], set(sites)
    for place in range(count):
        text.append(f"k{place}: PUSH {place} STL 1 LDL 0 RAISE c{place}:" if place in raising else f"k{place}: PUSH 0 DROP")
    text.append(f"k{count}: LDL 0 PUSH 1 ADD DUP STL 0 PUSH {exceptions} LE JNZ again RET")
    added = []
    for number, (first, behind, handled) in enumerate(rows):
        added.append((f"k{first}", f"k{behind}", handled, f"t{number}"))
        text.append(f"t{number}: DROP PUSH {number} PUT 0 JMP {f'c{first}' if behind - first == 1 else 'on'}")
    if any(behind - first > 1 for first, behind, _ in rows):
        text.append("on: " + " ".join(f"LDL 1 PUSH {site} EQ JNZ c{site}" for site in sites) + " RET")
    image = assembled([Body(TASK, " ".join(text), locals=2, rows=tuple(added))], [("MAIN", 15, 0)])
    image.exceptions += [f"E{number}" for number in range(PREDEFINED + 1, EXCEPTIONS + 1)]
    return image


def lines_of(sites, exceptions, rows):
    return "".join(f"0 MAIN x {taker(rows, site, exception)}\n" for exception in range(1, exceptions + 1) for site in sites) + "ended at 0\n"


def tables():
    """Each table by a name: its places, those that raise, the exceptions that they raise, and its rows."""
    for name, (count, sites, exceptions, rows) in (("nested", nested()), ("side by side", beside()), ("mixed", mixed(random.Random(1)))):
        for order in ("as they are", "the last first", "shuffled"):
            ordered = list(rows)
            if order == "the last first":
                ordered.reverse()
            elif order == "shuffled":
                random.Random(2).shuffle(ordered)
            yield f"{name}, {order}", count, sites, exceptions, ordered


def main():
    program, scratch = sys.argv[1:]
    path = os.path.join(scratch, "handler_table.img")
    right = many = 0
    for name, count, sites, exceptions, rows in tables():
        image = image_of(count, sites, exceptions, rows)
        with open(path, "wb") as file:
            file.write(image.bytes())
        ran = subprocess.run([program, "run", path, "/dev/null", "10000000"], capture_output=True, text=True, check=False)
        listed = subprocess.run([program, "list", path], capture_output=True, text=True, check=False).stdout
        handlers = [line for line in listed.splitlines() if line.startswith("handler ")]
        many += 1
        if ran.stdout == lines_of(sites, exceptions, rows) and handlers == ["handler " + " ".join(map(str, row)) for row in image.rows]:
            right += 1
        else:
            print(f"handler_tables: {name}: {ran.stdout[-80:]!r} {ran.stderr[-80:]!r}", file=sys.stderr)
    print(f"handler_tables: {right} of {many} tables of {ROWS:,} rows answer as their rows say")
    return 0 if right == many else 1


if __name__ == "__main__":
    sys.exit(main())
