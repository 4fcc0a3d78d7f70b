#!/usr/bin/env python3
"""Cuts images at each length, puts other values at each of their bytes, and changes several bytes at once, with a fixed seed: each is refused at the byte and by the
rule that checks/image_rules.py finds, or is listed as checks/listing.py does, and run as bench/reference.py runs it.

    changed_images.py PROGRAM WATCHER CALLS SCRATCH

CALLS is what calls a program for many contents of a file (calls.c). What is listed gives the bytes again, with the initial words, which no listing has. Of those that are
run the WATCHER (crates/exclusion_main) asks after each step whether exclusion holds.
"""
import os
import random
import re
import struct
import subprocess
import sys
from collections import Counter
from multiprocessing import Pool

import images
import mnemonics
from image_rules import Image, fault_of
from listing import listing
from rows import row_of

HERE = os.path.dirname(os.path.abspath(__file__))
sys.path.insert(0, os.path.join(HERE, "..", "bench"))
from reference import STATUSES, World  # noqa: E402

LIMIT, REFUSED, SECONDS, CHUNK = 1_000, 6, 300, 500
SCHEDULE = [(5, 2, 7), (5, 2, 8), (500, 1, 7), (500, 3, 9)]
ALL = 255
# Sources of rows, with how many of the 255 other values each byte of what they compile to gets; and how many of each image have several bytes changed.
ROWS = [
    ("a call of a procedure", "programs", "a sign takes a whole term, mod and rem keep to their signs, division cuts towards zero", 32),
    ("handlers", "programs", "an exception of a handler passes by the other handlers of its sequence", 32),
    ("tasks and delays", "tasks", "a channel before its first line, at the very time of its line, and behind it", 32),
    ("objects and entries", "entries", "a consumer that waits is served by the producer, before that goes on", 32),
    ("handlers of interrupts", "interrupts", "a task that waits is served by a handler, and the next line's handler runs before it", 32),
]
SEVERAL = 2_000


def called(calls, words, path, contents):
    """What each call of the words leaves with these contents of the file at the path: standard output, standard error and the status."""
    given = b"".join(struct.pack("=I", len(content)) + content for content in contents)
    found = subprocess.run([calls, path, *words], input=given, capture_output=True, timeout=SECONDS, check=True).stdout
    at, left = 0, []
    for _ in contents:
        status, out, err = struct.unpack_from("=3I", found, at)
        at += 12
        left.append((found[at : at + out], found[at + out : at + out + err], status))
        at += out + err
    assert at == len(found)
    return left


def written_again(lines, data):
    """The bytes of what is listed, with the initial words of the bytes."""
    image, bodies = Image(data), []
    text = [f"word {word}" for word in image.words]
    for line in lines:
        words = line.split()
        if words[0] in ("exception", "label"):
            text += [f"{words[0]} {words[2]}"] if words[0] == "label" or int(words[1]) > len(images.NAMES) else []
        elif words[0] == "object":
            text += [" ".join(["object", *words[3::2]]), *(f"own {word}" for word in image.objects[int(words[1])].words)]
        elif words[0] == "sub":
            bodies.append([*words[3:6:2], "0", *words[7::2]])
        elif words[0] == "task":
            text.append(f"task {words[1]} {words[3]} {words[5]}")
        elif words[0] in ("handler", "attach"):
            text.append(line)
        else:
            text.append(" ".join(words[1:]))
            bodies[-1][2] = str(int(words[0]) + 1)
    text += [" ".join(["sub", *body]) for body in bodies]
    return mnemonics.assembled("\n".join(text))


class Tried:
    """What was found of some changed images: how many break which rule, how many were run and how each run ended, and what was wrong."""

    def __init__(self):
        self.rules, self.ends, self.watched, self.wrong = Counter(), Counter(), 0, []

    def add(self, other):
        self.rules += other.rules
        self.ends += other.ends
        self.watched += other.watched
        self.wrong += other.wrong

    def need(self, holds, what, told):
        if not holds:
            self.wrong.append(f"{what}: {told}")


def try_listed(tried, program, calls, path, cases):
    """Lists each changed image; gives those that are taken."""
    taken = []
    for (what, data), left in zip(cases, called(calls, [program, "list", path], path, [data for _, data in cases])):
        fault = fault_of(data)
        if fault:
            tried.rules[fault[0]] += 1
            tried.need(left == (b"", b"image fault %d at byte %d\n" % fault, REFUSED), what, f"listing leaves {left}, not fault {fault}")
        else:
            lines = list(listing(data))
            tried.need(left == ("".join(line + "\n" for line in lines).encode(), b"", 0), what, f"listing leaves {left}")
            tried.need(written_again(left[0].decode("latin-1").splitlines(), data) == data, what, "what is listed has other bytes")
            taken.append((what, data))
    return taken


def try_run(tried, program, calls, path, schedule, cases):
    """Runs each, and compares what it writes with what is written by a machine over plain lists."""
    for (what, data), left in zip(cases, called(calls, [program, "run", path, schedule, str(LIMIT)], path, [data for _, data in cases])):
        text = World(data, SCHEDULE).run(LIMIT)
        end = text.splitlines()[-1].split()[0]
        tried.ends[end] += 1
        tried.need(left == (text.encode(), b"", STATUSES[end]), what, f"its run leaves {left}, not {text!r}")


def try_watched(tried, watcher, calls, path, schedule, cases):
    for (what, _), left in zip(cases, called(calls, [watcher, path, schedule, str(LIMIT)], path, [data for _, data in cases])):
        tried.watched += 1
        tried.need(left[1:] == (b"", 0) and re.fullmatch(rb"held after \d+ steps\n", left[0]), what, f"asked for exclusion it leaves {left}")


def try_all(program, watcher, calls, scratch, number, cases):
    tried = Tried()
    path, schedule = os.path.join(scratch, f"{number}.img"), os.path.join(scratch, "schedule")
    taken = try_listed(tried, program, calls, path, cases)
    try_run(tried, program, calls, path, schedule, taken)
    try_watched(tried, watcher, calls, path, schedule, taken)
    return tried


def cases_of(data, values, several, chance):
    """The image as it is, cut, with one byte changed, and with several bytes changed, each with the words that tell it."""
    yield "unchanged", data
    for length in range(len(data)):
        yield f"first {length}", data[:length]
    for at, byte in enumerate(data):
        others = [value for value in range(256) if value != byte]
        for value in others if values == ALL else sorted(chance.sample(others, values)):
            yield f"{at}={value:02x}", data[:at] + bytes([value]) + data[at + 1 :]
    for _ in range(several):
        changed, told = bytearray(data), []
        for _ in range(chance.choice((2, 2, 3, 4))):
            at = chance.randrange(len(data))
            changed[at] = chance.choice((0, 1, 2, 3, 255, changed[at] ^ (1 << chance.randrange(8)), chance.randrange(256)))
            told.append(f"{at}={changed[at]:02x}")
        yield " ".join(told), bytes(changed)


def images_of(program, scratch):
    """The images by their names, with the number of values for each byte."""
    yield "return_alone", mnemonics.image_of("return_alone"), ALL
    yield "thousand", mnemonics.image_of("thousand"), ALL
    yield "handled", mnemonics.image_of("handled"), ALL
    yield "every", images.every_operation().bytes(), 8
    for name, table, row, values in ROWS:
        source = os.path.join(scratch, "main.adb")
        with open(source, "wb") as file:
            file.write(row_of(table, row)[0])
        subprocess.run([program, "compile", source, os.path.join(scratch, "main.img")], check=True)
        with open(os.path.join(scratch, "main.img"), "rb") as file:
            yield name, file.read(), values


def main():
    program, watcher, calls, scratch = (os.path.abspath(word) for word in sys.argv[1:])
    os.makedirs(scratch)
    with open(os.path.join(scratch, "schedule"), "w", encoding="ascii") as file:
        file.write("".join(f"{time} {channel} {value}\n" for time, channel, value in SCHEDULE))
    failed = False
    with Pool(len(os.sched_getaffinity(0))) as pool:
        for name, data, values in images_of(program, scratch):
            cases = list(cases_of(data, values, SEVERAL, random.Random(name)))
            chunks = [cases[at : at + CHUNK] for at in range(0, len(cases), CHUNK)]
            tried = Tried()
            for found in pool.starmap(try_all, [(program, watcher, calls, scratch, number, chunk) for number, chunk in enumerate(chunks)], 1):
                tried.add(found)
            for told in tried.wrong[:20]:
                print(f"changed_images: {name} {told}", file=sys.stderr)
            rules = ", ".join(f"{count} by {rule}" for rule, count in sorted(tried.rules.items()))
            ends = ", ".join(f"{count} {end}" for end, count in sorted(tried.ends.items()))
            print(f"changed_images: {name}, {len(data)} bytes, {values} values for each: {len(cases)} images, refused {rules}, run {ends}; {len(tried.wrong)} wrong")
            failed = failed or tried.wrong or tried.watched == 0
    return 1 if failed else 0


if __name__ == "__main__":
    sys.exit(main())
