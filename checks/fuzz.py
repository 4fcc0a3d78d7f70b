#!/usr/bin/env python3
"""Changes programs, with a fixed seed, and gives each text to the program: it always returns, with a status of a run, or with one line of a fault that stands in the text and has a number of docs/FAULTS.md.

    fuzz.py PROGRAM SCRATCH COUNT [SEED]

The texts are the programs of examples/ and checks/, in which one to four times a token is left out, doubled or exchanged for another one, or a byte changed to
any other. Each call has a stack of 192 KiB, no environment, and two seconds and 20 microseconds for each byte; none takes longer.
"""
import glob
import os
import random
import re
import shutil
import subprocess
import sys
from concurrent.futures import ThreadPoolExecutor

HERE = os.path.join(os.path.dirname(os.path.abspath(__file__)), "..")
TOKEN = re.compile(rb"--[^\n]*|\"[^\"\n]*\"|[A-Za-z_]+[A-Za-z0-9_]*|[0-9][0-9_]*|=>|\.\.|:=|/=|<=|>=|\s+|.", re.DOTALL)
FAULT = re.compile(rb"fault (\d+) at (\d+):(\d+)\n")
STACK = 192 * 1024
STEPS = "1000"
PRLIMIT = shutil.which("prlimit")
ENDED, REFUSED, UNHANDLED, WAITING, CUT = 0, 2, 3, 4, 5
NUMBERS = {*range(1, 8), *range(10, 24), *range(30, 40)}


def changed(text, chance):
    """The text with one thing changed."""
    tokens = TOKEN.findall(text)
    places = [place for place, token in enumerate(tokens) if not token.isspace()]
    kind, place = chance.randrange(5), chance.choice(places)
    if kind == 0:
        del tokens[place]
    elif kind == 1:
        tokens.insert(place, tokens[place] + b" ")
    elif kind == 2:
        other = chance.choice(places)
        tokens[place], tokens[other] = tokens[other], tokens[place]
    elif kind == 3:
        tokens[place] = tokens[chance.choice(places)]
    else:
        at = chance.randrange(len(text))
        return text[:at] + bytes([chance.randrange(256)]) + text[at + 1 :]
    return b"".join(tokens)


def wrong(program, path, text):
    """What is wrong with the call for this text, or None."""
    try:
        words = [PRLIMIT, f"--stack={STACK}", program, "go", path, "/dev/null", STEPS]
        call = subprocess.run(words, env={}, capture_output=True, timeout=2 + len(text) * 20e-6, check=False)
    except subprocess.TimeoutExpired:
        return "takes too long"
    if call.returncode in (ENDED, UNHANDLED, WAITING, CUT):
        return None if not call.stderr and call.stdout.endswith(b"\n") else "says more than a run"
    fault = FAULT.fullmatch(call.stderr)
    if call.returncode != REFUSED or not fault or call.stdout:
        return f"ends with {call.returncode}, {call.stderr[:80]}"
    lines = text.split(b"\n")
    line, column = int(fault[2]), int(fault[3])
    if int(fault[1]) not in NUMBERS:
        return f"is refused by {int(fault[1])}, which is no rule"
    is_inside = line <= len(lines) and 1 <= column <= len(lines[line - 1]) + 1
    return None if is_inside else f"places a fault at {line}:{column}"


def main():
    program, scratch, count = sys.argv[1], sys.argv[2], int(sys.argv[3])
    chance = random.Random(sys.argv[4] if len(sys.argv) > 4 else "adarun")
    names = sorted(glob.glob(f"{HERE}/examples/*.adb") + glob.glob(f"{HERE}/checks/*/*.adb"))
    sources = []
    for name in names:
        with open(name, "rb") as file:
            sources.append(file.read())
    os.makedirs(scratch, exist_ok=True)

    def tried(number, text):
        path = os.path.join(scratch, f"{number}.adb")
        with open(path, "wb") as file:
            file.write(text)
        found = wrong(program, path, text)
        if found is None:
            os.remove(path)
        return found and f"{path} {found}"

    texts = []
    for _ in range(count):
        text = chance.choice(sources)
        for _ in range(chance.randint(1, 4)):
            text = changed(text, chance)
        texts.append(text)
    with ThreadPoolExecutor(os.cpu_count()) as pool:
        failed = [it for it in pool.map(tried, range(count), texts) if it]
    for it in failed[:20]:
        print(f"fuzz: {it}", file=sys.stderr)
    print(f"fuzz: {count - len(failed)} of {count} changed programs are run or refused at a place in the text")
    return 1 if failed else 0


if __name__ == "__main__":
    sys.exit(main())
