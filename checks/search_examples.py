#!/usr/bin/env python3
"""Searches the examples of examples/search as their files NAME.answers say, and runs each schedule that is found by `go`, which must show what was found.

    search_examples.py PROGRAM SCRATCH

An answer stands in such a file as on a terminal: a line `$ adarun search ..`, called in the folder above, and what it writes.
"""
import os
import re
import subprocess
import sys
from concurrent.futures import ThreadPoolExecutor

FOLDER = os.path.join("examples", "search")
PROMPT = "$ adarun "
SECONDS = 600
UNHANDLED, WAITS, LINE_FOUND = 3, 4, 9


def sessions():
    """The words of each call, and what it writes."""
    for name in sorted(os.listdir(FOLDER)):
        if not name.endswith(".answers"):
            continue
        with open(os.path.join(FOLDER, name), encoding="ascii") as file:
            calls = file.read().split(PROMPT)
        assert not calls[0], f"{name} doesn't begin with a call"
        for call in calls[1:]:
            words, answer = call.split("\n", 1)
            yield words.split(), answer


def status_of(answer):
    last = answer.splitlines()[-1]
    if last.startswith("none of "):
        return 0
    found = re.fullmatch(r"found: (unhandled .*|waits forever) at \d+", last)
    if not found:
        return LINE_FOUND
    return WAITS if found[1] == "waits forever" else UNHANDLED


def call(program, words):
    done = subprocess.run([program, *words], stdout=subprocess.PIPE, stderr=subprocess.PIPE, timeout=SECONDS, check=False)
    return done.returncode, done.stdout.decode("latin-1"), done.stderr.decode("latin-1")


def shows(program, source, limit, answer, file):
    """Whether the run on the schedule that was found shows what was found."""
    *schedule, last = answer.splitlines(keepends=True)
    with open(file, "w", encoding="ascii") as out:
        out.write("".join(schedule))
    run = call(program, ["go", source, file, limit])[1]
    found = last.removeprefix("found: ")
    return found in run.splitlines(keepends=True)


def main():
    program, scratch = sys.argv[1:]
    cases = list(sessions())

    def failure(number):
        words, answer = cases[number]
        got = call(program, words)
        if got != (status_of(answer), answer, ""):
            return f"{' '.join(words)} gave {got}"
        file = os.path.join(scratch, f"{number}.found")
        if status_of(answer) and not shows(program, words[1], words[4], answer, file):
            return f"{' '.join(words)}: the run on the schedule that was found doesn't show it"
        return None

    with ThreadPoolExecutor(os.cpu_count()) as pool:
        failures = [text for text in pool.map(failure, range(len(cases))) if text]
    for text in failures:
        print(f"search_examples: {text}", file=sys.stderr)
    found = sum(1 for _, answer in cases if status_of(answer))
    print(f"search_examples: {len(cases)} searches, {found} of which find a schedule that `go` confirms: {len(failures)} failures")
    return 1 if failures else 0


if __name__ == "__main__":
    sys.exit(main())
