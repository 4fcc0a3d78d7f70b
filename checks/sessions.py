#!/usr/bin/env python3
"""Runs the commands that docs/SEARCH.md and docs/SEEING.md show after `$`, and compares what they write with what is shown below them.

    sessions.py PROGRAM SCRATCH

A line `..` is any lines. Where nothing is shown below a command, what it writes is not compared, and it must not be refused.
"""
import os
import re
import subprocess
import sys

DOCUMENTS = ("docs/SEARCH.md", "docs/SEEING.md")
# The statuses of runs and searches that come to an answer (docs/FORMATS.md, "Exit statuses").
ANSWERED = (0, 3, 4, 5, 9)


def blocks_of(text):
    """The indented lines that follow one another, with the empty lines between them."""
    for found in re.finditer(r"(?:^    .*\n|^\n(?=(?:\n)*    ))+", text, re.M):
        yield [line[4:] for line in found[0].strip("\n").split("\n")]


def calls_of(document):
    """Each command with the lines that are shown below it."""
    with open(document, encoding="utf-8") as file:
        text = file.read()
    for block in blocks_of(text):
        if not block[0].startswith("$ "):
            continue
        calls = []
        for line in block:
            if line.startswith("$ "):
                calls.append((line[2:], []))
            else:
                calls[-1][1].append(line)
        yield from ((command, "\n".join(lines).rstrip("\n")) for command, lines in calls)


def is_shown(written, shown):
    """Whether this was written, where `..` is any lines."""
    pattern = ".*".join(re.escape(part) for part in re.split(r"^\.\.$", shown, flags=re.M))
    return re.fullmatch(pattern, written.rstrip("\n"), re.S) is not None


def main():
    program, scratch = map(os.path.abspath, sys.argv[1:])
    folder = os.path.join(scratch, "sessions")
    os.makedirs(folder, exist_ok=True)
    if not os.path.exists(os.path.join(folder, "examples")):
        os.symlink(os.path.abspath("examples"), os.path.join(folder, "examples"))
    count = failures = 0
    for document in DOCUMENTS:
        for command, shown in calls_of(document):
            words = command.replace("adarun ", program + " ")
            ran = subprocess.run(["bash", "-c", words], cwd=folder, stdout=subprocess.PIPE, stderr=subprocess.STDOUT, text=True, timeout=600, check=False)
            count += 1
            if not is_shown(ran.stdout, shown) if shown else ran.returncode not in ANSWERED:
                failures += 1
                print(f"sessions: {document}: {command}\nwrites\n{ran.stdout}and not\n{shown}", file=sys.stderr)
    print(f"sessions: {count} commands of {len(DOCUMENTS)} documents: {failures} failures")
    return 1 if failures or not count else 0


if __name__ == "__main__":
    sys.exit(main())
