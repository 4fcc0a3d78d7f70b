#!/usr/bin/env python3
"""Leaves out, doubles and exchanges tokens of the legal texts of rules.txt, with a fixed seed, and gives each text to the program: it always returns, with a
status of a run, or with one line of a fault that stands in the text.

    mutations.py PROGRAM RULES SCRATCH COUNT
"""
import os
import random
import re
import subprocess
import sys

sys.dont_write_bytecode = True
from rules import rows_of  # noqa: E402 (no file of it is to be kept)

TOKEN = re.compile(r'"[^"\n]*"|[A-Za-z]\w*|\d[\d_]*|=>|\.\.|:=|/=|<=|>=|[^\s\w]')
FAULT = re.compile(r"fault (\d+) at (\d+):(\d+)\n")
LEGALITY = range(10, 24)
STEPS = "2000"
SECONDS = 20


def kind(piece):
    """Names, which rules.txt begins with a capital, reserved words, numbers, labels and delimiters."""
    return "name" if piece[0].isupper() else "word" if piece[0].isalpha() else "number" if piece[0].isdigit() else "label" if piece[0] == '"' else "delimiter"


def changed(pieces):
    """The tokens with one to three of them left out, doubled, or exchanged with another one: mostly with one of its kind."""
    pieces = list(pieces)
    for _ in range(random.choice((1, 1, 1, 2, 3))):
        at = random.randrange(len(pieces))
        change = random.choice(("leave out", "double", "exchange", "exchange alike", "exchange alike", "exchange alike"))
        if change == "leave out":
            del pieces[at]
        elif change == "double":
            pieces.insert(at, pieces[at])
        else:
            others = [number for number, piece in enumerate(pieces) if change == "exchange" or kind(piece) == kind(pieces[at])]
            other = random.choice(others)
            pieces[at], pieces[other] = pieces[other], pieces[at]
    return pieces


def spelled(pieces):
    """A text of these tokens, on lines of about 100 bytes, and the places where its tokens begin."""
    lines, places, column = [[]], set(), 1
    for piece in pieces:
        if column > 100:
            lines.append([])
            column = 1
        places.add((len(lines), column))
        lines[-1].append(piece)
        column += len(piece) + 1
    return "\n".join(" ".join(line) for line in lines) + "\n", places


def is_in(text, line, column):
    """Whether the place is one of a byte of the text, or of its end."""
    lines = text.split("\n")
    return 1 <= line <= len(lines) and 1 <= column <= len(lines[line - 1]) + 1


def main():
    program, rules, scratch, count = sys.argv[1:]
    source = os.path.join(scratch, "mutation.adb")
    with open(rules, encoding="utf-8") as file:
        legal = [TOKEN.findall(text) for text, number, _ in rows_of(file.read().split("\n")) if number is None]
    random.seed(23)
    accepted = unread = illegal = wrong = 0
    for _ in range(int(count)):
        text, places = spelled(changed(random.choice(legal)))
        with open(source, "w", encoding="utf-8") as file:
            file.write(text)
        run = subprocess.run([program, "go", source, "/dev/null", STEPS], capture_output=True, text=True, check=False, timeout=SECONDS)
        fault = FAULT.fullmatch(run.stderr)
        if run.returncode == 2 and fault and not run.stdout:
            number, line, column = (int(digits) for digits in fault.groups())
            right = (line, column) in places if number in LEGALITY else is_in(text, line, column)
            illegal += number in LEGALITY
            unread += number < LEGALITY.start
            accepted += number >= LEGALITY.stop
        else:
            right = run.returncode in (0, 3, 4, 5) and not run.stderr
            accepted += right
        if not right:
            wrong += 1
            print(f"mutations: status {run.returncode}, {run.stderr.strip()}\n{text}", file=sys.stderr)
    print(f"mutations: of {count} changed texts {unread} are no program's, {illegal} break a rule of legality, {accepted} break none")
    return 1 if wrong or min(unread, illegal, accepted) < int(count) // 50 else 0


sys.exit(main())
