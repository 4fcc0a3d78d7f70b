#!/usr/bin/env python3
"""Sees that the comments of code, contracts and definitions can be read alone, as rustdoc shows them: none begins as the continuation of the one above it, each
public item of src has a `///`, and each file begins with what it is for. What is wrong is said on standard error; the status is 1 then.

usage: checks/comments.py, at the top of the repository"""

import glob
import re
import sys

COMMENT = {"rt": re.compile(r"\s*(///|//!|//)\s*(.*)"), "antt": re.compile(r"\s*(--)\s*(.*)")}
CONTINUES = re.compile(r"\.\.\.|(?:The same|That of|Those|And|Or|But|Else|Otherwise|Then|Also|Likewise|So(?! many)|Adds that of)\b")
LIST = re.compile(r"pub (?:mod|use) ")
PUBLIC = re.compile(r"\s*pub (?:const )?(?:unsafe )?(fn|struct|enum|trait|const|type) (\w+)")


def beginnings(lines, form):
    """The number of the first line of each comment, with its text."""
    before = None
    for number, line in enumerate(lines, 1):
        found = COMMENT[form].match(line)
        mark = found and found[1]
        if found and mark != before:
            yield number, found[2]
        before = mark


def without_comment(lines):
    """The public items of a file of code before whose attributes there is no `///`: the number of the line, the kind and the name."""
    documented = False
    for number, line in enumerate(lines, 1):
        item = PUBLIC.match(line)
        if item and not documented:
            yield number, item[1], item[2]
        documented = line.lstrip().startswith("///") or (documented and line.lstrip().startswith("#["))


def faults_of(path):
    form = path.rsplit(".", 1)[1]
    with open(path, encoding="utf-8") as file:
        lines = file.read().split("\n")
    if any(lines) and not COMMENT[form].match(lines[0]) and not LIST.match(lines[0]):
        yield 1, "the first line doesn't say what the file is for"
    for number, text in beginnings(lines, form):
        if CONTINUES.match(text):
            yield number, f"a comment that can't be read alone: {text}"
    if form == "rt":
        for number, kind, name in without_comment(lines):
            yield number, f"the public {kind} {name} has no `///`"


def main():
    paths = glob.glob("crates/*/src/**/*.rt", recursive=True) + glob.glob("crates/*/specs/**/*.antt", recursive=True)
    wrong = 0
    for path in sorted(paths):
        for number, fault in faults_of(path):
            wrong += 1
            print(f"{path}:{number}: {fault}", file=sys.stderr)
    print(f"comments: {len(paths)} files of code and definitions, {wrong} comments that are missing or can't be read alone")
    return 1 if wrong else 0


if __name__ == "__main__":
    sys.exit(main())
