#!/usr/bin/env python3
"""Says which lines of code, contracts and definitions are wider than 160 columns, imports and texts with quotation marks in them aside, and which paragraphs and
items of documents are broken into several lines: there each is one line, of any width. Then it fails."""

import glob
import os
import re
import sys

HERE = os.path.join(os.path.dirname(os.path.abspath(__file__)), "..")
COLUMNS = 160
IMPORT = re.compile(r"\s*(pub )?(ghost )?use ")
CODE = ("crates/*/src/**/*.rt", "crates/*/specs/**/*.antt")
PROSE = ("*.md", "docs/*.md", "crates/*/README.md", "checks/*.md", "bench/*.md", "examples/**/*.md")
# Lines that are no text of a paragraph, and those with which an item or a quotation begins.
APART = re.compile(r"\||#|    |\t|<!--|```|!\[")
BEGINS = re.compile(r"- |\d+\. |>")


def files_of(patterns):
    return sorted(path for pattern in patterns for path in glob.glob(f"{HERE}/{pattern}", recursive=True))


def lines_of(path):
    with open(path, encoding="utf-8") as lines:
        return [line.rstrip("\n") for line in lines]


def wide_lines(path):
    for number, line in enumerate(lines_of(path), 1):
        if len(line) > COLUMNS and not IMPORT.match(line) and '\\"' not in line:
            yield number, f"{len(line)} columns"


def broken_paragraphs(path):
    """The lines with which a paragraph or an item goes on."""
    before, is_fenced = "", False
    for number, line in enumerate(lines_of(path), 1):
        is_fenced ^= line.startswith("```")
        is_text = bool(line.strip()) and not is_fenced and not APART.match(line)
        if is_text and before.strip() and not APART.match(before) and not BEGINS.match(line):
            yield number, "the paragraph goes on from the line before"
        before = line


def main():
    wide = [(path, *found) for path in files_of(CODE) for found in wide_lines(path)]
    broken = [(path, *found) for path in files_of(PROSE) for found in broken_paragraphs(path)]
    for path, number, told in wide + broken:
        print(f"{os.path.relpath(path, HERE)}:{number}: {told}", file=sys.stderr)
    print(f"width: {len(wide)} lines of code and definitions are wider than {COLUMNS} columns, {len(broken)} lines of documents go on with a paragraph")
    return 1 if wide or broken else 0


if __name__ == "__main__":
    sys.exit(main())
