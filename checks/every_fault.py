#!/usr/bin/env python3
"""Gives texts to `adarun check`, and compares what it reports of each with the rows of every_fault.txt, and with what `simulate` reports.

    every_fault.py PROGRAM EVERY_FAULT RULES ROWS SCRATCH

- A row of EVERY_FAULT is the numbers of all faults of a text in their order, and the text with a mark `^` at the place of each: what stands in the specification
  of a package and, after `|`, in its body, or the whole text where there is no `|`. A row without numbers has no fault.
- Of each text of RULES (rules.py) the faults are in the order of places and numbers, none twice, and the row's own is among them; a legal one has none.
- Of each text of the tables `programs` and `refused` in ROWS (rows.py) there is a fault just where `go` refuses it.
- Of each fault the report has the place, the title and the rule of `explain`, the line and the mark, and at the end the number of them; what `simulate` says of
  the text is a part of it. Nothing is written to standard output.
"""
import os
import re
import subprocess
import sys

import rows as tables
import rules

PRAGMA = "pragma Profile (Ravenscar);\n"
SPECIFIED = "package App is {} procedure Run; end App;\npackage body App is {} procedure Run is begin null; end Run; end App;\nwith App;\nprocedure Main is begin App.Run; end Main;"
REMARKS = (
    "hint: ", "the other one is at ", "open here: ", "could stand here: ", "the code of ", "the handlers up to ", "`",
    "expected ", "found ", "left operand: ", "right operand: ", "not static: ", "the value is ", "the range ", "its evaluation raises an exception: ",
)


def place_of(text, at):
    """The line and the column of a byte of the text."""
    return text.count("\n", 0, at) + 1, at - (text.rfind("\n", 0, at) + 1) + 1


def rows_of(lines):
    """Each row's text, and the numbers and places of its faults."""
    for line in lines:
        if line and not line.startswith("#"):
            numbers, row = re.match(r"((?:\d+ )*)(.*)", line).groups()
            marked = PRAGMA * ("pragma" not in row) + (SPECIFIED.format(*row.split("|")) if "|" in row else row) + "\n"
            text, places = "", []
            for char in marked:
                if char == "^":
                    places.append(len(text))
                else:
                    text += char
            yield text, [(*place_of(text, at), int(number)) for number, at in zip(numbers.split(), places, strict=True)]


class Checker:
    """Calls of the program on one file."""

    def __init__(self, program, source):
        self.program, self.source, self.wrong, self.texts, self.explained = program, source, [], 0, {}

    def call(self, *words):
        run = subprocess.run([self.program, *words], capture_output=True, check=False)
        return run.stdout.decode("latin-1"), run.stderr.decode("latin-1"), run.returncode

    def heading(self, number):
        """The title and the rule of a fault."""
        if number not in self.explained:
            lines = self.call("explain", str(number))[0].split("\n")
            self.explained[number] = f"{lines[0].split(' ', 1)[1]}: {lines[2]}"
        return self.explained[number]

    def faults_in(self, text, report):
        """The faults of a report, None where it is no report of faults of this text."""
        lines, found, at = report.split("\n"), [], 0
        while at < len(lines) - 2:
            fault = re.fullmatch(re.escape(self.source) + r":(\d+):(\d+): error: (.*) \[fault (\d+)\]", lines[at])
            if not fault or fault[3] != self.heading(int(fault[4])):
                return None
            line, column, number = int(fault[1]), int(fault[2]), int(fault[4])
            shown = "".join(c if c == "\t" or " " <= c <= "~" else "?" for c in re.split("[\r\n]", text.split("\n")[line - 1])[0])
            marked = re.sub(r"[^\t]", " ", shown[: column - 1]) + "^"
            if len(shown) <= 160 and lines[at + 1 : at + 3] != [shown, marked]:
                return None
            found.append((line, column, number))
            at += 3
            while at < len(lines) - 2 and lines[at].startswith(REMARKS):
                at += 1
        count = "1 fault" if len(found) == 1 else f"{len(found)} faults"
        return found if lines[at:] == [count, ""] else None

    def check(self, text, is_right):
        """Reports the faults of a text, which are asked whether they are right."""
        with open(self.source, "w", encoding="latin-1", newline="") as file:
            file.write(text)
        out, report, status = self.call("check", self.source)
        simulated = self.call("simulate", self.source, "/dev/null", "0")
        self.texts += 1
        faults = [] if report == "" else self.faults_in(text, report)
        in_order = faults is not None and all(one < other for one, other in zip(faults, faults[1:]))
        same = (simulated[2] == 2 and simulated[1] in report) if faults else simulated[2] != 2
        if not (in_order and same and out == "" and status == (2 if faults else 0) and is_right(faults)):
            self.wrong.append(f"status {status}, {report!r} of\n{text}\nwhere simulate says {simulated[1]!r}")


def main():
    program, every_fault, judged, folder, scratch = sys.argv[1:]
    checker = Checker(program, os.path.join(scratch, "row.adb"))
    with open(every_fault, encoding="utf-8") as file:
        for text, expected in rows_of(file.read().split("\n")):
            checker.check(text, lambda faults, expected=expected: faults == expected)
    with open(judged, encoding="utf-8") as file:
        for text, number, mark in rules.rows_of(file.read().split("\n")):
            place = place_of(text, mark) if number else ()
            checker.check(text, lambda faults, number=number, place=place: (*place, number) in faults if number else faults == [])
    for name in ("programs", "refused"):
        with open(os.path.join(folder, f"{name}.txt"), encoding="utf-8") as file:
            for row in tables.rows_of(name, file.read().split("\n")):
                checker.check(tables.framed(row["frame"], row).decode("latin-1"), lambda faults: True)
    for told in checker.wrong:
        print(f"every_fault: {told}", file=sys.stderr)
    print(f"every_fault: of {checker.texts - len(checker.wrong)} of {checker.texts} texts every fault is reported as it should be")
    return 1 if checker.wrong or not checker.texts else 0


if __name__ == "__main__":
    sys.exit(main())
