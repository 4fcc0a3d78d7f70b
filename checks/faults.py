"""Writes the texts of docs/FAULTS.md to a folder, each as N.text, or N.image, with the line that it is refused with as N.fault. Those of first mistakes are K.mistake,
counted from 1, with K.wrong. What `adarun explain N` says of a number is N.explained: the lines of its section. What `adarun simulate` says of a first mistake
below the line of its place is K.shown, and what `adarun explain 6` tells besides of a text with a fault 6, K.mistake or 6.text, is K.mistake.told or 6.text.told.

    faults.py FAULTS.md FOLDER
    faults.py --write PROGRAM FAULTS.md

With --write the lines of each section that has a number are made of what the program says of this number (crates/diagnostics has these texts by hand).

A text whose first line begins with `$` is what that command writes. The text of an image's fault is changes of the image whose bytes stand under "## Images".
"""
import os
import re
import subprocess
import sys


def examples(lines):
    """The number, the text and the fault of each section that has a text; the image's bytes have no number and no fault. The number of a first mistake is its title."""
    number, text, mistakes = None, [], False
    for line in lines:
        heading = re.match(r"##(?:# (\d+))? ", line)
        fault = re.match(r"`((?:schedule |image |choices )?fault \d+ at .*)`$", line)
        if heading or line.startswith("### "):
            if text and number is None:
                yield None, "\n".join(text), None
            mistakes = line == "## First mistakes" or mistakes and line.startswith("### ")
            number, text = line[4:] if mistakes and line.startswith("### ") else heading and heading[1], []
        elif line.startswith("    "):
            text.append(line[4:])
        elif text and not line and not text[-1] == "":
            text.append("")
        elif fault:
            yield number, "\n".join(text).rstrip("\n") + "\n", fault[1]


def explanations(lines):
    """The number of each section that has one, and its lines for a terminal: the heading without marks, the line that the program writes likewise."""
    found, number = {}, None
    for line in lines:
        if line.startswith("##"):
            heading = re.match(r"### (\d+) ", line)
            number = heading and heading[1]
        if number:
            found.setdefault(number, []).append(re.sub(r"^### |^`([a-z ]*fault \d+ at .*)`$", r"\1", line))
    return {number: "\n".join(section).rstrip("\n") + "\n" for number, section in found.items()}


def section_of(explanation):
    """The lines of a section, of what the program says of its number: the heading and the line that the program writes with their marks."""
    heading, *lines = explanation.rstrip("\n").split("\n")
    return ["### " + heading, *(re.sub(r"^([a-z ]*fault \d+ at .*)$", r"`\1`", line) for line in lines), ""]


def with_sections(lines, explained):
    """The lines, those of each section that has a number as it is explained."""
    made, skipped = [], False
    for line in lines:
        if line.startswith("##"):
            heading = re.match(r"### (\d+) ", line)
            skipped = bool(heading)
            if heading:
                made += section_of(explained(heading[1]))
        if not skipped:
            made.append(line)
    return made


def write_sections(program, source):
    def explained(number):
        return subprocess.run([program, "explain", number], capture_output=True, text=True, check=True).stdout

    with open(source, encoding="utf-8") as file:
        lines = file.read().split("\n")
    with open(source, "w", encoding="utf-8") as file:
        file.write("\n".join(with_sections(lines, explained)).rstrip("\n") + "\n")


def told(lines):
    """What is told of each text of a source, in the order of these texts: hints and what is open, and what could stand at the place."""
    found = []
    for line in lines:
        if re.match(r"`fault \d+ at .*`$", line):
            found.append(("", ""))
        elif re.match(r"hint: |open here: ", line):
            found[-1] = (found[-1][0] + line + "\n", found[-1][1])
        elif re.match(r"could stand here: |`[a-z]+` is a reserved word, and no identifier$", line):
            found[-1] = (found[-1][0], found[-1][1] + line + "\n")
    return found


def changed(image, changes):
    """The image with these bytes in their places; a place with nothing cuts it there."""
    for change in changes.split("\n"):
        if change:
            at, given = change.removeprefix("from byte ").split(": ")
            at, given = int(at), bytes.fromhex(given.replace("nothing", ""))
            image = image[:at] + given + image[at + len(given) :] if given else image[:at]
    return image


def content_of(image, text, fault):
    if fault.startswith("image"):
        return "image", changed(image, text)
    if text.startswith("$ "):
        return "text", subprocess.run(["bash", "-c", text[2:]], stdout=subprocess.PIPE, check=True).stdout
    return "text", text.encode()


if sys.argv[1] == "--write":
    write_sections(*sys.argv[2:])
    sys.exit()
source, folder = sys.argv[1:]
with open(source, encoding="utf-8") as file:
    lines = file.read().split("\n")
found = list(examples(lines))
image = bytes.fromhex(next(text for number, text, fault in found if number is None))
mistakes = 0
lines_told = iter(told(lines))
for number, text, fault in found:
    if number is None:
        continue
    if number.isdigit():
        assert f"fault {number} at " in fault, number
        kind, content = content_of(image, text, fault)
        files = {f"{number}.{kind}": content, f"{number}.fault": (fault + "\n").encode()}
    else:
        mistakes += 1
        files = {f"{mistakes}.mistake": text.encode(), f"{mistakes}.wrong": (fault + "\n").encode()}
    if fault.startswith("fault "):
        hints, could = next(lines_told)
        if not number.isdigit():
            files[f"{mistakes}.shown"] = (hints + could).encode()
        if fault.startswith("fault 6 "):
            files[f"{number}.text.told" if number.isdigit() else f"{mistakes}.mistake.told"] = "\n".join(filter(None, (hints, could))).encode()
    for name, content in files.items():
        with open(os.path.join(folder, name), "wb") as file:
            file.write(content)
for number, text in explanations(lines).items():
    with open(os.path.join(folder, f"{number}.explained"), "w", encoding="utf-8") as file:
        file.write(text)
