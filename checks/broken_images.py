#!/usr/bin/env python3
"""Has the program list and run images that break one rule each, and images that just keep it, and compares what it tells with the rule and the field.

    broken_images.py PROGRAM TABLE SCRATCH

A table has an image in words (lines of `image`, mnemonics.py) and rows that change it: `N at FIELD: CHANGES` where rule N is broken at that field, or
`accepted: CHANGES`. A field is a section (exception, label, object, sub, task, row, code), the number of its row and the field's name; a change is a
field and what is put there, of the same size. The byte of a field is counted from docs/FORMATS.md ("Sections"). Behind the table's rows come images
that are at each limit or one past it, and names of the shortest and longest lengths. checks/image_rules.py has to judge each of them likewise.
"""
import os
import re
import struct
import subprocess
import sys

import mnemonics
from image_rules import Image, fault_of

# The form of the fields of a row behind its first byte, or behind the text in front of it.
FIELDS = {
    "object": ("BHBHH", "ceiling entry barrier word size"),
    "sub": ("B6H", "kind owner end params results local stack"),
    "task": ("BH", "priority subprogram"),
    "row": ("4H", "start end exception target"),
    "code": ("BHHq", "opcode depth a k"),
}
SECTIONS = {"object": "objects", "sub": "subprograms", "task": "tasks", "row": "rows", "code": "instructions", "exception": "exceptions", "label": "labels"}
ENDED, CUT, FAULTY = 0, 5, 6


def place_of(image, section, number, field):
    """The byte of a field, and the form of what stands there, None for the characters of a text."""
    row = getattr(image, SECTIONS[section])[int(number)]
    if field == "text":
        return (row.name if section == "task" else row).at + 1, None
    form, names = FIELDS[section]
    letters = re.sub(r"(\d)(\w)", lambda part: part[2] * int(part[1]), form)
    at = names.split().index(field)
    return row.at + struct.calcsize(">" + letters[:at]), letters[at]


def changed(data, changes):
    """The image with these fields changed."""
    image, words = Image(data), changes.split(" ")
    data = bytearray(data)
    for section, number, field, value in zip(*[iter(words)] * 4):
        at, letter = place_of(image, section, number, field)
        put = struct.pack(">" + letter, int(value)) if letter else value.encode().decode("unicode_escape").encode("latin-1")
        data[at : at + len(put)] = put
    return bytes(data)


def table_of(path):
    """The rows of a table: each a name, an image, and the rule and the byte where it is broken, or None."""
    with open(path, encoding="utf-8") as file:
        lines = file.read().split("\n")
    data = mnemonics.assembled("\n".join(line[len("image "):] for line in lines if line.startswith("image ")))
    image = Image(data)
    for line in lines:
        found = re.fullmatch(r"(?:(\d+) at (\w+) (\d+) (\w+)|accepted):(?: (.*))?", line)
        if found:
            rule = found[1] and (int(found[1]), place_of(image, *found.groups()[1:4])[0])
            yield line, changed(data, found[5] or ""), rule
        elif line and not line.startswith(("#", "image ")):
            sys.exit(f"broken_images: {line} is no row")


def sized(**counts):
    """An image with so many of each, in which nothing else is wrong."""
    few = {"exceptions": 0, "labels": 0, "words": 0, "objects": 0, "subprograms": 1, "tasks": 1, "rows": 0, **counts}
    parts = [f"exception E{number}" for number in range(few["exceptions"])] + [f"label l{number}" for number in range(few["labels"])]
    parts += ["word 0"] * few["words"] + ["object 10 - 0 0 0"] * few["objects"]
    for number in range(few["subprograms"]):
        parts.append(f"sub 4 - {number + 1} 0 0 0 1 RET 0 0 0")
    parts += [f"task T{number} 1 0" for number in range(few["tasks"])]
    parts += ["handler 0 1 0 1"] * few["rows"]
    if few["rows"]:
        parts = [part.replace("sub 4 - 1 0 0 0 1 RET 0 0 0", "sub 4 - 2 0 0 0 1 RET 0 0 0 RAISE 1 0 0") for part in parts]
    return mnemonics.assembled(" ".join(parts))


# How many of each an image may have, and the byte of their count; that of the ninth one, and where the predefined exceptions end in version 1.
LIMITS = [("subprograms", 193, 8), ("objects", 64, 10), ("tasks", 65, 12), ("exceptions", 32, 14), ("rows", 4_096, 16), ("labels", 1_024, 18), ("words", 8_192, 20)]
NINTH = 22
PREDEFINED_END = NINTH + 17 + 3 * 14


def at_limits():
    """Images with as many of each as there may be, and one more; words of the plain ones and of objects together; names and labels of each length at the edge."""
    for name, most, byte in LIMITS:
        yield f"{most} {name}", sized(**{name: most}), None
        yield f"{most + 1} {name}", sized(**{name: most + 1}), (47, byte)
    alone = "sub 4 - 1 0 0 0 0 RET 0 0 0 task T 1 0"
    for size, rule in [(1, None), (2, (47, PREDEFINED_END + 8 * 8_191 + 6))]:
        words = "word 0 " * 8_191 + f"object 10 - 0 0 {size} " + "own 0 " * size
        yield f"8,191 plain words and {size} of an object", mnemonics.assembled(words + alone), rule
    empty = mnemonics.assembled("label x " + alone)
    for name, text in [("label", "label {} "), ("exception", "exception {} ")]:
        yield f"{name} of 40 characters", mnemonics.assembled(text.format("A" * 40) + alone), None
        yield f"{name} of 41 characters", mnemonics.assembled(text.format("A" * 41) + alone), (47, PREDEFINED_END)
    yield "empty label", empty[:PREDEFINED_END] + b"\0" + empty[PREDEFINED_END + 2 :], (47, PREDEFINED_END)
    yield "no subprogram", mnemonics.assembled("task T 1 0"), (47, 6)
    yield "no task", mnemonics.assembled("sub 4 - 1 0 0 0 0 RET 0 0 0"), (47, 12)
    yield from attached()
    four = mnemonics.assembled(alone)
    yield "three exceptions", four[:15] + b"\3" + four[16 : PREDEFINED_END - 14] + four[PREDEFINED_END:], (47, 14)


def attached():
    """Images with handlers of interrupts: of each channel one at most, by rising channels, procedures without parameters and results of an object of the highest ceiling."""
    at = PREDEFINED_END + 2 + 8 + 2 * 13 + 8
    for attachments, rule in [
        ("1 1", None), ("8 1", None), ("3 1 5 1", None), (" ".join(f"{channel} 1" for channel in range(1, 9)), None),
        ("0 1", (47, at)), ("9 1", (47, at)), ("3 1 3 1", (47, at + 3)), ("3 1 2 1", (47, at + 3)), (" ".join(f"{channel} 1" for channel in range(1, 10)), (47, NINTH)),
        ("3 2", (45, at + 1)), ("3 65535", (45, at + 1)), ("3 0", (47, at + 1)),
    ]:  # fmt: skip
        yield f"attached {attachments}", with_handler(attachments), rule
    for what, changes in [("a lower ceiling", {"ceiling": 30}), ("a function", {"kind": 2}), ("a parameter", {"params": 1}), ("a result", {"results": 1})]:
        yield f"a handler with {what}", with_handler("3 1", **changes), (47, at + 1)
    handled = with_handler("3 1")
    yield "version 2 without attachments", handled[:NINTH] + bytes(2) + handled[NINTH + 2 : at] + handled[at + 3 :], (47, NINTH)


def with_handler(attachments, ceiling=31, kind=1, params=0, results=0):
    """An image of a return, with an object whose subprogram handles the lines of channels."""
    words = attachments.split()
    rows = " ".join(f"attach {channel} {subprogram}" for channel, subprogram in zip(words[::2], words[1::2]))
    body = "PUSH 0 0 0 RET 1 0 0" if results else "RET 0 0 0"
    return mnemonics.assembled(
        f"object {ceiling} - 0 0 0 sub 4 - 1 0 0 0 0 RET 0 0 0 sub {kind} 0 {2 + results} {params} {results} {params} {results} {body} task MAIN 15 0 {rows}"
    )


def told(program, path, data):
    """What the program leaves of the image: listed, and run for a thousand steps."""
    with open(path, "wb") as file:
        file.write(data)
    for words in (["list", path], ["run", path, os.devnull, "1000"]):
        run = subprocess.run([program, *words], capture_output=True, check=False)
        yield run.stdout, run.stderr, run.returncode


def wrong(program, path, data, rule):
    """What is wrong with what the program leaves of the image, or None."""
    if fault_of(data) != rule:
        return f"checks/image_rules.py finds {fault_of(data)}"
    listed, run = told(program, path, data)
    if rule:
        refused = (b"", b"image fault %d at byte %d\n" % rule, FAULTY)
        return None if listed == run == refused else f"leaves {listed} and {run}, not {refused}"
    is_run = run[2] in (ENDED, 3, 4, CUT, FAULTY) and not run[1] and run[0].endswith(b"\n")
    return None if listed[1:] == (b"", 0) and listed[0] and is_run else f"leaves {listed[1:]} and {run}"


def main():
    program, table, scratch = sys.argv[1:]
    os.makedirs(scratch, exist_ok=True)
    rows = [*table_of(table), *at_limits()]
    failed = 0
    for name, data, rule in rows:
        found = wrong(program, os.path.join(scratch, "broken.img"), data, rule)
        if found:
            failed += 1
            print(f"broken_images: {name}: {found}; it should be {rule or 'accepted'}", file=sys.stderr)
    accepted = sum(rule is None for _, _, rule in rows)
    print(f"broken_images: of {len(rows)} images {accepted} are taken, and {len(rows) - accepted} refused by the rule and at the field; {failed} wrong")
    return 1 if failed or not rows else 0


if __name__ == "__main__":
    sys.exit(main())
