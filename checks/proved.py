#!/usr/bin/env python3
"""Puts the proved program to bin/adarun, with a record of what it was made of.

usage: checks/proved.py sum            the sum of the text as it is, before the toolchain's gate
       checks/proved.py take SUM       after the gate has passed: puts there what it has made of the text with this sum

The record, bin/adarun.made, has a line for the text (crates.txt, HANDLES, the files of the program's crates but their README.md, and the toolchain) and one
for the program.
Where both lines are so, the program is proved and made of this text, and ./build has nothing to do.
"""

import hashlib
import os
import shutil
import subprocess
import sys

HERE = os.path.dirname(os.path.dirname(os.path.realpath(__file__)))
PROGRAM = "adarun_main"
PLACE = f"{HERE}/bin/adarun"
RECORD = f"{PLACE}.made"


def crates_of_the_program():
    """The crates that the program stands on, itself among them."""
    below = {}
    with open(f"{HERE}/crates.txt", encoding="utf-8") as lines:
        for line in lines:
            name, colon, names = line.split("#")[0].partition(":")
            if colon:
                below[name.split()[0]] = names.split()
    found, left = set(), [PROGRAM]
    while left:
        name = left.pop()
        if name in below and name not in found:
            found.add(name)
            left += below[name]
    return found


def files_below(folder, left_out):
    """The files below a folder in the order of their names, without these files and folders of its own."""
    for at, folders, files in os.walk(folder):
        top = at == folder
        folders[:] = sorted(name for name in folders if not (top and name in left_out))
        yield from (os.path.join(at, name) for name in sorted(files) if not (top and name in left_out))


def sum_of_file(path):
    with open(path, "rb") as file:
        return hashlib.sha256(file.read()).hexdigest()


def sum_of_text():
    """The sum of all that the program is made of: crates.txt, HANDLES, the files of its crates, and the toolchain."""
    version = subprocess.run(["rt", "version"], capture_output=True, text=True, check=False).stdout
    whole = hashlib.sha256(version.encode())
    paths = [f"{HERE}/crates.txt", f"{HERE}/HANDLES"]
    for name in sorted(crates_of_the_program()):
        paths += files_below(f"{HERE}/crates/{name}", ("out", "must-fail", "README.md"))
    for path in paths:
        whole.update(f"{os.path.relpath(path, HERE)} {sum_of_file(path)}\n".encode())
    return whole.hexdigest()


def record_of(text, program):
    return f"text {text}\nprogram {sum_of_file(program)}\n"


def is_current():
    """Whether the program there is proved and made of the text as it is."""
    try:
        with open(RECORD, encoding="utf-8") as record:
            return record.read() == record_of(sum_of_text(), PLACE)
    except OSError:
        return False


def take(made, text):
    """Puts the program there that was made of the text with this sum: whole or not at all, the record after it."""
    os.makedirs(os.path.dirname(PLACE), exist_ok=True)
    shutil.copy(made, f"{PLACE}.new")
    with open(f"{RECORD}.new", "w", encoding="utf-8") as record:
        record.write(record_of(text, f"{PLACE}.new"))
    os.replace(f"{PLACE}.new", PLACE)
    os.replace(f"{RECORD}.new", RECORD)


def main(words):
    match words:
        case ["sum"]:
            print(sum_of_text())
        case ["take", text]:
            take(f"{HERE}/crates/{PROGRAM}/out/{PROGRAM}", text)
        case _:
            return __doc__
    return 0


if __name__ == "__main__":
    sys.exit(main(sys.argv[1:]))
