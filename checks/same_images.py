#!/usr/bin/env python3
"""Compares the images that the tests have as bytes with those of the same words in checks/rows/images.txt, and the one that exclusion_main runs with the tests'.

    same_images.py
"""
import os
import re
import sys

import mnemonics
from rows import rows_of

HERE = os.path.dirname(os.path.abspath(__file__))
CONSTANT = re.compile(r'/// ([^\n]*)\.\nconst (\w+): &\[u8\] =\s*b"((?:[^"\\]|\\.)*)";', re.S)


def main():
    with open(os.path.join(HERE, "rows", "images.txt"), encoding="utf-8") as file:
        table = {row["name"].lower(): row for row in rows_of("images", file.read().split("\n"))}
    with open(os.path.join(HERE, "..", "crates", "crate_tests", "src", "worked_images.rt"), encoding="utf-8") as file:
        source = file.read()
    with open(os.path.join(HERE, "..", "crates", "exclusion_main", "data", "box.img"), "rb") as file:
        watched = file.read()
    constants = CONSTANT.findall(source)
    same = 0
    for words, name, text in constants:
        data = re.sub(r"\\\n\s*", "", text).encode("latin-1").decode("unicode_escape").encode("latin-1")
        row = table.get(words.lower())
        image = mnemonics.image_of("\n".join(row["image"]) if row else name.lower())
        lines = "".join(line + "\\n" for line in row["out"]) if row and name in re.search(r"WORKED.*", source, re.S)[0] else ""
        if data == image and lines in source and (name != "BOX" or data == watched):
            same += 1
        else:
            print(f"same_images: {name} is another image, or writes other lines", file=sys.stderr)
    print(f"same_images: {same} of {len(constants)} images of the tests are those of the table")
    return 0 if constants and same == len(constants) == source.count("&[u8] =") else 1


if __name__ == "__main__":
    sys.exit(main())
