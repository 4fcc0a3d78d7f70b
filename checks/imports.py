#!/usr/bin/env python3
"""Sees that the files of a crate name those libraries alone that its line of crates.txt lists: `use X::` in code, `use Rattle.X.` in contracts, definitions and proofs.
What is missing is said on standard error; the status is 1 then. The prover says the same, but only once all crates below are proved.

usage: checks/imports.py, at the top of the repository"""

import glob
import re
import sys

GHOST = re.compile(r"^\s*(?:ghost |pub )*use Rattle\.(\w+)(?:[.; ]|$)", re.M)
CODE = re.compile(r"^\s*(?:pub )?use (\w+)::", re.M)
MODULE = re.compile(r"^(?:pub(?:\([^)]*\))? )?mod (\w+)", re.M)
OF_ALL = {"std", "core"}


def libraries():
    """What crates.txt lists for each crate."""
    with open("crates.txt", encoding="utf-8") as lines:
        rows = [line.split("#")[0].partition(":") for line in lines]
    return {name.strip(): set(used.split()) for name, colon, used in rows if colon}


def named_in(path):
    """The libraries and modules that a file names at the beginning of a path, without the modules that it declares itself."""
    with open(path, encoding="utf-8") as file:
        text = file.read()
    code = set(CODE.findall(text)) - set(MODULE.findall(text)) if path.endswith(".rt") else set()
    return code | set(GHOST.findall(text))


def main():
    used, files, lost = libraries(), 0, 0
    for crate, listed in used.items():
        known = listed | OF_ALL | {crate, "crate", "self", "super"}
        paths = [path for form in ("rt", "antt") for path in glob.glob(f"crates/{crate}/**/*.{form}", recursive=True) if "/out/" not in path]
        for path in sorted(paths):
            files += 1
            for name in sorted(named_in(path) - known):
                lost += 1
                print(f"imports: {path} names {name}, which crates.txt doesn't list for {crate}", file=sys.stderr)
    print(f"imports: {files} files name libraries, {lost} times one that crates.txt doesn't list")
    return 1 if lost else 0


if __name__ == "__main__":
    sys.exit(main())
