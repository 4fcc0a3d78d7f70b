#!/usr/bin/env python3
"""Each clause, function, file and edit that the tables of a crate's README.md name exists, and each file and function that the
tables of docs/PROOF.md and docs/DEFINITIONS.md name by their crate. The version of the program is that of docs/FORMATS.md and CHANGELOG.md.

    tables.py

A row of "What is proved" names functions in backquotes, with their clauses after a colon or in brackets, and edits in its last column, those of
checks/more_edits with `(more)`. They are of the crate itself, or, where it has none of this name, of another one: some READMEs speak of their neighbours. A row
of "Definitions" names a file of specs/. What is missing is said on standard error; the status is 1 then.
"""
import glob
import os
import re
import sys

HERE = os.path.join(os.path.dirname(os.path.abspath(__file__)), "..")
FUNCTION = re.compile(r"\s*(?:pub(?:\([^)]*\))? )?(?:const )?fn (\w+)")
ITEM = re.compile(r"\s*(?:pub(?:\([^)]*\))? )?(?:struct|enum|trait|const|type|mod) (\w+)")
DEFINITION = re.compile(r"\s*(?:abbrev |unfoldable )*pub (?:record |data )?([\w-]+) ")
CLAUSE = re.compile(r"\s*(?:ensures|requires)(?: ok)? (\w+) \{")
NAMED = re.compile(r"`([\w:]+)`")
EDIT = re.compile(r"([a-z][a-z0-9]*(?:_[a-z0-9]+)+)(?: \((more)\))?")
FILE = re.compile(r"\b([a-z_]+)/((?:specs|proofs|src)/\w+)")


def lines_of(path):
    with open(path, encoding="utf-8") as file:
        return file.read().split("\n")


class Crate:
    """The functions of a crate with the names of their clauses, its other items, and its definitions with their fields."""

    def __init__(self, name):
        self.folder = f"{HERE}/crates/{name}"
        self.functions, self.items, self.definitions = {}, set(), set()
        for path in glob.glob(f"{self.folder}/src/**/*.rt", recursive=True):
            self.items.add(os.path.splitext(os.path.basename(path))[0])
            self.read(path)
        for path in glob.glob(f"{self.folder}/specs/**/*.antt", recursive=True):
            self.definitions.update(found[1] for found in map(DEFINITION.match, lines_of(path)) if found)

    def read(self, path):
        clauses = set()
        for line in lines_of(path):
            function, clause, item = FUNCTION.match(line), CLAUSE.match(line), ITEM.match(line)
            if function:
                clauses = self.functions.setdefault(function[1], set())
            elif clause:
                clauses.add(clause[1])
            elif item:
                self.items.add(item[1])

    def has(self, name):
        return name in self.functions or name in self.items or name in self.definitions

    def has_edit(self, name, is_more):
        crate = os.path.basename(self.folder)
        return os.path.isfile(f"{HERE}/checks/more_edits/{crate}/{name}.edit" if is_more else f"{self.folder}/must-fail/{name}.edit")


class Tables:
    """The tables of all documents, and what they name that is not there."""

    def __init__(self):
        self.crates = {name: Crate(name) for name in sorted(os.listdir(f"{HERE}/crates")) if os.path.isdir(f"{HERE}/crates/{name}/src")}
        self.missing, self.looked_at, self.owners = [], 0, []

    def expect(self, holds, where, what):
        self.looked_at += 1
        if not holds:
            self.missing.append(f"{where}: {what}")

    def holders(self, path, crate):
        """The crates that have a function or another item of this name: the one that the path names, or this one, or else any."""
        *front, name = path.split("::")
        first = self.crates[front.pop(0)] if front and front[0] in self.crates else self.crates[crate]
        owners = [it for it in self.crates.values() if it.has(name) and all(it.has(word) for word in front)]
        return [first] if first in owners else owners

    def contracts(self, where, crate, cell):
        """A cell of functions, each with its clauses: in brackets or behind a colon. `the same` are those of the cell in front."""
        for part in cell.split(";"):
            plain = re.search(r"`: ([\w, ]+)$", part.strip())
            clauses = [*NAMED.findall(" ".join(re.findall(r"\(([^)]*)\)", part))), *(it.strip() for it in (plain[1].split(",") if plain else []))]
            functions = NAMED.findall(re.sub(r"\([^)]*\)", "", part))
            for name in functions:
                self.expect(self.holders(name, crate), where, f"`{name}`")
            if functions:
                self.owners = [(holder, name.split("::")[-1]) for name in functions for holder in self.holders(name, crate)]
            for clause in clauses:
                is_known = any(clause in holder.functions.get(name, ()) or clause in holder.definitions or clause in holder.functions for holder, name in self.owners)
                self.expect(is_known, where, f"clause {clause} of {', '.join(functions) or 'the same'}")

    def edits(self, where, cell):
        for name, more in EDIT.findall(cell):
            self.expect(any(it.has_edit(name, bool(more)) for it in self.crates.values()), where, f"edit {name}{' (more)' if more else ''}")

    def readme(self, crate):
        """The tables of one crate's README.md."""
        where, head = f"crates/{crate}/README.md", []
        for line in lines_of(f"{HERE}/{where}"):
            cells = [cell.strip() for cell in line.strip("|").split("|")] if line.startswith("|") else []
            if not cells:
                head = []
            elif not head:
                head = cells
            elif "contract" in head and len(cells) == len(head):
                self.contracts(where, crate, cells[head.index("contract")])
                if "edits" in head and not cells[-1].startswith("laws"):
                    self.edits(where, cells[head.index("edits")])
            elif head[0] == "specs" and not cells[0].startswith("-"):
                for name in re.findall(r"(?:[a-z_]+/)?[A-Z]\w+", cells[0].split(":")[0]):
                    self.expect(os.path.isfile(f"{HERE}/crates/{crate}/specs/{name}.antt"), where, f"specs/{name}")

    def proof(self, where):
        """The files and the functions that the tables of a document name by their crate."""
        for line in lines_of(f"{HERE}/{where}"):
            if not line.startswith("|"):
                continue
            for crate, path in FILE.findall(line):
                found = glob.glob(f"{HERE}/crates/{crate}/{path}*")
                self.expect(crate not in self.crates or found, where, f"{crate}/{path}")
            for name in NAMED.findall(line):
                crate = name.split("::")[0]
                if "::" in name and crate in self.crates:
                    self.expect(self.holders(name, crate), where, f"`{name}`")


    def version(self):
        """The number of the version, which the program, docs/FORMATS.md and CHANGELOG.md have alike."""
        number = re.search(r'VERSION: &str = "adarun (\S+)\\n"', "\n".join(lines_of(f"{HERE}/crates/manual/src/lib.rt")))[1]
        latest = next(line for line in lines_of(f"{HERE}/CHANGELOG.md") if line.startswith("## "))
        self.expect(re.match(rf"## {re.escape(number)}(?![.\w])", latest), "CHANGELOG.md", f"version {number} at the first heading")
        self.expect(any(f"of adarun {number}," in line for line in lines_of(f"{HERE}/docs/FORMATS.md")), "docs/FORMATS.md", f"adarun {number}")


def main():
    tables = Tables()
    for crate in tables.crates:
        tables.readme(crate)
    tables.version()
    for document in ("docs/PROOF.md", "docs/DEFINITIONS.md"):
        tables.proof(document)
    for line in tables.missing:
        print(f"tables: {line}", file=sys.stderr)
    print(f"tables: {tables.looked_at} names of clauses, functions, files and edits, {len(tables.missing)} missing")
    return 1 if tables.missing else 0


if __name__ == "__main__":
    sys.exit(main())
