#!/usr/bin/env python3
"""Lists the definitions that the headline's clause reaches, by the names in them, with their lines: what a reader of docs/PROOF.md has to believe.

    definitions.py                        the rows, one for each file of definitions, and one for the types of each crate's code
    definitions.py docs/DEFINITIONS.md    compares them with the rows that stand there between the two marks, and says what differs; the status is 1 then

A definition is what stands between its head and the next one in a file of specs/, comments aside. A type of the code counts with the lines of its declaration.
"""
import os
import re
import sys

HERE = os.path.join(os.path.dirname(os.path.abspath(__file__)), "..", "crates")
START = ("adarun", "specs/Headline.antt", "WritesItsMeaning")
BEGIN, END = "<!-- definitions -->", "<!-- end of definitions -->"
CONTAINER = re.compile(r"(\s*)(?:abbrev )?(?:module\b.*where|mutual)\s*$")
HEAD = re.compile(r"(\s*)(?:abbrev |unfoldable |pub )*(?:(?:record|data) )?([^\s:(){}=]+)(?= .*:|(?: [({].*)? where)")
NAME = re.compile(r"[^\s(){}\[\],;λ∷→×]+")
TYPE = re.compile(r"pub(?:\(crate\))? (?:struct|enum|type|const) (\w+)")


def text_of(path):
    with open(path, encoding="utf-8") as file:
        return file.read().split("\n")


class Specs:
    """A file of definitions: each by its name, as lines without comments, and what its imports name."""

    def __init__(self, path):
        self.blocks, self.imports, self.modules = {}, {}, {}
        current, depth = None, -1
        for line in text_of(path):
            if line.startswith(("use ", "pub use ")):
                self.read_import(line)
                continue
            if not line.strip() or line.strip().startswith("--"):
                continue
            indent = len(line) - len(line.lstrip())
            if CONTAINER.fullmatch(line):
                current, depth = None, indent
                continue
            head = HEAD.match(line)
            if head and (current is None or indent <= depth) and not self.is_clause(line, current):
                current, depth = head[2], indent
                self.blocks.setdefault(current, [])
            if current is not None:
                self.blocks[current].append(line)

    @staticmethod
    def is_clause(line, current):
        """Whether the line goes on with the definition whose head was last."""
        return current is not None and line.split()[0] == current

    def read_import(self, line):
        path = line.split("use ", 1)[1].strip()
        if ".{" in path:
            module, names = path.split(".{")
            for name in names.rstrip("}").split(","):
                old, _, new = name.strip().partition(" as ")
                self.imports[new or old] = (module, old)
        elif " as " in path:
            module, new = path.split(" as ")
            self.modules[new] = module

    def block_of(self, name):
        """The definition of the name, or the one among whose constructors it is."""
        if name in self.blocks:
            return name
        if not name[:1].isupper():
            return None
        word = re.compile(rf"\s+(?:\S+ )*{re.escape(name)} (?:\S+ )*: ")
        return next((it for it, lines in self.blocks.items() if " data " in f" {lines[0]}" and any(word.match(line) for line in lines[1:])), None)

    def names_in(self, name):
        """The names in a definition; that of an argument counts too, where a definition of the file or of its imports has it."""
        return {word for line in self.blocks[name] for word in NAME.findall(line)}


class Closure:
    """The definitions that are reached, by crate and file."""

    def __init__(self):
        self.files, self.sizes = {}, {}
        self.left = []

    def specs(self, crate, file):
        path = f"{HERE}/{crate}/{file}"
        if path not in self.files:
            self.files[path] = Specs(path) if os.path.isfile(path) else None
        return self.files[path]

    def reach(self, module, name):
        """The name of a module whose path begins with Rattle."""
        parts = module.split(".")
        at = max((k for k, part in enumerate(parts) if part == "specs"), default=0)
        crate, rest = parts[at - 1], parts[at + 1 :]
        if at == 0 or not os.path.isdir(f"{HERE}/{crate}") or not rest:
            return
        if rest[0] == "declared":
            self.reach_type(crate, rest[1:], name)
        else:
            self.add(crate, f"specs/{'/'.join(rest)}.antt", name)

    def reach_type(self, crate, parts, name):
        wanted = parts[-1] if parts[-1] == "TheVariants" or parts[-1] == "TheConstants" else None
        names = {parts[-2] if wanted == "TheVariants" else name, name}
        for folder, _, files in os.walk(f"{HERE}/{crate}/src"):
            for file in sorted(files):
                path = f"{folder}/{file}"
                for found, lines in types_of(path):
                    if found in names:
                        self.sizes[crate, os.path.relpath(path, f"{HERE}/{crate}"), found] = lines

    def add(self, crate, file, name):
        specs = self.specs(crate, file)
        block = specs and specs.block_of(name)
        if not block or (crate, file, block) in self.sizes:
            return
        self.sizes[crate, file, block] = len(specs.blocks[block])
        self.left.append((crate, file, specs, block))

    def run(self):
        self.add(*START)
        while self.left:
            crate, file, specs, name = self.left.pop()
            for word in specs.names_in(name):
                first, _, rest = word.partition(".")
                if first in specs.modules and rest:
                    self.reach(specs.modules[first], rest.split(".")[0])
                elif first in specs.imports:
                    self.reach(*specs.imports[first])
                else:
                    self.add(crate, file, first)


def types_of(path):
    """The types and constants that a file of code declares, with their lines."""
    if not path.endswith(".rt"):
        return
    lines = text_of(path)
    for number, line in enumerate(lines):
        found = TYPE.match(line)
        if found:
            count = 1
            if not line.rstrip().endswith((";", "}")):
                while not lines[number + count].startswith("}"):
                    count += 1
                count += 1
            yield found[1], count


def rows():
    """For each file, or for the types of a crate's code together: its name, how many definitions are reached, and their lines."""
    closure = Closure()
    closure.run()
    found = {}
    for (crate, file, _), lines in closure.sizes.items():
        stem = os.path.splitext(file)[0]
        found.setdefault((crate, stem if stem.startswith("specs/") else "src"), []).append(lines)
    order = [line.split(":")[0] for line in text_of(f"{HERE}/../crates.txt") if ":" in line and not line.startswith("#")]
    for (crate, file), lines in sorted(found.items(), key=lambda it: (order.index(it[0][0]), it[0][1])):
        yield f"{crate}/{file}", len(lines), sum(lines)
    yield "all", len(closure.sizes), sum(closure.sizes.values())


def stored_rows(path):
    """The same rows as a document has them, each with a word on what it states behind the numbers."""
    lines = text_of(path)
    for line in lines[lines.index(BEGIN) + 1 : lines.index(END)]:
        cells = [cell.strip() for cell in line.split("|")]
        if len(cells) > 4 and cells[2].isdigit():
            yield cells[1], int(cells[2]), int(cells[3])


def main():
    made = list(rows())
    if len(sys.argv) == 1:
        for name, definitions, lines in made:
            print(f"| {name} | {definitions} | {lines} | |")
        return 0
    stored = list(stored_rows(sys.argv[1]))
    for row in made:
        if row not in stored:
            print(f"definitions: not in {sys.argv[1]}: {row}", file=sys.stderr)
    for row in stored:
        if row not in made:
            print(f"definitions: in {sys.argv[1]} alone: {row}", file=sys.stderr)
    print(f"definitions: {made[-1][1]} definitions in {made[-1][2]} lines are reached by the headline's clause")
    return 0 if made == stored else 1


if __name__ == "__main__":
    sys.exit(main())
