#!/usr/bin/env python3
"""Finds types, records and relations of specs/ that have the name of another crate's: a reader of contracts is to meet each such name with one meaning.

usage: checks/names.py, at the top of the repository. The exit status is 1 where there are any."""

import collections
import glob
import re
import sys

DECLARED = re.compile(r"\s*(?:abbrev |unfoldable |record |data |pub )*([A-Z][\w']*)(?=[ ({:])[^=]*?:")


def declared_in(path):
    with open(path, encoding="utf-8") as lines:
        for line in lines:
            found = DECLARED.match(line)
            # (a field or a constructor begins its line by itself, a declaration by one of these words)
            if found and re.match(r"\s*(?:abbrev|unfoldable|record|data|pub)\b", line):
                yield found[1]


def main():
    crates = collections.defaultdict(set)
    for path in sorted(glob.glob("crates/*/specs/**/*.antt", recursive=True)):
        for name in declared_in(path):
            crates[name].add(path)
    twice = {name: paths for name, paths in crates.items() if len({it.split("/")[1] for it in paths}) > 1}
    for name, paths in sorted(twice.items()):
        print(f"{name} is declared in {' and '.join(sorted(paths))}")
    print(f"names: {len(crates)} types, records and relations of specs, {len(twice)} of which have a name twice")
    return 1 if twice else 0


if __name__ == "__main__":
    sys.exit(main())
