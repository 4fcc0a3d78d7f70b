#!/usr/bin/env python3
"""Tries edits that the prover must refuse, beside those that each gate tries: those of checks/more_edits/CRATE.

usage: checks/more_edits.py [--alone] [--lanes N] [CRATE..], at the top of the repository, after `rt ci`; all crates that have some where none is named, and N (1)
of them side by side

Contracts are modular: what a function must prove depends on its own body and on the contracts of what it calls. So edits of the bodies of different functions of a
crate are tried in one check of these functions, over the libraries that `rt ci` has built, and each is judged by what the check says of its own function. An edit
of anything else, one whose function is proved with it, and with --alone each, is tried by a check of the whole crate with this edit alone.

Each edit has a line with what is not proved with it. The exit status is 1 where one is not refused."""

import argparse
import concurrent.futures
import contextlib
import os
import re
import shutil
import subprocess
import sys
import tempfile

HERE = os.path.join("checks", "more_edits")
KIT = os.path.dirname(subprocess.run(["rt", "doc"], capture_output=True, text=True, check=True).stdout.strip())
HEAD = re.compile(r"( *)(?:pub(?:\([^)]*\))? )?(?:const )?(?:unsafe )?fn (\w+)")
OWNER = re.compile(r"(?:unsafe )?impl(?:<[^{]*?>)? (?:([\w:]+)(?:<[^{]*?>)? for )?(?:&(?:'\w+ )?(?:mut )?)?([\w:]+)")


def libraries():
    """What crates.txt says of each crate: the libraries that it uses."""
    with open("crates.txt", encoding="utf-8") as lines:
        rows = [line.split("#")[0].partition(":") for line in lines]
    return {name.split()[0]: used.split() for name, colon, used in rows if colon}


def below(crate, used):
    """The crates of the repository below a crate."""
    found, left = [], list(used[crate])
    while left:
        name = left.pop(0)
        if name in used and name not in found:
            found.append(name)
            left += used[name]
    return found


def prover(crate, used):
    """The words of a check of the crate over the libraries that `rt ci` has built."""
    extern = [("std", f"{KIT}/rlibs/std.rlib")]
    extern += [(it, f"crates/{it}/out/rlib/{it}.rlib" if it in used else f"{KIT}/rlibs/{it}.rlib") for it in used[crate]]
    folders = [f"{KIT}/rlibs", *[f"crates/{it}/out/rlib" for it in below(crate, used)]]
    words = [f"{KIT}/bin/rattle", "check", "--crate-name", crate, "src/lib.rt"]
    words += [word for name, path in extern for word in ("--extern", f"{name}={os.path.abspath(path)}")]
    words += [word for path in folders for word in ("-L", f"dependency={os.path.abspath(path)}")]
    return words + ["--antt-project", f"{KIT}/rattle/logic/antt-project.json", "--logic-built", f"{KIT}/logic_built", "--links", f"{crate}="]


def function_at(rows, at):
    """The lines from the head of the function whose body has this line to its end, and its name after its type and trait; None where no body has it."""
    heads = [number for number in range(at + 1) if HEAD.match(rows[number])]
    if not heads:
        return None
    first = heads[-1]
    indent, name = HEAD.match(rows[first]).groups()
    ends = [number for number in range(first, len(rows)) if rows[number] == f"{indent}}}"]
    bodies = [number for number in range(first, len(rows)) if rows[number] == f"{indent}{{" or (number == first and rows[number].endswith("{"))]
    if not ends or not bodies or not bodies[0] <= at <= ends[0]:
        return None
    owners = [OWNER.match(rows[number]) for number in range(first) if rows[number].startswith(("impl", "unsafe impl"))] if indent else []
    owner = "".join(part.split("::")[-1] for part in reversed(owners[-1].groups()) if part) + "::" if owners else ""
    return range(first, ends[0] + 1), owner + name


class Edit:
    """An edit: what it replaces, and the functions whose bodies it changes, None where it changes something else."""

    def __init__(self, crate, name):
        self.crate, self.name, self.pairs = crate, name, []
        path = old = None
        with open(os.path.join(HERE, crate, name), encoding="utf-8") as lines:
            for line in lines.read().split("\n"):
                if line.startswith("file: "):
                    path = line[len("file: ") :].strip()
                elif line.startswith("old: "):
                    old = line[len("old: ") :]
                elif line.startswith("new:"):
                    self.pairs.append((path, old, line[len("new:") :].removeprefix(" ")))
        found = [self.function(path, old) for path, old, _ in self.pairs]
        self.functions = None if None in found else dict(found)

    def function(self, path, old):
        with open(f"crates/{self.crate}/{path}", encoding="utf-8") as file:
            text = file.read()
        if not path.startswith("src/") or text.count(old) != 1:
            return None
        found = function_at(text.split("\n"), text[: text.index(old)].count("\n"))
        if not found:
            return None
        # a method is named by the module of its type, which another file may have
        module = [] if "::" in found[1] else [it for it in path[len("src/") : -len(".rt")].split("/") if it not in ("lib", "mod")]
        return "::".join([*module, found[1]]), (path, found[0])

    def apply(self, folder):
        for path, old, new in self.pairs:
            with open(f"{folder}/{path}", encoding="utf-8") as file:
                text = file.read()
            with open(f"{folder}/{path}", "w", encoding="utf-8") as file:
                file.write(text.replace(old, new))

    def refusal(self, said):
        """What a check says that it could not prove of the edit's functions; None where it has proved them."""
        for name in self.functions:
            verdict = re.search(rf"^fn (?:.*, )?{self.crate}::(?:\w+::)*{re.escape(name)}(?:, .*)?: (no proof|not proved)(.*)", said, re.M)
            goal = verdict and self.goal_of(name, verdict[2], said)
            if goal:
                return f"{name}: `{goal}`"
        return None

    def goal_of(self, name, verdict, said):
        """What is not proved of a function: by its verdict, by its lines or its proof, or by its goals in the proof of a cycle of calls; None where nothing says it."""
        found = re.search(r"did not prove `(.*?)`", verdict) or re.search(self.place_of(name) + r".*?`(.*?)`", said, re.M)
        if found:
            return found[1]
        own = re.findall(rf"^\./proofs/\S*\+\S*: error: `({re.escape(name.split('::')[-1])}-[^`]*)`: (.*)", said, re.M)
        return next((goal for goal, why in own if "that can be named from here" not in why and "has no field" not in why), None)

    def place_of(self, name):
        """A pattern for the beginning of what is said of a line of the function, or of its proof."""
        path, rows = self.functions[name]
        lines = "|".join(str(row + 1) for row in rows)
        proof = "proofs/(?:\\w+/)*" + name.replace("::", "/")
        return rf"^(?:note: )?(?:\./)?(?:{re.escape(path)}:(?:{lines})|{proof}/\w+\.antt:\d+):\d+: "


def groups_of(edits):
    """The edits of bodies in groups, in each of which no two change one function."""
    groups = []
    for edit in edits:
        fits = [group for group in groups if not any(edit.functions.keys() & other.functions.keys() for other in group)]
        if fits:
            fits[0].append(edit)
        else:
            groups.append([edit])
    return groups


def check_together(crate, edits, used):
    """What a check says of the functions of these edits with all of them."""
    with tempfile.TemporaryDirectory() as folder:
        for part in ("src", "specs", "proofs"):
            if os.path.isdir(f"crates/{crate}/{part}"):
                shutil.copytree(f"crates/{crate}/{part}", f"{folder}/{part}")
        for edit in edits:
            edit.apply(folder)
        names = [word for edit in edits for name in edit.functions for word in ("--only", name)]
        run = subprocess.run([*prover(crate, used), *names], cwd=folder, stdout=subprocess.PIPE, stderr=subprocess.STDOUT, text=True, errors="replace", check=False)
    return run.stdout


@contextlib.contextmanager
def placed(edit):
    """Has the edit in the crate's must-fail/ for a time."""
    to = os.path.join("crates", edit.crate, "must-fail", edit.name)
    if os.path.exists(to):
        sys.exit(f"{to} stands already")
    os.makedirs(os.path.dirname(to), exist_ok=True)
    shutil.copyfile(os.path.join(HERE, edit.crate, edit.name), to)
    try:
        yield
    finally:
        os.remove(to)
        if not os.listdir(os.path.dirname(to)):
            os.rmdir(os.path.dirname(to))


def refusal_alone(edit):
    """What `rt must-fail` says of the edit; None where it is not refused."""
    with placed(edit):
        said = subprocess.run(["rt", "must-fail", edit.crate], stdout=subprocess.PIPE, text=True, check=False).stdout
    found = re.search(rf"^(?:rt: )?must-fail {edit.crate}/{re.escape(edit.name)}: refused, as it must be(.*)", said, re.M)
    return None if not found else f"alone{found[1]}"


def tried(crate, is_alone, used):
    """Each edit of the crate with what refuses it."""
    edits = [Edit(crate, name) for name in sorted(os.listdir(os.path.join(HERE, crate)))]
    found = {}
    for group in [] if is_alone else groups_of([edit for edit in edits if edit.functions]):
        said = check_together(crate, group, used)
        found |= {edit.name: edit.refusal(said) for edit in group}
    return [(edit, found.get(edit.name) or refusal_alone(edit)) for edit in edits]


def main():
    parser = argparse.ArgumentParser()
    parser.add_argument("--alone", action="store_true")
    parser.add_argument("--lanes", type=int, default=1, metavar="N")
    parser.add_argument("crates", nargs="*", metavar="CRATE")
    words = parser.parse_args()
    used, count, lost = libraries(), 0, 0
    crates = words.crates or sorted(os.listdir(HERE))
    with concurrent.futures.ThreadPoolExecutor(words.lanes) as lanes:
        for crate, edits in zip(crates, lanes.map(lambda crate: tried(crate, words.alone, used), crates)):
            for edit, why in edits:
                count, lost = count + 1, lost + (why is None)
                print(f"{crate} {edit.name.removesuffix('.edit')}: {'NOT REFUSED' if why is None else why}", flush=True)
    print(f"more edits: {count - lost} of {count} refused")
    return 1 if lost else 0


if __name__ == "__main__":
    sys.exit(main())
