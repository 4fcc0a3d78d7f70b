#!/usr/bin/env python3
"""Random texts of whole Ada 2012: what GNAT makes of each writes the lines that the program writes of the text lowered.

    beside_gnat.py PROGRAM COUNT [SEED]

The texts are those of campaigns/whole_texts.py, for seeds `SEED 1` to `SEED COUNT`. Each is compiled by GNAT as it is, with examples/gnat; `PROGRAM lower` and
`PROGRAM go` make lines of it here. A text that GNAT refuses, as it may where a value is known to be out of range, isn't counted; of those whose lowered text isn't
one of the language the faults are counted. Where lines differ, both are kept in a folder of the directory for temporary files. The status is 1 then."""

import os
import re
import shutil
import subprocess
import sys
import tempfile
from collections import Counter
from concurrent.futures import ThreadPoolExecutor

sys.dont_write_bytecode = True
HERE = os.path.dirname(os.path.realpath(__file__))
GNAT = os.path.join(HERE, "..", "examples", "gnat")
sys.path.insert(0, os.path.join(HERE, "campaigns"))

from whole_texts import text_of  # noqa: E402

LIMIT, SECONDS, PROCESSES = "5000000", 60, 2
PRAGMA = re.compile(r"^pragma Profile \(Ravenscar\);$", re.M)


def called(words, folder):
    return subprocess.run(words, cwd=folder, capture_output=True, text=True, timeout=SECONDS, check=False)


def lines_of_gnat(text, folder):
    """The lines of the text by GNAT, or none where it refuses the text."""
    source = os.path.join(folder, "text.ada")
    with open(source, "w", encoding="utf-8") as file:
        file.write(PRAGMA.sub("", text))
    called(["gnatchop", "-q", "-w", source], folder)
    if called(["gnatmake", "-q", "-gnat2012", "-gnatws", f"-I{GNAT}", "main.adb"], folder).returncode != 0:
        return None
    return called([os.path.join(folder, "main")], folder).stdout


def lines_here(program, text, folder):
    """The lines of the lowered text, and what is said where there are none."""
    source, lowered = os.path.join(folder, "whole.adb"), os.path.join(folder, "lowered.adb")
    with open(source, "w", encoding="utf-8") as file:
        file.write(text)
    written = called([program, "lower", source], folder)
    if written.returncode != 0:
        return None, written.stderr
    with open(lowered, "w", encoding="utf-8") as file:
        file.write(written.stdout)
    run = called([program, "go", lowered, "/dev/null", LIMIT], folder)
    return (None, run.stderr) if run.returncode == 2 else (run.stdout, run.stderr)


def tried(program, seed, folder):
    """What came of the text of a seed: a word, and what is to be shown of it."""
    place = os.path.join(folder, seed.replace(" ", "_"))
    os.makedirs(place)
    text = text_of(seed)
    try:
        expected = lines_of_gnat(text, place)
        if expected is None:
            return "refused by GNAT", "", place
        found, said = lines_here(program, text, place)
    except subprocess.TimeoutExpired:
        return "out of time", "", place
    if found is None:
        return "not of the language", said.split("\n")[0], place
    if found != expected:
        for name, lines in (("gnat.lines", expected), ("here.lines", found)):
            with open(os.path.join(place, name), "w", encoding="utf-8") as file:
                file.write(lines)
        return "different", seed, place
    return "same", "", place


def main(words):
    program, count = os.path.abspath(words[0]), int(words[1])
    seed = words[2] if len(words) > 2 else "whole"
    if shutil.which("gnatmake") is None:
        print("beside_gnat: GNAT isn't installed")
        return 0
    folder = tempfile.mkdtemp(prefix="beside-gnat-")
    came, faults = Counter(), Counter()
    with ThreadPoolExecutor(PROCESSES) as pool:
        for word, said, place in pool.map(lambda at: tried(program, f"{seed} {at}", folder), range(1, count + 1)):
            came[word] += 1
            if word == "not of the language":
                faults[re.sub(r"^.*?: ", "", re.sub(r"`[^`]*`", "`..`", said))] += 1
            if word == "different":
                print(f"beside_gnat: other lines, kept in {place}: seed {said!r}", flush=True)
            else:
                shutil.rmtree(place)
    if not came["different"]:
        os.rmdir(folder)
    print("beside_gnat: " + ", ".join(f"{many} {word}" for word, many in came.most_common()))
    for said, many in faults.most_common(12):
        print(f"  {many} times {said}")
    return 1 if came["different"] else 0


if __name__ == "__main__":
    sys.exit(main(sys.argv[1:]))
