"""What the benches of compiling share: texts of one kind of thing each, made as long as a size allows, and the instructions that a call takes, by callgrind."""
import os
import re
import subprocess

PROGRAM = os.path.join(os.path.dirname(os.path.abspath(__file__)), "..", "crates", "adarun_main", "out", "adarun_main")
SIZES = (32768, 65536)
HEAD = "pragma Profile (Ravenscar);\nwith Control_IO; use Control_IO;\n"
TAIL = "end App;\nwith App; procedure Main is begin {main} end Main;\n"


def package(specified="", body="", locals_="", statements="null;", main="null;"):
    """A package with these declarations and bodies, and with these declarations and statements in the procedure Run."""
    head = HEAD + f"package App is\nprocedure Run;\n{specified}end App;\npackage body App is\n{body}"
    return head + f"procedure Run is\n{locals_}begin\n{statements}\nend Run;\n{TAIL.format(main=main)}"


def of_count(make, count):
    """The text that `make` makes with so many things; it is given what writes a pattern once for each number, which stands in it for `#`."""
    return make(lambda pattern: "".join(pattern.replace("#", str(number)) for number in range(1, count + 1)))


def of_size(make, size):
    """The longest such text with at most so many bytes, and the number of its things."""
    low, high = 1, size
    while low < high:
        middle = (low + high + 1) // 2
        low, high = (middle, high) if len(of_count(make, middle)) <= size else (low, middle - 1)
    return of_count(make, low), low


def instructions(words, telling):
    """Instructions of the program's call with these words, and the line of its outputs of this form, or None."""
    run = subprocess.run(["valgrind", "--tool=callgrind", "--callgrind-out-file=/dev/null", PROGRAM, *words], capture_output=True, text=True)
    told = re.search(f"^({telling})$", run.stdout + run.stderr, re.MULTILINE)
    return int(re.search(r"Collected : (\d+)", run.stderr)[1]), told[1] if told else None
