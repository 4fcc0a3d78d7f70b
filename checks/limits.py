#!/usr/bin/env python3
"""Gives the program texts that just keep and just pass each limit on declarations, and the limits of code, and compares what it tells of each, and, where code
passes a limit, what `explain` tells of it besides.

    limits.py PROGRAM SCRATCH
"""
import os
import subprocess
import sys

from shared import place_of

# So many of each may be declared beside the procedure Run: their declaration and their body, where `#` stands for a number and the mark is where one too
# many is at fault.
LIMITS = [
    (64, "^task T#;", "task body T# is begin null; end T#;"),
    (64, "^protected P# is procedure Go; end P#;", "protected body P# is procedure Go is begin null; end Go; end P#;"),
    (32, "^E# : exception;", ""),
    (127, "^procedure P#;", "procedure P# is begin null; end P#;"),
    (127, "", "^procedure P# is begin null; end P#;"),
    (16, "type T# is array (1 .. 512) of Integer; ^V# : T#;", ""),
]

# Exceptions that a handler may name, beside the predefined ones, and rows and instructions of an image.
EXCEPTIONS = 32
ROWS = 4_096
INSTRUCTIONS = 65_535

# What the package declares and what its body has in front of a procedure Run, where the code of one body needs more words of its frame and its operand stack
# than a frame has, that of the name at the mark.
LARGE = "type Line is array (1 .. 300) of Integer; "
LARGE_BODIES = [
    ("procedure Go;", "procedure ^Go is A : Line; begin null; end Go;"),
    ("procedure Go; procedure Two;", "procedure Two is begin null; end Two; procedure ^Go is A : Line; begin null; end Go;"),
    ("procedure Go (A : in out Line);", "procedure ^Go (A : in out Line) is begin null; end Go;"),
    ("", "procedure Here is begin null; end Here; procedure ^There is A : Line; begin null; end There; procedure Behind is A : Line; begin null; end Behind;"),
    ("task T1;", "task body ^T1 is A : Line; begin null; end T1;"),
    (
        "protected Box is procedure One; entry Two; private Is_Open : Boolean := True; end Box;",
        "protected body Box is procedure One is begin null; end One; entry ^Two when Is_Open is A : Line; begin null; end Two; end Box;",
    ),
    (
        "protected Box is procedure One; procedure Two; end Box;",
        "protected body Box is procedure Two is begin null; end Two; procedure ^One is A : Line; begin null; end One; end Box;",
    ),
]

BLOCK = "declare A : Line; begin null; end;"


def each(count, pattern, text):
    """The text with the pattern of each number behind it, and the place of the last mark, if it has one."""
    mark = None
    for number in range(1, count + 1):
        line = pattern.replace("#", str(number)) + "\n"
        if "^" in line:
            mark = len(text) + line.index("^")
        text += line.replace("^", "")
    return text, mark


def program_of(count, declaration, body):
    """A program with so many of them, and the place where one too many would be at fault."""
    text, declared = each(count, declaration, "pragma Profile (Ravenscar);\npackage App is procedure Run;\n")
    text, mark = each(count, body, text + "end App;\npackage body App is\n")
    text += "procedure Run is begin null; end Run;\nend App;\nwith App; procedure Main is begin App.Run; end Main;\n"
    return text, mark if declared is None else declared


def handled(count):
    """A program with so many choices of handlers, each of which makes a row."""
    names = ["Constraint_Error", "Program_Error", "Storage_Error", "Tasking_Error"] + [f"E{number}" for number in range(1, EXCEPTIONS + 1)]
    text = "pragma Profile (Ravenscar);\npackage App is procedure Run;\n" + "".join(f"{name} : exception;\n" for name in names[4:])
    text += "end App;\npackage body App is\nprocedure Run is begin\n"
    while count > 0:
        text += "begin null; exception when " + " | ".join(names[:count]) + " => null; end;\n"
        count -= min(count, len(names))
    return text + "end Run;\nend App;\nwith App;\nprocedure Main is begin App.Run; end Main;\n"


def large(declared, bodies):
    """A program with these, and the place of the mark."""
    text = "pragma Profile (Ravenscar);\npackage App is " + LARGE + declared + " procedure Run; end App;\npackage body App is\n" + bodies
    text += "\nprocedure Run is begin null; end Run;\nend App;\nwith App;\nprocedure Main is begin App.Run; end Main;\n"
    return text.replace("^", ""), text.index("^")


def long(count):
    """A program with so many procedures with objects of 510 words in blocks beside each other and two calls, in one line each, beside Run."""
    text = "pragma Profile (Ravenscar);\npackage App is type Line is array (1 .. 255) of Integer; procedure Run; end App;\npackage body App is\n"
    for number in range(count):
        text += f"procedure P{number} is begin {BLOCK} {BLOCK} Run; Run; end P{number};\n"
    return text + "procedure Run is begin null; end Run;\nend App;\nwith App;\nprocedure Main is begin App.Run; end Main;\n"


def written(scratch, text):
    source = os.path.join(scratch, "limit.adb")
    with open(source, "w", encoding="utf-8") as file:
        file.write(text)
    return source


def told(program, scratch, text):
    """What the program tells of the text on standard error."""
    return subprocess.run([program, "go", written(scratch, text), "/dev/null", "100000"], capture_output=True, text=True, check=False).stderr


def besides(program, scratch, text):
    """What `explain` tells of the text beside what it tells of fault 23."""
    alone = subprocess.run([program, "explain", "23"], capture_output=True, text=True, check=True).stdout
    whole = subprocess.run([program, "explain", "23", written(scratch, text)], capture_output=True, text=True, check=True).stdout
    return whole[len(alone) :] if whole.startswith(alone) else whole


def instructions(program, scratch, text):
    """How many instructions the image of the text has."""
    image = os.path.join(scratch, "limit.img")
    subprocess.run([program, "compile", written(scratch, text), image], check=True)
    with open(image, "rb") as file:
        return int.from_bytes(file.read()[6:8], "big")


def frame_line(name, place):
    return f"\nthe code of {name} at {place} passes a limit: its frame and its operand stack may need more than 512 words\n"


def instructions_line(name, place, before):
    return f"\nthe code of {name} at {place} passes a limit: there may be more than {INSTRUCTIONS} instructions with the {before} before it\n"


def rows_line(name, place, rows):
    return f"\nthe handlers up to the end of {name} at {place} pass a limit: they have {rows} choices, and an image has at most {ROWS} rows of handlers\n"


def code_texts(program, scratch):
    """Texts whose code passes a limit, each by a name, and what is told of it besides."""
    for declared, bodies in LARGE_BODIES:
        text, mark = large(declared, bodies)
        name = text[mark:].replace(";", " ").split()[0].upper()
        yield f"`{bodies}`", text, frame_line(name, place_of(text, mark))
    text = handled(ROWS + 1)
    yield f"one more than {ROWS} rows", text, rows_line("RUN", place_of(text, text.index("Run is")), ROWS + 1)
    # each of the procedures has as many instructions as the first, and the one behind as many as fit passes the limit
    each_has = instructions(program, scratch, long(2)) - instructions(program, scratch, long(1))
    first = INSTRUCTIONS // each_has
    text = long(first + 1)
    yield "too many instructions", text, instructions_line(f"P{first}", place_of(text, text.index(f"P{first} is")), first * each_has)


def texts():
    """Each text by a name, with what is told of it: nothing of what is legal, which runs."""
    for most, declaration, body in LIMITS:
        name = f"{most} of `{declaration or body}`"
        kept, _ = program_of(most, declaration, body)
        yield name, kept, ""
        passed, mark = program_of(most + 1, declaration, body)
        yield "one more than " + name, passed, f"fault 23 at {place_of(passed, mark)}\n"
    yield f"{ROWS} rows", handled(ROWS), ""
    passed = handled(ROWS + 1)
    yield f"one more than {ROWS} rows", passed, f"fault 23 at {passed.count(chr(10))}:1\n"


def main():
    program, scratch = sys.argv[1:]
    right = many = 0
    for name, text, expected in texts():
        given = told(program, scratch, text)
        many += 1
        right += given == expected
        if given != expected:
            print(f"limits: {name}: told {given!r}", file=sys.stderr)
    for name, text, expected in code_texts(program, scratch):
        given = told(program, scratch, text), besides(program, scratch, text)
        many += 1
        right += given == (f"fault 23 at {text.count(chr(10))}:1\n", expected)
        if given != (f"fault 23 at {text.count(chr(10))}:1\n", expected):
            print(f"limits: {name}: told {given!r}", file=sys.stderr)
    print(f"limits: {right} of {many} texts are judged as they should be")
    return 0 if right == many else 1


if __name__ == "__main__":
    sys.exit(main())
