#!/usr/bin/env python3
"""Runs small sources (docs/LANGUAGE.md, "Limits") that go as far as a small source may, each in another way, and compares what they write.

    small_sources.py PROGRAM SCRATCH

None may be refused for its size. That each is small is counted here: its tokens, and how many levels are open at once.
"""
import os
import re
import subprocess
import sys

TOKENS = 2_000
LEVELS = 16
WORDS = 64

TOKEN = re.compile(r'--[^\n]*|"[^"]*"|\w+|:=|=>|\.\.|/=|<=|>=|[^\s\w]')
HEAD = "pragma Profile (Ravenscar);\nwith Control_IO; use Control_IO;\npackage App is procedure Run; end App;\npackage body App is\n"
TAIL = "end App;\nwith App;\nprocedure Main is begin App.Run; end Main;\n"


def tokens_of(text):
    return [token for token in TOKEN.findall(text) if not token.startswith("--")]


def levels_of(text):
    """The most levels that are open at once: of parentheses, if expressions, and if, case, loop and block statements. A pragma's parentheses open none, nor does a body."""
    tokens = [token.lower() for token in tokens_of(re.sub(r"pragma[^;]*;", "", text))]
    most, opened, in_body = 0, [], False
    for at, token in enumerate(tokens):
        before, behind = tokens[at - 1] if at else "", tokens[at + 1] if at + 1 < len(tokens) else ""
        if token == "(":
            opened.append(token)
        elif token == ")":
            while opened.pop() != "(":
                pass
        elif token in ("if", "case", "for", "while", "declare") and before != "end":
            opened.append(token)
        elif token == "loop" and before != "end" and opened[-1:] not in (["for"], ["while"]):
            opened.append(token)
        elif token == "begin" and not in_body:
            in_body = True
        elif token == "begin" and opened[-1:] != ["declare"]:
            opened.append(token)
        elif token == "begin":
            opened[-1] = token
        elif token == "end" and behind in ("if", "case", "loop", ";"):
            opened.pop()
        elif token == "end":
            in_body = False
        most = max(most, len(opened))
    return most


def padded(before, after):
    """The text with as many null statements in between as make it as long as a small one may be."""
    room = TOKENS - len(tokens_of(HEAD + before + after + TAIL))
    assert room >= 0, before[:60]
    return HEAD + before + "null;\n" * (room // 2) + after + TAIL


def ended(*values):
    return "".join(f"0 MAIN n {value}\n" for value in values) + "ended at 0\n"


def counted_sums():
    many = 320
    return padded("procedure Run is\nX : Integer := 0;\nbegin\n" + "X := X + 1;\n" * many, 'Put ("n", X);\nend Run;\n'), ended(many)


def many_bodies():
    """As many subprograms as may be declared, each with as many words of a parameter as a small one may have."""
    bodies = "".join(f"procedure P{number} (A : V) is begin null; end P{number};\n" for number in range(1, 128))
    start = f"type V is array (1 .. {WORDS}) of Integer;\n" + bodies + "procedure Run is\nA : V;\nbegin\n"
    return padded(start, 'P1 (A);\nPut ("n", A (1));\nend Run;\n'), ended(-(2**63))


def many_tasks():
    """As many tasks as may be declared, each with as many words of objects as a small body may have."""
    tasks = range(1, 65)
    start = f"type V is array (1 .. {WORDS}) of Integer;\n" + "".join(f"task T{number};\n" for number in tasks)
    bodies = "".join(
        f'task body T{number} is\nA : V;\nbegin\nPut ("n", A ({WORDS}));\nend T{number};\n' for number in tasks
    )
    lines = "".join(f"0 T{number} n {-(2**63)}\n" for number in tasks)
    return padded(start + bodies + "procedure Run is\nbegin\n", 'Put ("n", 0);\nend Run;\n'), lines + ended(0)


def many_objects():
    """As many protected objects as may be declared, each with an entry."""
    objects = range(1, 65)
    start = "".join(f"protected P{number} is entry E; end P{number};\n" for number in objects)
    bodies = "".join(f"protected body P{number} is entry E when True is begin null; end E; end P{number};\n" for number in objects)
    return padded(start + bodies + "procedure Run is\nbegin\nP1.E;\nP64.E;\n", 'Put ("n", 0);\nend Run;\n'), ended(0)


def many_entries():
    """Protected objects, as many as there is room for, each with an entry that copies as many words in and back as a small body may have."""
    objects = range(1, 33)
    start = f"type V is array (1 .. {WORDS}) of Integer;\n" + "".join(f"protected P{number} is entry E (A : in out V); end P{number};\n" for number in objects)
    bodies = "".join(f"protected body P{number} is entry E (A : in out V) when True is begin A (1) := A (1) + 1; end E; end P{number};\n" for number in objects)
    calls = "".join(f"P{number}.E (A);\n" for number in objects)
    return padded(start + bodies + "procedure Run is\nA : V;\nbegin\nA (1) := 0;\n" + calls, 'Put ("n", A (1));\nend Run;\n'), ended(32)


FUNCTION = "function F (A, B, C, D, E, G, H, I : Integer) return Integer is begin return A + I; end F;\n"


def one_name_each(text):
    """A list of names in one declaration is not of the language: each has its own."""
    return re.sub(r"\((\w(?:, \w)+) : (\w+)\)", lambda m: "(" + "; ".join(f"{n} : {m[2]}" for n in m[1].split(", ")) + ")", text)


def deep_calls(levels, inside):
    """Calls of a function of eight parameters in one another, each as the last actual parameter behind seven, with two operands that wait."""
    return "1 + 1 * F (1, 0, 0, 0, 0, 0, 0, " * levels + inside + ")" * levels


def deep_operands():
    """Calls in calls in the last actual parameter of a procedure, which finds the words of all others on the operand stack."""
    levels = LEVELS - 1
    words = WORDS - 7
    start = (
        f"type V is array (1 .. {words}) of Integer;\n" + one_name_each(FUNCTION)
        + "procedure Q (A : V; B : Integer; C : Integer; D : Integer; E : Integer; G : Integer; H : Integer; I : Integer) is\nbegin\n"
        + 'Put ("n", I);\nend Q;\nprocedure Run is\nA : V;\nbegin\n'
        + "Q (A, 0, 0, 0, 0, 0, 0, " + deep_calls(levels, "7") + ");\n"
    )
    return padded(start, "end Run;\n"), ended(7 + 2 * levels)


def deep_conditions():
    """The same of conditions, in which four operands wait: of `and`, of a relation, of a sum and of a product."""
    opening = "(if B and 0 < 1 + 1 * F (1, 0, 0, 0, 0, 0, 0, "
    levels = LEVELS // 3
    start = (
        one_name_each(FUNCTION) + "procedure Run is\nX : Integer := 0;\nB : Boolean := True;\nbegin\nX := "
        + opening * levels + "7" + ") then 1 else 0)" * levels + ";\n"
    )
    return padded(start, 'Put ("n", X);\nend Run;\n'), ended(1)


def deep_statements():
    """Loops, if statements, case statements and blocks in one another."""
    forms = [
        ("for I{0} in {0} .. {0} loop\n", "end loop;\n"),
        ("if X < 100 then\n", "end if;\n"),
        ("case X is when 100 => null; when others =>\n", "end case;\n"),
        ("declare\nY{0} : Integer := X;\nbegin\n", "end;\n"),
    ]
    chosen = [forms[level % len(forms)] for level in range(LEVELS)]
    start = "procedure Run is\nX : Integer := 0;\nbegin\n" + "".join(form[0].format(level) for level, form in enumerate(chosen))
    return padded(start + "X := X + 1;\n", "".join(form[1] for form in reversed(chosen)) + 'Put ("n", X);\nend Run;\n'), ended(1)


def many_handlers():
    block = "begin\nX := X + 1;\nexception\nwhen others => null;\nend;\n"
    start = "procedure Run is\nX : Integer := 0;\nbegin\n"
    many = (TOKENS - len(tokens_of(HEAD + start + 'Put ("n", X); end Run;' + TAIL))) // len(tokens_of(block))
    return padded(start + block * many, 'Put ("n", X);\nend Run;\n'), ended(many)


def wide_arrays():
    """Arrays of the package, with as many words as there may be, chosen by an if expression."""
    start = (
        "type V is array (1 .. 1_024) of Integer;\n" + "".join(f"A{number} : V;\n" for number in range(1, 9))
        + "procedure Run is\nB : Boolean := False;\nbegin\nA2 (1_024) := 7;\nA3 (1_024) := 8;\nA1 := (if B then A2 elsif not B then (A3) else A4);\n"
    )
    return padded(start, 'Put ("n", A1 (1_024));\nend Run;\n'), ended(8)


SOURCES = [counted_sums, many_bodies, many_tasks, many_objects, many_entries, deep_operands, deep_conditions, deep_statements, many_handlers, wide_arrays]


def main():
    program, scratch = sys.argv[1:]
    right = 0
    for source in SOURCES:
        text, expected = source()
        assert TOKENS - 1 <= len(tokens_of(text)) <= TOKENS, (source.__name__, len(tokens_of(text)))
        assert levels_of(text) <= LEVELS, (source.__name__, levels_of(text))
        path = os.path.join(scratch, "small.adb")
        with open(path, "w", encoding="utf-8") as file:
            file.write(text)
        ran = subprocess.run([program, "go", path, "/dev/null", "1000000"], capture_output=True, text=True, check=False)
        right += ran.stdout == expected
        if ran.stdout != expected:
            print(f"small_sources: {source.__name__}: wrote {ran.stdout!r} {ran.stderr!r}", file=sys.stderr)
    print(f"small_sources: {right} of {len(SOURCES)} small sources write what they should")
    return 0 if right == len(SOURCES) else 1


sys.exit(main())
