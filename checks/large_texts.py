#!/usr/bin/env python3
"""Writes the longest and the deepest texts of each kind that the grammar in docs/LANGUAGE.md has.

`large_texts.py FOLDER` writes for each text NAME.adb, NAME.status, NAME.out and NAME.err: the source, the exit status, and what
standard output and standard error are to have (docs/FORMATS.md). A long text repeats one part as often as 65,536 bytes allow. A deep
text has 40 levels open at once, or 41, of which the last is refused at the token that opens it.
"""
import sys
from pathlib import Path

from shared import place_of

BYTES = 65536
LEVELS = 40
PRAGMA = "pragma Profile (Ravenscar);\n"
MAIN = "with App; procedure Main is begin App.P; end Main;"
LAST_LINE = "ended at 0"


def app(before, after, items="procedure P;"):
    """The frame of a text: what stands before its repeated part, and after it."""
    head = PRAGMA + "with Control_IO; use Control_IO;\npackage App is " + items + " end App;\npackage body App is\n"
    return head + before, after + " end App;\n" + MAIN


def statements(before="", after=""):
    return app("procedure P is begin\n" + before, after + "\nend P;")


def known(before="", after=""):
    """Statements that see a number, a truth value and a function, and a line with the number behind them."""
    visible = "X:Integer:=0; B:Boolean:=True; function F(A:Integer) return Integer; procedure P;"
    return app("function F(A:Integer) return Integer is begin return A; end F; procedure P is begin\n" + before, after + '\nPut ("n", X); end P;', visible)


def declarations(before="", after=""):
    return app("procedure P is\n" + before, after + "\nbegin null; end P;")


def items(before="", after=""):
    """Items of the package's specification."""
    head = PRAGMA + "package App is\n" + before
    return head, after + "\nprocedure P; end App;\npackage body App is procedure P is begin null; end P; end App;\n" + MAIN


def put(before="", after=""):
    return statements('Put ("n", ' + before, after + ");")


def assigned():
    return statements("X := ", ";")


def filled(frame, first, more):
    """The text with as many of `more` behind `first` as fit, and how many these are."""
    head, tail = frame
    count = (BYTES - len(head) - len(first) - len(tail)) // len(more)
    return head + first + more * count + tail, count


def lines(*values):
    return "".join(f"0 MAIN n {value}\n" for value in values) + LAST_LINE


def runs(name, frame, first, more, out):
    """A long text that runs, with what it writes, given how often its part is repeated."""
    text, count = filled(frame, first, more)
    return name, text, 0, out(count), ""


def fault_at(text, number, part, times=1):
    """The fault of this number where the part of the text stands for so many times."""
    at = -1
    for _ in range(times):
        at = text.index(part, at + 1)
    return f"fault {number} at {place_of(text, at)}"


def broken(name, frame, first, more, number, part, times=1):
    """A long text that is derived, and breaks this rule first."""
    text = filled(frame, first, more)[0]
    return name, text, 2, "", fault_at(text, number, part, times)


CHAINS = [
    runs("chain of +", put(), "1", "+1", lambda n: lines(n + 1)),
    runs("chain of -", put(), "0", "-1", lambda n: lines(-n)),
    runs("chain of *", put(), "2", "*1", lambda n: lines(2)),
    runs("chain of + in 39 parentheses", put("(" * 39, ")" * 39), "1", "+1", lambda n: lines(n + 1)),
] + [
    broken(f"chain of {name}", assigned(), "1", part, 10, "X :=")
    for name, part in [("divided", "/1"), ("mod", " mod 1"), ("rem", " rem 1")]
] + [
    broken(f"chain of {word}", assigned(), "X", f" {word} X", 10, "X :=") for word in ["and", "or", "xor", "and then", "or else"]
] + [
    broken(f"chain of relations by {name}", assigned(), f"1{sign}1", f" and 1{sign}1", 10, "X :=")
    for name, sign in [("equal", "="), ("unequal", "/="), ("less", "<"), ("less or equal", "<="), ("greater", ">"), ("greater or equal", ">=")]
]

CALLED = "package App is procedure P; end App; package body App is procedure P is begin null; end P; end App;\n"

ROWS = "type T is array (1..511) of Integer; procedure P;"

LISTS = [
    runs("null statements", statements(), "null;", "null;", lambda n: LAST_LINE),
    runs("lines", statements(), "", 'Put("n",7);', lambda n: lines(*[7] * n)),
    runs("calls of main", (PRAGMA + CALLED + "with App; procedure Main is begin ", "end Main;"), "", "App.P;", lambda n: LAST_LINE),
    runs("null statements of main", (PRAGMA + "procedure Main is begin ", "end Main;"), "null;", "null;", lambda n: LAST_LINE),
    broken("pragmas", (PRAGMA, "procedure Main is begin null; end Main;"), "", "pragma A(B);", 39, "A(B)"),
    broken("unit clauses", (PRAGMA, CALLED + MAIN), "", "with A;use A;", 10, "A;"),
    broken("declarations of procedures", items(), "", "procedure Q;", 18, "Q;"),
    broken("bodies", app("procedure P is begin null; end P;", ""), "", "procedure Q is begin null;end Q;", 18, "Q is", 2),
    broken("types", items(), "", "type T is range 1..2;", 11, "T is", 2),
    broken("subtypes", items(), "", "subtype T is S;", 10, "S;"),
    broken("exceptions", items(), "", "E:exception;", 11, "E:", 2),
    broken("objects", items(), "", "X:T;", 10, "T;"),
    broken("objects of a body", declarations(), "", "X:T;", 10, "T;"),
    broken("objects of a block", statements("declare ", "begin null; end;"), "", "X:T;", 10, "T;"),
    broken("blocks with objects of 511 words", app("procedure P is begin ", "end P;", ROWS), "", "declare X:T;begin null;end;", 23, "X:T", 2),
    broken("components", items("type R is record ", "end record;"), "X:T;", "X:T;", 10, "T;"),
    broken("tasks", items(), "", "task T;", 18, "T;"),
    broken("entries of a task", items("task T is ", "end T;"), "", "entry E;", 18, "T is"),
    broken("protected objects", items(), "", "protected T is end T;", 18, "T is"),
    broken("entries of a protected object", items("protected T is ", "end T;"), "", "entry E;", 18, "T is"),
    broken("subprograms of a protected object", items("protected T is ", "end T;"), "", "function Q return T;", 18, "T is"),
    broken("bodies of a protected object", app("protected body T is ", "end T; procedure P is begin null; end P;"), "", "entry E when X is begin null;end E;", 18, "T is"),
    broken("components of a protected object", items("protected T is private ", "end T;"), "", "X:T;", 18, "T is"),
    broken("formals", items("procedure Q(", ");"), "A:T", ";A:T", 18, "Q("),
    broken("arguments", statements("X(", ");"), "1", ",1", 10, "X("),
    broken("selectors", statements("X", ";"), "", ".X", 10, "X.X"),
    broken("attributes", statements("X", ";"), "", "'X", 10, "X'X"),
    broken("argument lists", statements("X", ";"), "", "(1)", 10, "X(1)"),
    broken("elsifs", statements("if X then null; ", "end if;"), "", "elsif X then null;", 10, "X then"),
    broken("elsifs of an if expression", statements("X:=(if X then 1 ", "else 1);"), "", "elsif X then 1 ", 10, "X:="),
    broken("alternatives", statements("case X is ", "end case;"), "when 1=>null;", "when 1=>null;", 17, "case"),
    broken("choices", statements("case X is when 1", "=>null; end case;"), "", "|1", 17, "case"),
    broken("handlers", statements("null; exception ", ""), "when A=>null;", "when A=>null;", 10, "A=>"),
    broken("choices of a handler", statements("null; exception when A", "=>null;"), "", "|A", 10, "A|"),
    broken("tokens of a select", statements("select ", "end select;"), "", "X ", 35, "select"),
    broken("relative delays", statements(), "", "delay 1;", 34, "delay"),
]


def deep(name, frame, opening, inside, closing, opens_at=0, each=1, breaks=None, ends=None):
    """The texts with 40 levels, and with one opening more.

    An opening opens `each` levels, the first of them by the token that stands `opens_at` bytes after the beginning of `opening`. The text with 40 levels runs,
    and `ends` has its exit status and what it writes; or it breaks the rule with the number in `breaks` first, at the part of the text there.
    """
    head, tail = frame
    count = LEVELS // each
    texts = [head + opening * times + inside + closing * times + tail for times in (count, count + 1)]
    fault = "fault 7 at " + place_of(texts[1], len(head) + len(opening) * count + opens_at)
    status, out, err = (*ends, "") if ends else (2, "", fault_at(texts[0], *breaks))
    return [(f"40 levels of {name}", texts[0], status, out, err), (f"41 levels of {name}", texts[1], 2, "", fault)]


def deep_parentheses():
    """Those of Put open the first level."""
    head, tail = put()
    texts = [head + "(" * levels + "7" + ")" * levels + tail for levels in (LEVELS - 1, LEVELS)]
    fault = "fault 7 at " + place_of(texts[1], len(head) + LEVELS - 1)
    return [("40 levels of parentheses in Put", texts[0], 0, lines(7), ""), ("41 levels of parentheses in Put", texts[1], 2, "", fault)]


def deep_formals():
    """Formals, which hold no level, inside 39 blocks and inside 40."""
    opening, inside, closing = "declare ", "protected T is procedure Q(A:T); end T; ", "begin null; end;"
    head, tail = statements()
    found = []
    for levels in (LEVELS - 1, LEVELS):
        outer = "begin " * (levels - 1)
        text = head + outer + opening + inside + closing + " end;" * (levels - 1) + tail
        found.append((text, len(head) + len(outer) + len(opening) + inside.index("(")))
    fault = "fault 7 at " + place_of(found[1][0], found[1][1])
    first = fault_at(found[0][0], 10, "T)")
    return [("40 levels, the last of formals", found[0][0], 2, "", first), ("41 levels, the last of formals", found[1][0], 2, "", fault)]


DEEP = [
    deep_parentheses(),
    deep("parentheses", statements("X:=", ";"), "(", "7", ")", breaks=(10, "X:=")),
    deep("if expressions", statements("X:=", ";"), "(if X then ", "7", " else 7)", each=2, breaks=(10, "X:=")),
    deep("arguments", statements("", ";"), "X(", "7", ")", 1, breaks=(10, "X(")),
    deep("if statements", statements(), "if X then ", "null;", "end if;", breaks=(10, "X then")),
    deep("else parts", statements(), "if X then null; else ", "null;", "end if;", breaks=(10, "X then")),
    deep("case statements", statements(), "case X is when 1=>", "null;", "end case;", breaks=(17, "case")),
    deep("loops", statements(), "loop ", "null;", "end loop;", ends=(5, "step limit at 0")),
    deep("while loops", statements(), "while X loop ", "null;", "end loop;", breaks=(10, "X loop")),
    deep("for loops", statements(), "for X in 1..2 loop ", "null;", "end loop;", breaks=(11, "X in", 2)),
    deep("blocks", statements(), "begin ", "null;", "end;", ends=(0, LAST_LINE)),
    deep("blocks with declarations", statements(), "declare X:T; begin ", "null;", "end;", breaks=(10, "T;")),
    deep("blocks in handlers", statements(), "begin null; exception when others=>", "null;", "end;", ends=(0, LAST_LINE)),
    deep("parentheses of a number", known("X:=", ";"), "(", "7", ")", ends=(0, lines(7))),
    deep("if expressions of numbers", known("X:=", ";"), "(if B then ", "7", " else 8)", each=2, ends=(0, lines(7))),
    deep("calls of a function", known("X:=", ";"), "F(", "7", ")", 1, ends=(0, lines(7))),
    deep("if statements that are run", known(), "if B then ", "X:=7;", "end if;", ends=(0, lines(7))),
    deep("else parts that are run", known(), "if not B then null; else ", "X:=7;", "end if;", ends=(0, lines(7))),
    deep("case statements that are run", known(), "case X is when 0=>", "X:=7;", "when others=>null; end case;", ends=(0, lines(7))),
    deep("while loops that are run", known(), "while B loop ", "X:=7;B:=False;", "end loop;", ends=(0, lines(7))),
    deep_formals(),
]


def main():
    folder = Path(sys.argv[1])
    folder.mkdir(parents=True, exist_ok=True)
    for name, text, status, out, err in CHAINS + LISTS + [row for rows in DEEP for row in rows]:
        assert len(text) <= BYTES, name
        for ending, content in [("adb", text), ("status", str(status)), ("out", out), ("err", err)]:
            (folder / f"{name}.{ending}").write_text(content)


if __name__ == "__main__":
    main()
