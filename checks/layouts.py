#!/usr/bin/env python3
"""Compares the layouts that `format` writes with those made here by docs/FORMATS.md, "Layout", byte for byte: of the sources in the tables, of the examples, of
both texts that are shown there, and of each of these with its white space changed.

    layouts.py PROGRAM FOLDER EXAMPLES SCRATCH

FOLDER has the tables of rows.py, of which all count whose sources are compiled; EXAMPLES has programs NAME.adb. A layout has the tokens and comments of its text,
and is its own layout.
"""

import os
import random
import re
import subprocess
import sys

sys.path.insert(0, os.path.dirname(os.path.abspath(__file__)))
from traces import examples_of, read, rows_of, write  # noqa: E402

DOCUMENT = os.path.join(os.path.dirname(os.path.abspath(__file__)), "..", "docs", "FORMATS.md")
PIECE = re.compile(r'(--[^\n]*)|[A-Za-z][A-Za-z0-9_]*|[0-9][0-9_]*|"[^"\n]*"|=>|\.\.|:=|/=|<=|>=|[(),;:.\'+\-*/=<>|]')
WORDS = set(
    """abort abs abstract accept access aliased all and array at begin body case constant declare delay delta digits do else elsif end entry exception exit for
    function generic goto if in interface is limited loop mod new not null of or others out overriding package pragma private procedure protected raise range
    record rem renames requeue return reverse select separate some subtype synchronized tagged task terminate then type until use when while with xor""".split()
)
# What a token with which a statement or declaration begins opens.
OPENS_FIRST = {"declare": "declarations", "begin": "statements", "loop": "statements", "select": "statements", "else": "statements", "or": "statements",
               "exception": "alternatives", "private": "declarations"}
# What begins with these opens something at a later token.
OPENS_LATER = {"if": ("then", "statements"), "elsif": ("then", "statements"), "for": ("loop", "statements"), "while": ("loop", "statements"),
               "case": ("is", "alternatives"), "when": ("=>", "alternative"), "type": ("record", "components"), "subtype": ("record", "components")}
CLOSE_ONE = ("else", "or", "elsif", "exception", "private")
MOST, DEEPEST, STEP, FURTHER = 65_536, 100, 3, 2
SPACES = (b" ", b"  ", b"\t", b"     ", b"\n", b"\r\n", b"\n\n\n", b" \n  ")


def pieces_of(text):
    """The tokens and comments of a text, each with the white space before it; a comment has none at its end."""
    found, end = [], 0
    for piece in PIECE.finditer(text):
        found.append((text[end : piece.start()], piece[0].rstrip() if piece[1] else piece[0].lower(), piece[0].rstrip(), bool(piece[1])))
        end = piece.end()
    return found


def kind_of(token):
    """What of a token decides on spaces: a name, a number, a label, or the token itself."""
    if re.match(r"[a-z]", token):
        return token if token in WORDS else "name"
    return "number" if token[0].isdigit() else "label" if token[0] == '"' else token


class Layout:
    """How a text is laid out, token by token."""

    def __init__(self):
        self.open, self.first, self.previous, self.is_sign, self.out = [], None, "", False, ""

    def in_parentheses(self):
        return bool(self.open) and self.open[-1] == "("

    def closed(self, token):
        """How many of what is open a token closes."""
        if self.in_parentheses():
            return int(token == ")")
        last = self.open[-1] if self.open else None
        if self.first is not None:
            return 0
        if token == "end":
            return 1 + (last == "alternative")
        if token in CLOSE_ONE:
            return 1
        return int((token, last) in (("begin", "declarations"), ("when", "alternative")))

    def opened(self, token):
        """What a token opens."""
        if token == "(":
            return "("
        if self.in_parentheses():
            return None
        if self.first is None:
            return OPENS_FIRST.get(token)
        opener, construct = OPENS_LATER.get(self.first, ("is", "declarations"))
        return construct if token == opener and not (token == "then" and self.previous == "and") else None

    def columns(self, token):
        """Those before a line that begins with this token, or with a comment."""
        around = self.open[: max(0, len(self.open) - self.closed(token))]
        goes_on = self.first is not None and self.opened(token) in (None, "(")
        return STEP * min(DEEPEST, len([each for each in around if each != "("])) + FURTHER * goes_on

    def are_joined(self, token):
        """Whether no space is between the last token and this one."""
        before, this = kind_of(self.previous), kind_of(token)
        is_word = this == "name" or this in WORDS
        return (
            this in (")", ",", ";", "'") or before in ("(", "'") or (before == "." and is_word) or (this == "." and before in ("name", ")"))
            or (self.is_sign and this in ("name", "number", "("))
        )

    def put(self, white, columns, spaces, shown):
        lines = white.count("\n")
        if self.out:
            self.out += "\n" * min(lines, 2) + " " * columns if lines else " " * spaces
        self.out += shown

    def token(self, white, token, shown):
        keeps = token in (":", ":=", "=>")
        spaces = 0 if self.previous and self.are_joined(token) else max(1, len(white)) if keeps and self.previous else 1
        self.put(white, self.columns(token), spaces, shown)
        self.after(token)

    def after(self, token):
        """What is open after a token, and with which token the statement or declaration began that goes on."""
        opens, outside = self.opened(token), not self.in_parentheses()
        self.is_sign = token in ("+", "-") and kind_of(self.previous or "+") not in ("name", "number", "label", ")")
        del self.open[max(0, len(self.open) - self.closed(token)) :]
        self.open += [opens] if opens else []
        if outside and (token == ";" or opens not in (None, "(")):
            self.first = None
        elif outside and self.first is None:
            self.first = token
        self.previous = token

    def comment(self, white, shown, following):
        self.put(white, self.columns("when" if following == "when" else ""), max(1, len(white)), shown)


def layout_of(text):
    laid_out, pieces = Layout(), pieces_of(text)
    for at, (white, token, shown, is_comment) in enumerate(pieces):
        if is_comment:
            laid_out.comment(white, shown, next((other for _, other, _, remark in pieces[at:] if not remark), None))
        else:
            laid_out.token(white, token, shown)
    return laid_out.out + "\n" * bool(pieces)


def scattered(text, chance):
    """The text with other white space between its tokens, and after a comment a line feed at least."""
    out, was_comment = b"", True
    for white, token, shown, is_comment in pieces_of(text.decode("latin-1")):
        white = white.encode() if chance.random() < 0.5 else chance.choice(SPACES)
        out += (b"\n" if out and was_comment and b"\n" not in white else b"") + white + shown.encode("latin-1")
        was_comment = is_comment
    return out


def shown_texts():
    """Both texts of docs/FORMATS.md, side by side in its columns."""
    with open(DOCUMENT, encoding="utf-8") as file:
        lines = re.search(r"\n## Layout\n.*?\n\n((?:    [^\n]*\n)+)", file.read(), re.S)[1].splitlines()
    column = lines[0].index("procedure", 10)
    return "".join(f"{line[4:column].rstrip()}\n" for line in lines).encode(), "".join(f"{line[column:]}\n" for line in lines).encode()


class Comparer:
    """Formats texts with the program, and here."""

    def __init__(self, program, folder):
        self.program, self.folder, self.texts, self.wrong = os.path.abspath(program), folder, 0, []
        os.makedirs(folder)

    def call(self, command, *words, given=b""):
        left = subprocess.run([self.program, command, *words], cwd=self.folder, input=given, capture_output=True, check=False)
        return left.stdout, left.stderr, left.returncode

    def expect(self, name, left, expected):
        self.texts += 1
        if left != expected:
            self.wrong.append(f"{name}: {left} where {expected} is expected")

    def compare(self, name, text):
        """The layout of a text, and that of the layout."""
        expected = layout_of(text.decode("latin-1"))
        write(os.path.join(self.folder, "main.adb"), text)
        self.expect(name, self.call("format", "main.adb"), (expected.encode("latin-1"), b"", 0))
        self.expect(f"{name}, laid out", self.call("format", "-", given=expected.encode("latin-1")), (expected.encode("latin-1"), b"", 0))
        kept = [[(token, shown) for _, token, shown, _ in pieces_of(each)] for each in (text.decode("latin-1"), expected)]
        self.expect(f"{name}, its tokens and comments", kept[0], kept[1])

    def refused(self):
        """A text that is misspelled, of which `simulate` reports the same, and one whose layout is too long."""
        write(os.path.join(self.folder, "faulty.adb"), b"procedure Main is begin X := 1__2; end Main;\n")
        self.expect("a misspelled text", self.call("format", "faulty.adb"), self.call("simulate", "faulty.adb"))
        write(os.path.join(self.folder, "long.adb"), b"loop\n" * DEEPEST + b"null;\n" * (MOST // (STEP * DEEPEST)))
        self.expect("a long layout", self.call("format", "long.adb"), (b"", b"the layout has more than 65536 bytes\n", 1))


def main():
    program, folder, examples, scratch = sys.argv[1:]
    comparer, chance = Comparer(program, scratch), random.Random(1)
    texts = [(name, source) for name, source, _ in rows_of(folder)] + [(name, source) for name, source, _, _ in examples_of(examples)]
    written, laid_out = shown_texts()
    comparer.expect("the text that is shown", layout_of(written.decode()), laid_out.decode())
    for name, text in [*texts, ("no text", b""), ("the text that is shown", written)]:
        comparer.compare(name, text)
        comparer.compare(f"{name}, scattered", scattered(text, chance))
    comparer.refused()
    for told in comparer.wrong:
        print(f"layouts: {told}", file=sys.stderr)
    print(f"layouts: {len(texts)} sources, {comparer.texts} comparisons, {len(comparer.wrong)} wrong")
    sys.exit(1 if comparer.wrong else 0)


if __name__ == "__main__":
    main()
