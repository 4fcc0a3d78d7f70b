"""Makes a text that shows a difference smaller, as long as it shows one: without all that mentions a name, without statements and bodies, lines and words."""
import re
import time

SECONDS = 120
NAME = re.compile(rb"[A-Za-z]\w*")


def depth_of(line):
    return len(line) - len(line.lstrip(b" "))


def group_of(lines, at):
    """Where what begins on a line ends: a line with a semicolon at its end is whole, another one goes up to the `end` that is as deep."""
    if lines[at].endswith(b";"):
        return at + 1
    for after in range(at + 1, len(lines)):
        if depth_of(lines[after]) < depth_of(lines[at]):
            return after
        if depth_of(lines[after]) == depth_of(lines[at]) and lines[after].lstrip().startswith(b"end"):
            return after + 1
    return len(lines)


def without_name(lines, name):
    """The lines without each statement, declaration and body that begins with a line that mentions a name."""
    kept, at = [], 0
    while at < len(lines):
        is_there = name in NAME.findall(lines[at])
        after = group_of(lines, at) if is_there else at + 1
        kept += [] if is_there else lines[at:after]
        at = after
    return kept


class Reducer:
    """Makes lists of pieces shorter until a deadline; `differs` says whether one still shows the difference."""

    def __init__(self, differs):
        self.differs, self.deadline = differs, time.monotonic() + SECONDS

    def shorter(self, pieces, candidates):
        """The first of the candidates that is shorter and shows the difference, or else the pieces."""
        for candidate in candidates:
            if time.monotonic() > self.deadline:
                break
            if len(candidate) < len(pieces) and self.differs(candidate):
                return candidate
        return pieces

    def without_names(self, lines):
        for name in sorted(set(NAME.findall(b"\n".join(lines)))):
            lines = self.shorter(lines, [without_name(lines, name)])
        return lines

    def without_groups(self, lines):
        """The lines without a statement or a body, or without what is around one: its first line and its last."""
        at = 0
        while at < len(lines):
            after = group_of(lines, at)
            fewer = self.shorter(lines, [lines[:at] + lines[after:], lines[:at] + lines[at + 1 : after - 1] + lines[after:]])
            at += fewer is lines
            lines = fewer
        return lines

    def without_pieces(self, pieces):
        """The pieces without as many of them as can be left out, tried in halves, quarters and so on (delta debugging)."""
        size = max(1, len(pieces) // 2)
        while size:
            at, before = 0, len(pieces)
            while at < len(pieces):
                fewer = self.shorter(pieces, [pieces[:at] + pieces[at + size :]])
                at += size if fewer is pieces else 0
                pieces = fewer
            size = size if size == 1 and len(pieces) < before else size // 2
        return pieces


def without(pieces, differs):
    """The pieces without as many of them as can be left out."""
    return Reducer(differs).without_pieces(pieces)


def reduced(text, differs):
    """A text with a difference, made smaller."""
    by_lines, by_words = Reducer(lambda lines: differs(b"\n".join(lines))), Reducer(lambda words: differs(b" ".join(words)))
    lines = by_lines.without_groups(by_lines.without_names(text.split(b"\n")))
    return b" ".join(by_words.without_pieces(b"\n".join(by_lines.without_pieces(lines)).split(b" ")))


def fewer_lines(text, differs):
    """A schedule or a set with a difference, with lines left out."""
    return "".join(without(text.splitlines(keepends=True), lambda lines: differs("".join(lines))))
