"""Tokens of a text, as docs/LANGUAGE.md has them ("Spelling"), with the first fault of spelling."""
import re
from functools import lru_cache
from typing import NamedTuple

MOST_BYTES, MOST_CHARACTERS, MOST_NUMBER = 65_536, 40, 2**63 - 1
MOST_KEPT = 100_000
RESERVED = frozenset(
    """abort abs abstract accept access aliased all and array at begin body case constant declare delay delta digits do else elsif end entry exception exit for
    function generic goto if in interface is limited loop mod new not null of or others out overriding package pragma private procedure protected raise range
    record rem renames requeue return reverse select separate some subtype synchronized tagged task terminate then type until use when while with xor""".split()
)
# White space, a comment, a word, a number with what makes it none, a label as far as it goes, what is refused or a delimiter, and any other byte.
PIECE = re.compile(
    rb"""[\t\n\r ]+|--[^\n]*|[A-Za-z][A-Za-z0-9_]*|[0-9][0-9_]*[A-Za-z#]?|"[^"\n]*["\n]?|\*\*|<<|>>|<>|=>|\.\.|:=|/=|<=|>=|[(),;:.'+\-*/=<>|]|.""", re.DOTALL
)
SPACE, LETTER, DIGIT, DELIMITER = b"\t\n\r ", re.compile(rb"[A-Za-z]"), re.compile(rb"[0-9]"), re.compile(rb"=>|\.\.|:=|/=|<=|>=|[(),;:.'+\-*/=<>|]")
LABEL = re.compile(rb'"[!#-~]{1,40}"')
STRAY_IN_COMMENT = re.compile(rb"[\x00-\x08\x0b\x0c\x0e-\x1f\x7f]")


class Fault(Exception):
    """A rule that a text breaks, by its number, and the byte of the place."""

    def __init__(self, number, at):
        super().__init__(number, at)
        self.number, self.at = number, at


class Token(NamedTuple):
    """Its kind is "name", "word" (a reserved one), "number", "label", "delimiter" or "end"; its value a name in upper case, a word in lower case, a number, or
    text."""

    kind: str
    value: object
    at: int
    end: int


def word_of(spelled):
    if "__" in spelled or spelled.endswith("_") or len(spelled) > MOST_CHARACTERS:
        raise Fault(3, 0)
    return ("word", spelled.lower()) if spelled.lower() in RESERVED else ("name", spelled.upper())


def number_of(spelled):
    if "__" in spelled or not spelled[-1].isdigit():
        raise Fault(4, 0)
    value = int(spelled.replace("_", ""))
    if value > MOST_NUMBER:
        raise Fault(4, 0)
    return "number", value


def label_of(piece):
    if not LABEL.fullmatch(piece):
        raise Fault(5, 0)
    return "label", piece[1:-1].decode()


@lru_cache(MOST_KEPT)
def meaning_of(piece):
    """The kind and the value of the token that a piece of a text is, or None of white space and a comment; a fault has its place in the piece."""
    if piece[0] in SPACE:
        return None
    if piece.startswith(b"--"):
        if stray := STRAY_IN_COMMENT.search(piece):
            raise Fault(2, stray.start())
        return None
    if LETTER.match(piece):
        return word_of(piece.decode())
    if DIGIT.match(piece):
        return number_of(piece.decode())
    if piece.startswith(b'"'):
        return label_of(piece)
    if not DELIMITER.fullmatch(piece):
        raise Fault(2, 0)
    return "delimiter", piece.decode()


def tokens_of(text):
    """The tokens of a text, the last of kind "end" at the end of the last one before it. Raises the first fault of spelling."""
    tokens, at = [], 0
    try:
        for piece in PIECE.findall(text):
            after, meaning = at + len(piece), meaning_of(piece)
            if after > MOST_BYTES:
                raise Fault(1, MOST_BYTES - at)
            if meaning:
                tokens.append(Token(*meaning, at, after))
            at = after
    except Fault as fault:
        raise Fault(fault.number, at + fault.at) from None
    end = tokens[-1].end if tokens else 0
    return tokens + [Token("end", None, end, end)]
