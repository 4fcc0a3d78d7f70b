"""Texts that are changed in one to three places, by a seed: most break a rule."""
import random

import tokens

RESERVED = sorted(tokens.RESERVED)
NAMES = ("Nobody", "Integer", "Clock", "Put", "Time", "True", "Constraint_Error", "Run", "App")
WAYS = {"alike": 20, "swap": 1, "leave out": 1, "double": 1, "number": 4, "word": 1, "delimiter": 1, "name": 5}
DELIMITERS = "( ) , ; : . ' + - * / = < > | => .. := /= <= >=".split()


def pieces_of(text):
    """The tokens of a text without a fault of spelling, as text, and what is between them."""
    found = tokens.tokens_of(text)
    spelled = [text[it.at : it.end].decode("latin-1") for it in found[:-1]]
    gaps, at = [], 0
    for token in found:
        gaps.append(text[at : token.at].decode("latin-1"))
        at = token.end
    return [it.kind for it in found[:-1]], spelled, [*gaps[:-1], text[at:].decode("latin-1")]


class Changer:
    """Changes the tokens of one text."""

    def __init__(self, source, text):
        self.random = source
        self.kinds, self.spelled, self.gaps = pieces_of(text)

    def alike(self, place):
        """Another token of the text of the same kind."""
        return self.random.choice([piece for kind, piece in zip(self.kinds, self.spelled) if kind == self.kinds[place]])

    def change(self):
        place = self.random.randrange(len(self.spelled))
        way = self.random.choices(list(WAYS), WAYS.values())[0]
        if way == "leave out":
            self.spelled[place] = ""
        elif way == "double":
            self.spelled[place] += " " + self.spelled[place]
        elif way == "swap":
            other = self.random.randrange(len(self.spelled))
            self.spelled[place], self.spelled[other] = self.spelled[other], self.spelled[place]
        else:
            self.spelled[place] = self.instead(way, place)

    def instead(self, way, place):
        if way == "number":
            return str(self.random.choice((0, 1, 2, 7, 31, 32, 2**63 - 1, 2**63, self.random.randrange(1000))))
        if way == "word":
            return self.random.choice(RESERVED)
        if way == "delimiter":
            return self.random.choice(DELIMITERS)
        return self.random.choice(NAMES) if way == "name" else self.alike(place)

    def text(self):
        pieces = [self.gaps[0]]
        for piece, gap in zip(self.spelled, self.gaps[1:]):
            pieces += [piece, gap or (" " if not piece else "")]
        return "".join(pieces).encode("latin-1")


def changed_text(seed, texts):
    """One of the texts, changed; sometimes in a byte, too."""
    source = random.Random(seed)
    text = source.choice(texts)
    changer = Changer(source, text)
    for _ in range(source.choice((1, 1, 1, 2, 3))):
        changer.change()
    text = bytearray(changer.text())
    if source.random() < 0.1:
        text[source.randrange(len(text))] = source.choice((source.randrange(256), source.choice(b"\t\r\n\"'_-&<>*#|"), 127, 200))
    return bytes(text)
