#!/usr/bin/env python3
"""The picture of the way of the data in docs/ARCHITECTURE.md: docs/way.svg, made of docs/way.txt.

    picture.py            compares the picture that stands there with the one that the text gives; the status is 1 where they differ
    picture.py --write    writes it

The text has a line for each stage (its data and their type), for each arrow between two stages (the call, and what is proved of it), for an input from the side (its
data, the call that reads it, what is proved of it), and one for the call that does all (`whole`)."""

import sys
from xml.sax.saxutils import escape

TEXT, PICTURE = "docs/way.txt", "docs/way.svg"
WIDTH, LEFT, BOX, HIGH, STEP = 1040, 250, 190, 44, 84
PROOF = LEFT + BOX + 40
STYLE = """text { font-family: sans-serif; font-size: 14px; fill: #222; }
.call { font-family: monospace; font-weight: bold; }
.type { font-family: monospace; fill: #666; font-size: 12px; }
.proof { fill: #444; font-size: 13px; }
.box { fill: #eef3fa; stroke: #4a6fa5; }
.arrow { stroke: #4a6fa5; stroke-width: 1.5; fill: none; marker-end: url(#head); }
.whole { stroke: #b0b0b0; fill: none; stroke-dasharray: 5 4; }"""


def rows_of(text):
    """The kind of each line and its fields."""
    for line in text.split("\n"):
        if line and not line.startswith("#"):
            kind, _, rest = line.partition(": ")
            yield kind, [field.strip() for field in rest.split(" | ")]


def words(x, y, style, text, anchor="start"):
    return f'<text x="{x}" y="{y}" class="{style}" text-anchor="{anchor}">{escape(text)}</text>'


def stage(y, data, kind):
    middle = LEFT + BOX // 2
    return [
        f'<rect x="{LEFT}" y="{y}" width="{BOX}" height="{HIGH}" rx="6" class="box"/>',
        words(middle, y + 19, "data", data, "middle"),
        words(middle, y + 36, "type", kind, "middle"),
    ]


def arrow(y, call, proof):
    middle = LEFT + BOX // 2
    return [
        f'<path d="M {middle} {y} V {y + STEP - HIGH - 3}" class="arrow"/>',
        words(PROOF, y + 17, "call", call),
        words(PROOF, y + 34, "proof", proof),
    ]


def side(y, data, call, proof):
    middle = y + (STEP - HIGH) // 2 - 4
    return [
        words(10, middle - 8, "data", data),
        f'<path d="M 10 {middle} H {LEFT + BOX // 2 - 6}" class="arrow"/>',
        words(10, middle + 17, "call", call),
        words(10, middle + 33, "proof", proof),
    ]


def picture(text):
    drawn, y = [], 16
    for kind, fields in rows_of(text):
        if kind == "stage":
            drawn += stage(y, *fields)
            y += HIGH
        elif kind == "side":
            drawn += side(y, *fields)
        elif kind == "arrow":
            drawn += arrow(y, *fields)
            y += STEP - HIGH
        else:
            drawn += [words(LEFT, y + 28, "call", fields[0]), words(PROOF, y + 28, "proof", fields[1])]
            y += 40
    head = [
        f'<svg xmlns="http://www.w3.org/2000/svg" width="{WIDTH}" height="{y + 8}" viewBox="0 0 {WIDTH} {y + 8}">',
        f"<style>{STYLE}</style>",
        '<defs><marker id="head" viewBox="0 0 8 8" refX="7" refY="4" markerWidth="8" markerHeight="8" orient="auto"><path d="M 0 0 L 8 4 L 0 8 z" fill="#4a6fa5"/></marker></defs>',
        f'<rect width="{WIDTH}" height="{y + 8}" fill="#ffffff"/>',
    ]
    return "\n".join([*head, *drawn, "</svg>"]) + "\n"


def main(options):
    with open(TEXT, encoding="utf-8") as file:
        made = picture(file.read())
    if options == ["--write"]:
        with open(PICTURE, "w", encoding="utf-8") as file:
            file.write(made)
        return 0
    with open(PICTURE, encoding="utf-8") as file:
        same = file.read() == made
    print(f"picture: {PICTURE} is {'' if same else 'not '}the one of {TEXT}")
    return 0 if same else 1


if __name__ == "__main__":
    sys.exit(main(sys.argv[1:]))
