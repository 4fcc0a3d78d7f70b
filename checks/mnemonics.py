"""Images from texts of words, without the program (docs/FORMATS.md, "Sections").

A text has the sections of an image, each row by its word and its fields in their order: `exception NAME` behind the predefined ones, `label TEXT`, `word N`
(a plain word), `object CEILING ENTRY BARRIER WORD SIZE` with its words as `own N`, `sub KIND OBJECT END PARAMS RESULTS LOCALS STACK`, `task NAME PRIORITY SUB`,
`handler START END EXCEPTION TARGET`, `attach CHANNEL SUB`, and an instruction as `NAME DEPTH A K`, as in a listing. `-` is ffff.

`return_alone`, `thousand` and `handled` are worked images: a return, a line, and a return beside a handler of interrupts; `BYTE=HEX` behind one puts other bytes there, `first N` keeps the first so many,
and `and HEX` adds bytes behind.
"""
import re
import struct

from images import NAMES, NONE, OPERATIONS

MAGIC = "4152564e"
OWN = f"{MAGIC} 0001"
PREDEFINED = "10434f4e53545241494e545f4552524f520d50524f4752414d5f4552524f520d53544f524147455f4552524f520d5441534b494e475f4552524f52"
MAIN = "044d41494e 0f 0000"
RETURN = "28 0000 0000 0000000000000000"
WORKED = {
    "return_alone": f"{OWN} 0001 0001 0000 0001 0004 0000 0000 0000 {PREDEFINED} 04 ffff 0001 0000 0000 0000 0000 {MAIN} {RETURN}",
    "thousand": f"{OWN} 0003 0001 0000 0001 0004 0000 0001 0000 {PREDEFINED} 0178 04 ffff 0003 0000 0000 0000 0001 {MAIN} "
    f"01 0000 0000 00000000000003e8 2c 0001 0000 0000000000000000 {RETURN}",
    "handled": f"{MAGIC} 0002 0002 0002 0001 0001 0004 0000 0000 0000 0001 {PREDEFINED} 1f ffff 00 0000 0000 "
    f"04 ffff 0001 0000 0000 0000 0000 01 0000 0002 0000 0000 0000 0000 {MAIN} 03 0001 {RETURN} {RETURN}",
}  # fmt: skip

SECTIONS = {"exception": "t", "label": "t", "word": "q", "object": "BHBHH", "sub": "BHHHHHH", "task": "tBH", "handler": "HHHH", "attach": "BH"}
OPERATION = "BHHq"


def number(word):
    return NONE if word == "-" else int(word)


def packed(form, words):
    """The bytes of the fields of a row: a text with its length in front, and numbers."""
    parts = []
    for letter, word in zip(form, words):
        parts.append(bytes([len(word)]) + word.encode() if letter == "t" else struct.pack(">" + letter, number(word)))
    return b"".join(parts)


def assembled(text):
    """The bytes of the image of a text of rows."""
    rows = {name: [] for name in [*SECTIONS, "instruction"]}
    rows["exception"] = [packed("t", [name]) for name in NAMES]
    words, at = text.split(), 0
    while at < len(words):
        word = words[at]
        at += 1
        if word == "own":
            rows["object"][-1] += packed("q", words[at:])
            at += 1
        elif word in SECTIONS:
            rows[word].append(packed(SECTIONS[word], words[at:]))
            at += len(SECTIONS[word])
        else:
            rows["instruction"].append(packed(OPERATION, [OPERATIONS[word][0], *words[at:]]))
            at += len(OPERATION) - 1
    counted = ("instruction", "sub", "object", "task", "exception", "handler", "label", "word")
    counted += ("attach",) if rows["attach"] else ()
    ordered = ("exception", "label", "word", "object", "sub", "task", "handler", "attach", "instruction")
    header = struct.pack(f">H{len(counted)}H", 2 if rows["attach"] else 1, *(len(rows[name]) for name in counted))
    return bytes.fromhex(MAGIC) + header + b"".join(row for name in ordered for row in rows[name])


def image_of(text):
    """The bytes of an image: a worked one with its changes, or one that is assembled."""
    name, _, changes = text.partition(" ")
    if name not in WORKED:
        return assembled(text)
    data = bytearray.fromhex(WORKED[name])
    for first, behind, at, digits in re.findall(r"first (\d+)|and ([0-9a-f]+)|(\d+)=([0-9a-f]+)", changes):
        if first:
            del data[int(first):]
        elif behind:
            data += bytes.fromhex(behind)
        else:
            data[int(at): int(at) + len(digits) // 2] = bytes.fromhex(digits)
    return bytes(data)
