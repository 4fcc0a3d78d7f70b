"""Prints the listing of an image from its bytes, by docs/FORMATS.md ("Sections", "Listing"), without the program."""
import struct
import sys

NAMES = (
    "PUSH DROP DUP LDL STL LDG STG LDP STP LDX STX LDB STB CPY NEG ABS ADD SUB MUL DIV MOD REM CHK EQ NE LT LE GT GE "
    "AND OR XOR NOT JMP JZ JNZ CALL PCALL ECALL RET RAISE BLK DLY PUT READ CLK"
).split()


class Bytes:
    def __init__(self, data):
        self.data = data
        self.at = 0

    def take(self, form):
        size = struct.calcsize(">" + form)
        values = struct.unpack(">" + form, self.data[self.at : self.at + size])
        self.at += size
        return values

    def text(self):
        (length,) = self.take("B")
        self.at += length
        return self.data[self.at - length : self.at].decode("ascii")


def number_or_none(value):
    return "-" if value == 0xFFFF else str(value)


def listing(data):
    image = Bytes(data)
    magic, version = image.take("4sH")
    assert magic == b"ARVN" and version in (1, 2)
    instructions, subprograms, objects, tasks, exceptions, rows, labels, words = image.take("8H")
    (attachments,) = image.take("H") if version == 2 else (0,)
    for number in range(exceptions):
        yield f"exception {number + 1} {image.text()}"
    for number in range(labels):
        yield f"label {number} {image.text()}"
    image.take(f"{words}q")
    for number in range(objects):
        ceiling, entry, barrier, word, size = image.take("BHBHH")
        image.take(f"{size}q")
        yield f"object {number} ceiling {ceiling} entry {number_or_none(entry)} barrier {barrier} word {word} size {size}"
    bodies = [image.take("B6H") for _ in range(subprograms)]
    for _ in range(tasks):
        name = image.text()
        priority, subprogram = image.take("BH")
        yield f"task {name} priority {priority} sub {subprogram}"
    handlers = [image.take("4H") for _ in range(rows)]
    attached = [image.take("BH") for _ in range(attachments)]
    at = 0
    for number, (kind, owner, end, parameters, results, local, stack) in enumerate(bodies):
        yield (
            f"sub {number} kind {kind} object {number_or_none(owner)} params {parameters} "
            f"results {results} locals {local} stack {stack}"
        )
        for place in range(at, end):
            opcode, depth, a, k = image.take("BHHq")
            yield f"{place:5} {NAMES[opcode - 1]} {depth} {a} {k}"
        at = end
    assert at == instructions and image.at == len(data)
    for start, end, exception, target in handlers:
        yield f"handler {start} {end} {exception} {target}"
    for channel, subprogram in attached:
        yield f"attach {channel} {subprogram}"


if __name__ == "__main__":
    with open(sys.argv[1], "rb") as file:
        for line in listing(file.read()):
            print(line)
