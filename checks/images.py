"""Writes images by hand, without the program (docs/FORMATS.md, "Sections").

    images.py every FILE            an image with each of the 46 operations
    images.py large FILE COUNT      one with so many instructions, and words, rows and subprograms in proportion
"""
import struct
import sys

NAMES = ("CONSTRAINT_ERROR", "PROGRAM_ERROR", "STORAGE_ERROR", "TASKING_ERROR")
NONE = 0xFFFF

# opcode, words taken, words given
OPERATIONS = {
    "PUSH": (0x01, 0, 1), "DROP": (0x02, 1, 0), "DUP": (0x03, 1, 2), "LDL": (0x04, 0, 1), "STL": (0x05, 1, 0),
    "LDG": (0x06, 0, 1), "STG": (0x07, 1, 0), "LDP": (0x08, 0, 1), "STP": (0x09, 1, 0), "LDX": (0x0A, 1, 1),
    "STX": (0x0B, 2, 0), "LDB": (0x0C, 1, None), "STB": (0x0D, None, 0), "CPY": (0x0E, 2, 0), "NEG": (0x0F, 1, 1),
    "ABS": (0x10, 1, 1), "ADD": (0x11, 2, 1), "SUB": (0x12, 2, 1), "MUL": (0x13, 2, 1), "DIV": (0x14, 2, 1),
    "MOD": (0x15, 2, 1), "REM": (0x16, 2, 1), "CHK": (0x17, 3, 1), "EQ": (0x18, 2, 1), "NE": (0x19, 2, 1),
    "LT": (0x1A, 2, 1), "LE": (0x1B, 2, 1), "GT": (0x1C, 2, 1), "GE": (0x1D, 2, 1), "AND": (0x1E, 2, 1),
    "OR": (0x1F, 2, 1), "XOR": (0x20, 2, 1), "NOT": (0x21, 1, 1), "JMP": (0x22, 0, 0), "JZ": (0x23, 1, 0),
    "JNZ": (0x24, 1, 0), "CALL": (0x25, 0, 0), "PCALL": (0x26, 0, 0), "ECALL": (0x27, 0, 0), "RET": (0x28, 0, 0),
    "RAISE": (0x29, 1, 0), "BLK": (0x2A, 0, 0), "DLY": (0x2B, 1, 0), "PUT": (0x2C, 1, 0), "READ": (0x2D, 1, 1),
    "CLK": (0x2E, 0, 1),
}  # fmt: skip


class Image:
    """Subprograms in order, with the depth of each instruction reckoned from what the operations take and give."""

    def __init__(self):
        self.code = []
        self.subprograms = []
        self.rows = []
        self.labels = []
        self.words = []
        self.objects = []
        self.tasks = []
        self.attachments = []
        self.exceptions = list(NAMES)

    def subprogram(self, kind, operations, owner=NONE, results=0, local=0):
        """Each operation is a name with a and k where they aren't 0, and the words that a call gives where it gives some."""
        depth = most = 0
        for operation in operations:
            name, a, k, results_given = (*operation, 0, 0, 0)[: max(4, len(operation))][:4]
            opcode, taken, given = OPERATIONS[name]
            taken = k + 1 if taken is None else taken
            given = k if given is None else given + results_given
            self.code.append((opcode, depth, a, k))
            depth += given - taken
            most = max(most, depth)
        self.subprograms.append((kind, owner, len(self.code), 0, results, local, most))

    def bytes(self):
        counts = (self.code, self.subprograms, self.objects, self.tasks, self.exceptions, self.rows, self.labels, self.words)
        parts = [struct.pack(">4sH8H", b"ARVN", 2 if self.attachments else 1, *map(len, counts))]
        parts += [struct.pack(">H", len(self.attachments))] if self.attachments else []
        parts += [bytes([len(text)]) + text.encode() for text in (*self.exceptions, *self.labels)]
        parts.append(struct.pack(f">{len(self.words)}q", *self.words))
        for ceiling, entry, barrier, word, words in self.objects:
            parts.append(struct.pack(f">BHBHH{len(words)}q", ceiling, entry, barrier, word, len(words), *words))
        parts += [struct.pack(">B6H", *row) for row in self.subprograms]
        for name, priority, subprogram in self.tasks:
            parts.append(bytes([len(name)]) + name.encode() + struct.pack(">BH", priority, subprogram))
        parts += [struct.pack(">4H", *row) for row in self.rows]
        parts += [struct.pack(">BH", *row) for row in self.attachments]
        parts += [struct.pack(">BHHq", *row) for row in self.code]
        return b"".join(parts)


def every_operation():
    image = Image()
    image.labels = ["x", "!#"]
    image.words = [7, -(2**63)]
    image.objects = [(20, 3, 2, 1, [1, -1]), (31, NONE, 0, 0, [])]
    two = [("PUSH", 0, 5), ("PUSH", 0, -3)]
    main = [
        ("PUSH", 0, 9), ("STL", 1), ("LDL", 1), ("STG", 1), ("LDG", 0), ("DUP",), ("DROP",), ("DROP",),
        ("PUSH",), ("LDX", 1), ("DROP",), ("PUSH",), ("PUSH", 0, 1), ("STX", 0),
        ("PUSH",), ("LDB", 1, 2), ("DROP",), ("DROP",), ("PUSH",), *two, ("STB", 0, 2),
        ("PUSH",), ("PUSH",), ("CPY", 3, 1), ("PUSH", 0, 3), ("PUSH", 0, 1), ("PUSH", 0, 8), ("CHK",), ("PUT", 1),
    ]  # fmt: skip
    for name in "ADD SUB MUL DIV MOD REM EQ NE LT LE GT GE AND OR XOR".split():
        main += [*two, (name,), ("DROP",)]
    for name in "NEG ABS NOT READ".split():
        main += [("PUSH", 0, 1), (name,), ("DROP",)]
    main += [("JMP", len(main) + 1), ("PUSH",), ("JZ", len(main) + 3), ("PUSH",), ("JNZ", len(main) + 5)]
    main += [("CALL", 4), ("PCALL", 1), ("PCALL", 2, 0, 1), ("DROP",), ("ECALL", 0), ("BLK",), ("CLK",), ("DLY",), ("RET",)]
    image.subprogram(4, main, local=2)
    image.subprogram(1, [("LDP", 0), ("STP", 1), ("RET",)], owner=0)
    image.subprogram(2, [("LDP", 0), ("RET",)], owner=0, results=1)
    image.subprogram(3, [("RET",)], owner=0)
    image.subprogram(0, [("PUSH", 0, 2), ("RAISE",)])
    image.rows = [(0, len(main) - 1, 0, 1), (2, 5, 2, 1)]
    image.tasks = [("TICK", 30, 0), ("MAIN", 0, 0)]
    return image


def large(count):
    """Straight code with a jump in each part, in up to 193 subprograms, with words, and rows that are nested."""
    image = Image()
    image.words = list(range(count // 8))
    subprograms = max(1, count * 193 // 65535)
    for number in range(subprograms):
        first = len(image.code)
        length = count * (number + 1) // subprograms - first
        operations = []
        while length - len(operations) > 4:
            operations += [("PUSH", 0, len(operations)), ("STG", len(operations) % len(image.words)), ("JMP", first + len(operations) + 3)]
        operations += [("BLK",)] * (length - len(operations) - 1) + [("RET",)]
        image.subprogram(4 if number == 0 else 0, operations)
        target = first + 1
        for row in range(count // 16 // subprograms):
            image.rows.append((first + row, first + length - row, 0, target))
    image.tasks = [("MAIN", 15, 0)]
    return image


if __name__ == "__main__":
    image = every_operation() if sys.argv[1] == "every" else large(int(sys.argv[3]))
    with open(sys.argv[2], "wb") as file:
        file.write(image.bytes())
