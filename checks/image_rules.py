"""Which rule of images bytes break first, and at which byte, as docs/FORMATS.md states the rules ("Well-formed images"), read here anew without the program."""
import re
import struct

from images import NAMES, NONE, OPERATIONS

BY_OPCODE = {opcode: (name, taken, given) for name, (opcode, taken, given) in OPERATIONS.items()}
MAGIC, VERSIONS = b"ARVN", (b"\0\1", b"\0\2")
COUNTED = len(MAGIC) + 2
WRONG_HEADER, CUT_SHORT, STRAY, OPERAND, OUTSIDE, MISSING, DEPTH, TABLES = range(40, 48)
PLAIN, PROCEDURE, FUNCTION, ENTRY, TASK = range(5)
COUNTS = [("instructions", 1, 65_535), ("subprograms", 1, 193), ("objects", 0, 64), ("tasks", 1, 65), ("exceptions", 4, 36), ("rows", 0, 4_096), ("labels", 0, 1_024)]
WORDS, FRAME, CEILING, PRIORITY, LENGTH, CHANNELS = 8_192, 512, 31, 30, 40, 8
ADDRESSED = set("LDL STL LDG STG LDP STP JMP JZ JNZ CALL PCALL ECALL PUT".split())
REGIONS = {"LDX": 3, "STX": 3, "LDB": 3, "STB": 3, "CPY": 9}
BLOCKS = {"LDB", "STB", "CPY"}
JUMPS = {"JMP", "JZ", "JNZ"}
LEAVING = {"JMP", "RET", "RAISE"}
RESERVED = set("""ABORT ABS ABSTRACT ACCEPT ACCESS ALIASED ALL AND ARRAY AT BEGIN BODY CASE CONSTANT DECLARE DELAY DELTA DIGITS DO ELSE ELSIF END ENTRY
EXCEPTION EXIT FOR FUNCTION GENERIC GOTO IF IN INTERFACE IS LIMITED LOOP MOD NEW NOT NULL OF OR OTHERS OUT OVERRIDING PACKAGE PRAGMA PRIVATE PROCEDURE
PROTECTED RAISE RANGE RECORD REM RENAMES REQUEUE RETURN REVERSE SELECT SEPARATE SOME SUBTYPE SYNCHRONIZED TAGGED TASK TERMINATE THEN TYPE UNTIL USE WHEN
WHILE WITH XOR""".split())


# What the operand of an operation names is there, and may be used so in the subprogram: by the judge, the subprogram and the operand.
THERE = {
    "LDL": lambda judge, body, a: a < body.local,
    "STL": lambda judge, body, a: a < body.local,
    "LDG": lambda judge, body, a: a < len(judge.image.words),
    "STG": lambda judge, body, a: a < len(judge.image.words),
    "LDP": lambda judge, body, a: judge.has_word(body, a),
    "STP": lambda judge, body, a: judge.has_word(body, a),
    "LDX": lambda judge, body, a: a != 2 or judge.reads(body),
    "LDB": lambda judge, body, a: a != 2 or judge.reads(body),
    "STX": lambda judge, body, a: a != 2 or judge.writes(body),
    "STB": lambda judge, body, a: a != 2 or judge.writes(body),
    "CPY": lambda judge, body, a: (a // 3 != 2 or judge.writes(body)) and (a % 3 != 2 or judge.reads(body)),
    "CALL": lambda judge, body, a: judge.may_call(body, judge.callee("CALL", a)),
    "PCALL": lambda judge, body, a: judge.callee("PCALL", a) is not None and judge.callee("PCALL", a).kind in (PROCEDURE, FUNCTION),
    "ECALL": lambda judge, body, a: judge.callee("ECALL", a) is not None,
    "PUT": lambda judge, body, a: a < len(judge.image.labels),
}


class EndsEarly(Exception):
    """A section has fewer bytes than its counts say."""


class Row:
    """A row of a section: its fields by their names, with the byte of each."""

    def __init__(self, at, **fields):
        self.at = at
        self.__dict__.update(fields)


class Image:
    """The sections of an image's bytes, whatever their numbers stand for."""

    def __init__(self, data):
        self.data, self.end, self.version = data, COUNTED, data[COUNTED - 1] if len(data) >= COUNTED else None
        instructions, subprograms, objects, tasks, exceptions, rows, labels, words = self.take("8H")
        (attachments,) = self.take("H") if self.version == 2 else (0,)
        self.exceptions = [self.text() for _ in range(exceptions)]
        self.labels = [self.text() for _ in range(labels)]
        self.words = self.take(f"{words}q")
        self.objects = [self.object() for _ in range(objects)]
        self.subprograms = self.rows_of(subprograms, "B6H", "kind owner end params results local stack")
        self.tasks = [self.task() for _ in range(tasks)]
        self.rows = self.rows_of(rows, "4H", "start end exception target")
        self.attachments = self.rows_of(attachments, "BH", "channel subprogram")
        self.instructions = self.rows_of(instructions, "BHHq", "opcode depth a k")

    def take(self, form):
        size = struct.calcsize(">" + form)
        if len(self.data) < self.end + size:
            raise EndsEarly
        self.end += size
        return struct.unpack_from(">" + form, self.data, self.end - size)

    def rows_of(self, count, form, names):
        """So many rows of this form, with these names of their fields."""
        layout, fields, at = struct.Struct(">" + form), names.split(), self.end
        self.end += count * layout.size
        if len(self.data) < self.end:
            raise EndsEarly
        values = layout.iter_unpack(self.data[at : self.end])
        return [Row(at + number * layout.size, **dict(zip(fields, row))) for number, row in enumerate(values)]

    def row(self, form, names):
        return self.rows_of(1, form, names)[0]

    def text(self):
        at = self.end
        (length,) = self.take("B")
        (text,) = self.take(f"{length}s")
        return Row(at, text=text)

    def object(self):
        row = self.row("BHBHH", "ceiling entry barrier word size")
        row.words = self.take(f"{row.size}q")
        return row

    def task(self):
        name = self.text()
        row = self.row("BH", "priority subprogram")
        row.name = name
        return row


def is_name(text):
    """Whether it is an identifier in upper case of at most 40 characters that isn't reserved."""
    found = re.fullmatch(rb"[A-Z](_?[A-Z0-9])*", text)
    return bool(found) and len(text) <= LENGTH and text.decode() not in RESERVED


def is_label(text):
    return 1 <= len(text) <= LENGTH and all(33 <= byte <= 126 and byte != 34 for byte in text)


def text_byte(row):
    """A text that is wrong is so at its length, where that is, else at its first character."""
    return row.at if not 1 <= len(row.text) <= LENGTH else row.at + 1


class Judge:
    """Asks each rule from 43 to 47 of an image, and keeps those that are broken by their bytes and numbers."""

    def __init__(self, image):
        self.image, self.broken = image, []
        self.has_ends = self.ends_are_in_order()
        self.holders, self.regions = [], set()
        if self.has_ends:
            for number, row in enumerate(image.subprograms):
                self.holders += [number] * (row.end - len(self.holders))

    def need(self, holds, byte, number):
        if not holds:
            self.broken.append((byte, number))

    def ends_are_in_order(self):
        ends = [0] + [row.end for row in self.image.subprograms]
        return all(before < end for before, end in zip(ends, ends[1:])) and ends[-1] == len(self.image.instructions)

    def holder(self, place):
        return self.holders[place] if 0 <= place < len(self.holders) else None

    def kind(self, row):
        return row.kind if row.kind <= TASK else PLAIN

    def owner(self, row):
        """The number of the object that the subprogram belongs to."""
        return row.owner if self.kind(row) in (PROCEDURE, FUNCTION, ENTRY) else None

    def judged(self):
        image = self.image
        self.judge_counts()
        for number, row in enumerate(image.exceptions):
            self.need(is_name(row.text) and (number >= len(NAMES) or row.text.decode() == NAMES[number]), text_byte(row), TABLES)
        for row in image.labels:
            self.need(is_label(row.text), text_byte(row), TABLES)
        for number, row in enumerate(image.objects):
            self.judge_object(number, row)
        for number, row in enumerate(image.subprograms):
            self.judge_subprogram(number, row)
        for row in image.tasks:
            self.judge_task(row)
        for row in image.rows:
            self.judge_row(row)
        for before, row in zip([0, *(row.channel for row in image.attachments)], image.attachments):
            self.judge_attachment(before, row)
        for place, row in enumerate(image.instructions):
            self.judge_instruction(place, row)
        return self.broken

    def judge_counts(self):
        image = self.image
        for number, (name, least, most) in enumerate(COUNTS):
            self.need(least <= len(getattr(image, name)) <= most, COUNTED + 2 * number, TABLES)
        words = len(image.words) + sum(row.size for row in image.objects)
        self.need(words <= WORDS, image.objects[-1].at + 6 if image.objects else COUNTED + 2 * len(COUNTS), TABLES)
        self.need(image.version != 2 or 1 <= len(image.attachments) <= CHANNELS, COUNTED + 2 * len(COUNTS) + 2, TABLES)

    def judge_object(self, number, row):
        subprograms = self.image.subprograms
        has_entry = row.entry != NONE
        self.need(row.ceiling <= CEILING, row.at, TABLES)
        self.need(not has_entry or row.entry < len(subprograms), row.at + 1, MISSING)
        if has_entry and row.entry < len(subprograms):
            body = subprograms[row.entry]
            self.need(body.kind == ENTRY, body.at, TABLES)
            self.need(body.kind != ENTRY or body.owner == number, body.at + 1, TABLES)
        self.need(row.barrier <= 2 and (has_entry or row.barrier == 0), row.at + 3, TABLES)
        self.need(row.barrier == 2 or row.word == 0, row.at + 4, TABLES)
        self.need(row.barrier != 2 or row.word < row.size, row.at + 6, TABLES)

    def judge_subprogram(self, number, row):
        image, owner = self.image, self.owner(row)
        first = image.subprograms[number - 1].end if number else 0
        self.need(row.kind <= TASK, row.at, TABLES)
        if owner is None:
            self.need(row.owner == NONE, row.at + 1, TABLES)
        else:
            self.need(owner != NONE, row.at + 1, TABLES)
            self.need(owner == NONE or owner < len(image.objects), row.at + 1, MISSING)
            if row.kind == ENTRY and owner < len(image.objects):
                self.need(image.objects[owner].entry == number, row.at + 1, TABLES)
        is_last = number + 1 == len(image.subprograms)
        self.need(first < row.end and (not is_last or row.end == len(image.instructions)), row.at + 3, TABLES)
        self.need(row.kind != TASK or row.params == 0, row.at + 5, TABLES)
        self.need(row.kind != TASK or row.results == 0, row.at + 7, TABLES)
        self.need(row.params <= row.local, row.at + 9, TABLES)
        self.need(row.local + row.stack <= FRAME, row.at + 11, TABLES)
        if self.has_ends:
            last = image.instructions[row.end - 1]
            self.need(last.opcode not in BY_OPCODE or BY_OPCODE[last.opcode][0] in LEAVING, last.at, OUTSIDE)
            self.need(image.instructions[first].depth == 0, image.instructions[first].at + 1, DEPTH)

    def judge_task(self, row):
        subprograms = self.image.subprograms
        self.need(is_name(row.name.text), text_byte(row.name), TABLES)
        self.need(row.priority <= PRIORITY, row.at, TABLES)
        self.need(row.subprogram < len(subprograms), row.at + 1, MISSING)
        self.need(row.subprogram >= len(subprograms) or subprograms[row.subprogram].kind == TASK, row.at + 1, TABLES)

    def judge_row(self, row):
        image = self.image
        self.need(row.start < row.end, row.at + 2, OUTSIDE)
        self.need(row.exception <= len(image.exceptions), row.at + 4, TABLES)
        for start, end in self.regions:
            is_inside = start <= row.start and row.end <= end or row.start <= start and end <= row.end
            self.need(is_inside or row.end <= start or end <= row.start, row.at + 2, TABLES)
        self.regions.add((row.start, row.end))
        if self.has_ends:
            holders = {self.holder(place) for place in (row.start, max(row.end - 1, 0), row.target)}
            self.need(len(holders) == 1 and None not in holders, row.at + 6, OUTSIDE)
            if row.target < len(image.instructions):
                target = image.instructions[row.target]
                self.need(target.depth == 1, target.at + 1, DEPTH)

    def judge_attachment(self, before, row):
        subprograms = self.image.subprograms
        self.need(before < row.channel <= CHANNELS, row.at, TABLES)
        self.need(row.subprogram < len(subprograms), row.at + 1, MISSING)
        self.need(row.subprogram >= len(subprograms) or self.may_handle(subprograms[row.subprogram]), row.at + 1, TABLES)

    def may_handle(self, body):
        """Whether it is a procedure of an object of the highest ceiling, without parameters and results."""
        objects = self.image.objects
        return body.kind == PROCEDURE and body.params == body.results == 0 and body.owner < len(objects) and objects[body.owner].ceiling == CEILING

    def judge_instruction(self, place, row):
        if row.opcode not in BY_OPCODE:
            self.need(False, row.at, OPERAND)
        else:
            name = BY_OPCODE[row.opcode][0]
            self.need(row.a < REGIONS[name] if name in REGIONS else name in ADDRESSED or row.a == 0, row.at + 3, OPERAND)
            self.need(1 <= row.k <= WORDS if name in BLOCKS else name == "PUSH" or row.k == 0, row.at + 5, OPERAND)
        if self.has_ends:
            body = self.image.subprograms[self.holder(place)]
            self.need(row.depth <= body.stack, row.at + 1, DEPTH)
            if row.opcode in BY_OPCODE:
                self.judge_names(place, row, body)
                self.judge_depths(place, row, body)

    def callee(self, name, a):
        """The subprogram that a call runs, None where it isn't there."""
        if name == "ECALL":
            a = self.image.objects[a].entry if a < len(self.image.objects) else NONE
        return self.image.subprograms[a] if a < len(self.image.subprograms) else None

    def judge_names(self, place, row, body):
        name, a, may_stand = BY_OPCODE[row.opcode][0], row.a, True
        if name in JUMPS:
            self.need(self.holder(a) == self.holder(place), row.at + 3, OUTSIDE)
        elif name in ("LDP", "STP"):
            may_stand = self.reads(body) if name == "LDP" else self.writes(body)
            self.need(may_stand, row.at, MISSING)
        if may_stand and name in THERE:
            self.need(THERE[name](self, body, a), row.at + 3, MISSING)

    def reads(self, body):
        """Whether the words of an object may be read in the subprogram."""
        return self.owner(body) is not None

    def writes(self, body):
        return body.kind in (PROCEDURE, ENTRY)

    def has_word(self, body, a):
        return body.owner < len(self.image.objects) and a < self.image.objects[body.owner].size

    def may_call(self, body, callee):
        if callee is None:
            return False
        inside = {PROCEDURE: (PROCEDURE, FUNCTION), ENTRY: (PROCEDURE, FUNCTION), FUNCTION: (FUNCTION,)}
        return self.kind(callee) == PLAIN or self.kind(callee) in inside.get(self.kind(body), ()) and body.owner == callee.owner

    def judge_depths(self, place, row, body):
        name, taken, given = BY_OPCODE[row.opcode]
        words = max(row.k, 0)
        if name == "RET":
            taken = body.results
            self.need(row.depth == body.results, row.at + 1, DEPTH)
        elif name in ("CALL", "PCALL", "ECALL"):
            callee = self.callee(name, row.a)
            if callee is None:
                return
            taken, given = callee.params, callee.results
        taken = words + 1 if taken is None else taken
        given = words if given is None else given
        if row.depth < taken:
            self.need(False, row.at + 1, DEPTH)
            return
        left, code = row.depth - taken + given, self.image.instructions
        self.need(left <= body.stack, row.at + 1, DEPTH)
        if name not in LEAVING and place + 1 < len(code):
            self.need(code[place + 1].depth == left, code[place + 1].at + 1, DEPTH)
        if name in JUMPS and row.a < len(code):
            later = max(place, row.a)
            self.need(code[row.a].depth == left, code[later].at + 1, DEPTH)


def fault_of(data):
    """The number of the rule that the bytes break first and the byte where they do, or None."""
    if not MAGIC.startswith(data[:4]):
        return WRONG_HEADER, 0
    if not any(version.startswith(data[4:6]) for version in VERSIONS):
        return WRONG_HEADER, 4
    try:
        image = Image(data)
    except EndsEarly:
        return CUT_SHORT, len(data)
    if image.end < len(data):
        return STRAY, image.end
    byte, number = min(Judge(image).judged(), default=(None, None))
    return None if number is None else (number, byte)
