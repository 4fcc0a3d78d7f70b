"""Well-formed images of several tasks and objects with random bodies: structured code whose statements leave the operand stack empty."""
import random

from assembler import ENTRY, FUNCTION, PLAIN, PROCEDURE, TASK, Body, assembled

LOCALS, WORDS, OBJECT_WORDS = 6, 5, 4
UNARY = ("NEG", "ABS", "NOT", "NOT")
BINARY = "ADD SUB MUL DIV MOD REM EQ NE LT LE GT GE AND OR XOR".split()


class Writer:
    """Writes the text of one body. `heads` has kind, owner, parameters and results of each subprogram. With `meets` tasks do little else
    than to call protected operations, and handle what that raises."""

    def __init__(self, source, number, heads, objects, meets):
        self.random, self.number, self.heads, self.objects, self.meets = source, number, heads, objects, meets
        self.kind, self.owner, self.parameters, self.results = heads[number]
        self.labels, self.rows = 0, []

    def label(self):
        self.labels += 1
        return f"l{self.labels}"

    def number_text(self):
        if self.random.random() < 0.05:
            return f"PUSH {self.random.choice((2**63 - 1, -(2**63), 2**62, -(2**62)))}"
        return f"PUSH {self.random.randint(-3, 9)}"

    def regions(self, to_write=False):
        inside = self.kind in ((PROCEDURE, ENTRY) if to_write else (PROCEDURE, FUNCTION, ENTRY))
        return [0, 1, 2] if inside else [0, 1]

    def index(self, depth):
        """Nearly always inside, so that runs go on."""
        choice = self.random.random()
        if choice < (0.999 if self.meets else 0.97):
            return f"PUSH {self.random.randrange(OBJECT_WORDS)}"
        return f"PUSH {self.random.choice((-1, LOCALS, WORDS, OBJECT_WORDS))}" if choice < 0.99 else self.value(depth)

    def value(self, depth=2):
        """What puts one word on the operand stack."""
        choice = self.random.randrange(14 if depth > 0 else 5)
        region = self.random.choice(self.regions())
        if choice < 2:
            return self.number_text()
        if choice == 2:
            return f"{('LDL', 'LDG', 'LDP')[region]} {self.random.randrange(OBJECT_WORDS)}"
        if choice == 3:
            return f"{self.index(0)} LDX {region}"
        if choice == 4:
            return "CLK"
        if choice == 5:
            return f"{self.value(depth - 1)} {self.random.choice(UNARY)}"
        if choice == 6:
            return f"{self.value(depth - 1)} PUSH {self.random.randint(-9, 1)} PUSH {self.random.randint(1, 99)} CHK"
        if choice == 7:
            return f"PUSH {self.random.randint(0, 9) if self.random.random() < 0.2 else self.random.randint(1, 8)} READ"
        if choice == 8:
            return f"{self.value(depth - 1)} DUP {self.random.choice(BINARY)}"
        if choice == 9:
            return self.call(depth, 1) or "PUSH 7"
        if choice == 10:
            called = self.call(depth, 2) if self.random.random() < 0.5 else ""
            return f"{called or self.index(0) + f' LDB {region} 2'} {self.random.choice(BINARY)}"
        return f"{self.value(depth - 1)} {self.value(depth - 1)} {self.random.choice(BINARY)}"

    def call(self, depth, results):
        """A call of a subprogram or an entry that gives so many words, where there is one that may be called from here."""
        return self.one_of(self.calls(results), depth)

    def one_of(self, calls, depth):
        if not calls:
            return ""
        name, parameters = self.random.choice(calls)
        return " ".join([self.value(depth - 1) for _ in range(parameters)] + [name])

    def external_call(self):
        """A call of a protected operation, whose results are written or dropped."""
        results = self.random.randrange(3)
        calls = [call for call in self.calls(results) if not call[0].startswith("CALL")]
        return self.one_of(calls, 1) + self.random.choice((" DROP", " PUT 0")) * results if calls else ""

    def meeting(self):
        """Most often an entry or a protected procedure: entries close their barriers, and procedures open them."""
        choice = self.random.randrange(10)
        if choice < 7:
            kind = ENTRY if choice < 4 else PROCEDURE
            operations = [(number, head) for number, head in enumerate(self.heads) if head[0] == kind]
            if operations:
                number, (_, owner, parameters, results) = self.random.choice(operations)
                call = f"ECALL {owner}" if kind == ENTRY else f"PCALL {number}"
                return " ".join(["LDL 4"] * parameters + [call] + ["PUT 0"] * results)
        if choice < 9:
            return f"LDL 4 PUSH {self.random.randint(1, 3)} ADD STL 4 LDL 4 PUT 0"
        return f"CLK PUSH {self.random.randint(-1, 3)} ADD DLY"

    def calls(self, results):
        """The calls that are allowed here and give so many words, each with its number of parameters."""
        calls = []
        for number, (kind, owner, parameters, given) in enumerate(self.heads):
            if given != results or kind == TASK:
                continue
            if kind == ENTRY:
                calls.append((f"ECALL {owner}", parameters))
                continue
            if kind in (PROCEDURE, FUNCTION):
                calls.append((f"PCALL {number}", parameters))
            inner = owner == self.owner and (self.kind in (PROCEDURE, ENTRY) or (self.kind == kind == FUNCTION))
            if kind == PLAIN or inner:
                calls.append((f"CALL {number}", parameters))
        return calls

    def store(self):
        region = self.random.choice(self.regions(True))
        choice = self.random.randrange(10)
        if choice < 2:
            return f"{self.index(1)} {self.value()} STX {region}"
        if choice == 2:
            return f"{self.index(1)} {self.value()} {self.value()} STB {region} 2"
        if choice == 3:
            source = self.random.choice(self.regions())
            return f"PUSH {self.random.randint(0, 1)} PUSH {self.random.randint(0, 1)} CPY {3 * region + source} {self.random.randint(1, 3)}"
        return f"{self.value()} {('STL', 'STG', 'STP')[region]} {self.random.randrange(OBJECT_WORDS)}"

    def handled(self, nesting):
        start, middle, target, after = (self.label() for _ in range(4))
        inner = self.statements(nesting - 1)
        end = self.random.choice(("PUT 1", "STL 0", "DROP", "DUP PUT 1 RAISE" if self.random.random() < 0.3 else "PUT 0"))
        places, other = [target], ""
        if self.random.random() < 0.5:
            places.insert(self.random.randrange(2), second := self.label())
            other = f"{second}: PUT 1 JMP {after}"
        self.rows += [(start, middle, self.random.choice((0, 0, 1, 2, 3, 5)), place) for place in places]
        behind = self.statement(0) if self.random.random() < 0.5 else ""
        return f"{start}: {inner} PUSH 0 DROP {middle}: {behind} JMP {after} {other} {target}: {end} {after}:"

    def statement(self, nesting):
        if self.meets and self.kind == TASK and self.random.random() < 0.9:
            return self.meeting()
        choice = self.random.randrange(16)
        if choice < 4:
            return self.store()
        if choice < 7:
            return f"{self.value()} PUT {self.random.randrange(2)}"
        if choice < 9 and nesting > 0:
            return self.handled(nesting)
        if choice == 9 and nesting > 0:
            other, after = self.label(), self.label()
            return f"{self.value()} JZ {other} {self.statements(nesting - 1)} JMP {after} {other}: {self.statements(nesting - 1)} {after}:"
        if choice == 10 and nesting > 0:
            top = self.label()
            local = self.random.randrange(4, LOCALS)
            return f"{top}: {self.statements(nesting - 1)} LDL {local} PUSH 1 ADD STL {local} LDL {local} PUSH 3 LT JNZ {top}"
        if choice == 11 and self.random.random() < 0.5:
            after = self.label()
            return f"{self.value()} JZ {after} PUSH {self.random.choice((1, 2, 3, 4, 5, 5, 5, 9))} RAISE {after}:"
        if choice == 12:
            return f"CLK PUSH {self.random.randint(-1, 6)} ADD DLY"
        if choice == 13 and self.random.random() < 0.3:
            return "BLK"
        if choice >= 13 and self.kind == TASK:
            return self.external_call()
        return self.call(2, 0)

    def statements(self, nesting):
        return " ".join(self.statement(nesting) for _ in range(self.random.randint(1, 4)))

    def body(self):
        text = self.statements(3) if self.kind in (TASK, PLAIN) or self.random.random() < 0.3 else self.store()
        if self.kind == TASK and (self.meets or self.random.random() < 0.7):
            self.rows.append(("all", "gone", 0, "caught"))
            text = f"all: {text} PUSH 0 DROP gone: JMP after caught: PUT 1 after:"
        if self.kind == TASK and (self.meets or self.random.random() < 0.7):
            text = f"top: {text} CLK PUSH 3 ADD DLY CLK PUSH 40 LT JNZ top"
        if self.meets and self.kind in (PROCEDURE, ENTRY) and self.random.random() < 0.4:
            text += f" CLK PUSH {self.random.randint(2, 5)} MOD JNZ quiet PUSH {self.random.choice((2, 5))} RAISE quiet:"
        if self.kind in (PROCEDURE, ENTRY) and self.random.random() < 0.8:
            text = f"PUSH {1 if self.kind == PROCEDURE else 0} STP {self.objects[self.owner][3]} {text}"
        if self.kind in (PROCEDURE, ENTRY):
            text = " ".join(f"LDL {number} PUT {number}" for number in range(self.parameters)) + " " + text
        text += " " + " ".join(self.value() for _ in range(self.results)) + " RET"
        return Body(self.kind, text, self.parameters, self.results, LOCALS, 0xFFFF if self.owner is None else self.owner, tuple(self.rows))


def random_image(seed):
    """Up to eight tasks and three objects; the same image for the same seed."""
    source = random.Random(seed)
    meets = source.random() < 0.5
    tasks = source.randint(3, 8) if meets else source.randint(1, 5)
    objects = source.randint(1, 2) if meets else source.randint(0, 3)
    heads = [(TASK, None, 0, 0)] * tasks
    heads += [(PLAIN, None, source.randint(0, 2), results) for results in (0, 1, 1)]
    table = []
    for number in range(objects):
        heads += [(PROCEDURE, number, source.randint(0, 2), source.randint(0, 1)), (FUNCTION, number, source.randint(0, 1), 1)]
        entry, barrier = 0xFFFF, 0
        if source.random() < 0.8:
            entry, barrier = len(heads), source.choice((0, 1, 2, 2, 2, 2, 2))
            heads.append((ENTRY, number, source.randint(0, 2), source.randint(0, 2)))
        word = source.randrange(OBJECT_WORDS) if barrier == 2 else 0
        ceiling = 31 if meets else source.choice((5, 20, 31, 31))
        table.append((ceiling, entry, barrier, word, [source.choice((0, 0, 0, 1, 2)) for _ in range(OBJECT_WORDS)]))
    bodies = [Writer(source, number, heads, table, meets).body() for number in range(len(heads))]
    names = [(f"T{number}", source.choice((3, 4, 8, 8, 15, 30)), number) for number in range(tasks)]
    image = assembled(bodies, names, ("x", "caught"), [source.randint(-2, 5) for _ in range(WORDS)], table)
    image.exceptions.append("OWN")
    return image
