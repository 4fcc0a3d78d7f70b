"""Random legal programs of the whole language, with tasks, protected objects, handlers of interrupts and schedules, by a seed."""
import itertools
import random
from dataclasses import dataclass, field

PREDEFINED = ("Constraint_Error", "Program_Error", "Storage_Error", "Tasking_Error")
LABELS = ('"a"', '"alarm"', '"raised"')


@dataclass(eq=False)
class Type:
    """A subtype: its kind is "integer", "boolean", "time", "span", "array" or "record"; integers of one `base` are of one type."""

    kind: str
    name: str
    base: str = ""
    low: int = 0
    high: int = 0
    component: "Type" = None
    index: "Type" = None
    components: tuple = ()

    def is_like(self, other):
        return self.kind == other.kind and (self.base == other.base if self.kind in ("integer", "array", "record") else True)


INTEGER = Type("integer", "Integer", "Integer", -(2**63), 2**63 - 1)
NATURAL = Type("integer", "Natural", "Integer", 0, 2**63 - 1)
POSITIVE = Type("integer", "Positive", "Integer", 1, 2**63 - 1)
BOOLEAN = Type("boolean", "Boolean")
TIME = Type("time", "Time")
SPAN = Type("span", "Time_Span")


@dataclass(eq=False)
class Object:
    name: str
    type: Type
    is_writable: bool = True


@dataclass(eq=False)
class Operation:
    kind: str
    name: str
    formals: list  # of (name, mode, type)
    result: Type = None
    protected: str = ""
    ceiling: int = 0


@dataclass
class Place:
    """Where code is written: what is visible there, and what may be done."""

    objects: list
    operations: list
    in_loop: bool = False
    in_procedure: bool = False
    in_handler: bool = False
    may_wait: bool = False
    own: list = field(default_factory=list)  # operations that are called by their own names
    depth: int = 0

    def with_(self, **changes):
        return Place(**{**self.__dict__, "objects": list(self.objects), **changes})


class Writer:
    """Writes one program; `reads` is how often its statements ask what is read, an assignment being 5."""

    def __init__(self, seed, reads):
        self.random, self.reads = random.Random(seed), reads
        self.count, self.types, self.exceptions = 0, [INTEGER, NATURAL, POSITIVE, BOOLEAN], []
        self.constants, self.variables, self.operations, self.left = [], [], [], 0
        self.openers = []

    def chance(self, share):
        return self.random.random() < share

    def one(self, *choices):
        return choices[int(self.random.random() * len(choices))]

    def in_any_order(self, things):
        """The things one after the other, each of those that are left as likely as the others."""
        left = list(things)
        while left:
            at = int(self.random.random() * len(left))
            left[at], left[-1] = left[-1], left[at]
            yield left.pop()

    def fresh(self, letter):
        self.count += 1
        return f"{letter}{self.count}"

    # Types

    def integers(self):
        return [it for it in self.types if it.kind == "integer"]

    def scalars(self):
        return [it for it in self.types if it.kind in ("integer", "boolean")]

    def type_declaration(self):
        kind = self.one("range", "subtype", "array", "array", "record")
        name = self.fresh("T")
        if kind == "range":
            low = self.random.randint(-20, 5)
            made = Type("integer", name, name, low, low + self.random.randint(0, 40))
            text = f"type {name} is range {made.low} .. {made.high};"
        elif kind == "subtype":
            base = self.one(*self.integers())
            low = max(base.low, self.random.randint(-10, 5))
            high = min(base.high, low + self.random.randint(0, 30))
            if low > high:
                low, high = base.low, base.high
            made = Type("integer", name, base.base, low, high)
            text = f"subtype {name} is {base.name} range {low} .. {high};"
            if self.chance(0.2):
                made.low, made.high = base.low, base.high
                text = f"subtype {name} is {base.name};"
        elif kind == "array":
            made, text = self.array_type(name)
        else:
            parts = tuple((self.fresh("F"), self.one(*self.types[3:])) for _ in range(self.random.randint(1, 3)))
            made = Type("record", name, name, components=parts)
            text = f"type {name} is record {' '.join(f'{part} : {it.name};' for part, it in parts)} end record;"
        if self.words(made) <= 12:
            self.types.append(made)
            return [text]
        return []

    def array_type(self, name):
        component = self.one(*self.types)
        small = [it for it in self.integers() if it.high - it.low < 8]
        if small and self.chance(0.3):
            index = self.one(*small)
            return Type("array", name, name, index.low, index.high, component, index), f"type {name} is array ({index.name}) of {component.name};"
        low = self.random.randint(-2, 2)
        high = low + self.random.randint(0, 4)
        return Type("array", name, name, low, high, component, INTEGER), f"type {name} is array ({low} .. {high}) of {component.name};"

    def words(self, it):
        if it.kind == "array":
            return (it.high - it.low + 1) * self.words(it.component)
        return sum(self.words(part) for _, part in it.components) if it.kind == "record" else 1

    # Expressions

    def literal(self, it):
        """A static value of a scalar subtype, nearly always one inside."""
        if it.kind == "boolean":
            return self.one("True", "False")
        if self.chance(0.04):
            return f"({it.name}'{self.one('First', 'Last')})"
        low, high = max(it.low, -9), min(it.high, 20)
        value = self.random.randint(low, high) if low <= high else it.low
        return str(value) if value >= 0 else f"({value})"

    def parts_of(self, thing, place, depth):
        """Names of all scalar parts of an object, of one for each index."""
        found, left = [], [(thing.name, thing.type)]
        while left:
            name, it = left.pop()
            if it.kind == "record":
                left += [(f"{name}.{part}", inner) for part, inner in it.components]
            elif it.kind == "array":
                left.append((f"{name} ({self.index(it, place, depth)})", it.component))
            found.append((name, it))
        return found

    def index(self, it, place, depth):
        if depth <= 0 or self.chance(0.6):
            value = self.random.randint(it.low, it.high) if self.chance(0.97) else it.high + 1
            return str(value) if value >= 0 else f"-{-value}"
        return self.integer(it.index, place, depth - 1)

    def named(self, wanted, place, depth, is_writable=False):
        """The name of a variable of this type, or of a part; None where there is none."""
        objects = [it for it in place.objects if it.is_writable or not is_writable]
        for thing in itertools.islice(self.in_any_order(objects), 8):
            names = [name for name, it in self.parts_of(thing, place, depth) if it.is_like(wanted)]
            if names:
                return self.one(*names)
        return None

    def value(self, it, place, depth=3):
        if it.kind == "integer":
            return self.within(it, place, depth) if it.high - it.low < 100 and self.chance(0.75) else self.integer(it, place, depth)
        if it.kind == "boolean":
            return self.condition(place, depth)
        if it.kind == "time":
            return self.time(place, depth)
        if it.kind == "span":
            return self.span(place, depth)
        return self.named(it, place, depth)

    def within(self, it, place, depth):
        """An integer that is mostly inside of a narrow subtype, whatever it is computed from."""
        wide = self.one(*[other for other in self.integers() if other.base == it.base])
        value = f"{self.primary(wide, place, depth - 1)} mod {it.high - it.low + 1}"
        return f"({value} {'-' if it.low < 0 else '+'} {abs(it.low)})" if it.low else f"({value})"

    def integer(self, it, place, depth):
        name = self.named(it, place, depth - 1)
        if depth <= 0 or self.chance(0.25):
            return name if name and self.chance(0.7) else self.literal(it)
        kind = self.random.randrange(11)
        if kind < 4:
            return self.operation(it, place, depth)
        if kind == 4:
            other = self.one(*self.integers())
            return f"{it.name} ({self.integer(other, place, depth - 1)})"
        if kind == 5:
            return f"(if {self.condition(place, depth - 1)} then {it.name} ({self.integer(it, place, depth - 1)}) else {self.integer(it, place, depth - 1)})"
        if kind == 6:
            return f"(abs {self.primary(it, place, depth - 1)})" if self.chance(0.5) else f"(-{self.primary(it, place, depth - 1)})"
        if kind == 7 and it.base == "Integer":
            return f"Read ({self.integer(INTEGER, place, 0) if self.chance(0.1) else self.random.randint(1, 4)})"
        if kind == 8:
            arrays = [thing for thing in place.objects if thing.type.kind == "array" and thing.type.index.base == it.base]
            if arrays:
                chosen = self.one(*arrays)
                return f"{chosen.name}'{self.one('First', 'Last', 'Length')}"
        if kind >= 8:
            call = self.function_call(it, place, depth)
            if call:
                return call
        return name or self.literal(it)

    def primary(self, it, place, depth):
        """One that needs no parentheses: a name, a literal, or an expression in parentheses."""
        return self.named(it, place, depth) or f"({self.literal(it)})" if depth <= 0 else f"({self.integer(it, place, depth)})"

    def operation(self, it, place, depth):
        terms = [self.primary(it, place, depth - 1) for _ in range(self.random.randint(2, 3))]
        if self.chance(0.25):
            terms = [f"{term} {self.one('*', '/', 'mod', 'rem')} {self.primary(it, place, 0)}" for term in terms]
            text = terms[0]
            for term in terms[1:]:
                text += f" {self.one('+', '-')} {term}"
        else:
            operators = self.one(("+", "-"), ("+", "-"), ("*", "/", "mod", "rem"))
            text = terms[0]
            for term in terms[1:]:
                text += f" {self.one(*operators)} {term}"
        sign = self.one("", "", "", "-", "+")
        typed = it.name if not any(character.isalpha() for character in text.replace("mod", "").replace("rem", "")) else None
        return f"{typed} ({sign}{text})" if typed else f"({sign}{text})"

    def condition(self, place, depth):
        name = self.named(BOOLEAN, place, depth - 1)
        if depth <= 0 or self.chance(0.15):
            return name or self.one("True", "False")
        kind = self.random.randrange(8)
        if kind < 3:
            it = self.one(*self.integers())
            typed = self.named(it, place, 0) or f"{it.name} ({self.literal(it)})"
            return f"({typed} {self.relation()} {self.integer(it, place, depth - 1)})"
        if kind == 3:
            operator = self.one(" and ", " or ", " xor ", " and then ", " or else ")
            return f"({operator.join(self.condition(place, depth - 1) for _ in range(self.random.randint(2, 3)))})"
        if kind == 4:
            return f"(not {self.condition(place, 0) if self.chance(0.3) else '(' + self.condition(place, depth - 1) + ')'})"
        if kind == 5:
            return f"({self.time(place, depth - 1)} {self.relation()} {self.time(place, depth - 1)})"
        if kind == 6:
            return f"(if {self.condition(place, depth - 1)} then {self.condition(place, depth - 1)} else {self.condition(place, depth - 1)})"
        return self.function_call(BOOLEAN, place, depth) or f"({self.span(place, depth - 1)} {self.relation()} {self.span(place, depth - 1)})"

    def relation(self):
        return self.one("=", "/=", "<", "<=", ">", ">=")

    def time(self, place, depth):
        name = self.named(TIME, place, 0)
        if depth <= 0 or self.chance(0.4):
            return name if name and self.chance(0.6) else "Clock"
        return f"({self.time(place, depth - 1)} + {self.span(place, depth - 1)})"

    def span(self, place, depth):
        name = self.named(SPAN, place, 0)
        if name and self.chance(0.4):
            return name
        if depth > 0 and self.chance(0.3):
            return f"({self.time(place, depth - 1)} - {self.time(place, depth - 1)})"
        argument = self.integer(INTEGER, place, depth - 1) if self.chance(0.2) else str(self.random.randint(0, 40))
        return f"{self.one('Milliseconds', 'Microseconds')} ({argument})"

    def function_call(self, it, place, depth):
        functions = [function for function in place.operations + place.own if function.kind == "function" and function.result.is_like(it)]
        if not functions or depth <= 0:
            return None
        return self.call_text(self.one(*functions), place, depth - 1)

    def call_text(self, operation, place, depth):
        """A call with its actuals; None where a variable is wanting."""
        actuals = []
        for _, mode, it in operation.formals:
            actual = self.value(it, place, depth) if mode == "in" else self.named(it, place, depth, is_writable=True)
            if actual is None:
                return None
            actuals.append(actual)
        is_own = operation in place.own
        name = f"{operation.protected}.{operation.name}" if operation.protected and not is_own else operation.name
        return f"{name} ({', '.join(actuals)})" if actuals else name

    # Statements

    def statements(self, place, most=4):
        found = []
        for _ in range(self.random.randint(1, most)):
            found += self.statement(place)
        return found or ["null;"]

    def statement(self, place):
        self.left -= 1
        simple = place.depth >= 4 or self.left <= 0
        kinds = ["assign"] * 5 + ["put"] * 3 + ["call"] * 4 + ["leave"]
        if place.may_wait:
            kinds += ["delay"]
        if not simple:
            kinds += ["if", "if", "case", "for", "while", "loop", "block"] + ["read"] * self.reads
        return getattr(self, f"{self.one(*kinds)}_statement")(place)

    def deeper(self, place, **changes):
        return place.with_(depth=place.depth + 1, **changes)

    def assign_statement(self, place):
        writable = [thing for thing in place.objects if thing.is_writable]
        if not writable:
            return []
        thing = self.one(*writable)
        name, it = self.one(*self.parts_of(thing, place, 1))
        value = self.value(it, place)
        return [f"{name} := {value};"] if value else []

    def put_statement(self, place):
        value = self.named(INTEGER, place, 1) if self.chance(0.5) else None
        value = value or f"Integer ({self.integer(self.one(*self.integers()), place, 2)})"
        return [f'Put ("{self.one("a", "b", "alarm", "x-1", "LEVEL", "#" * self.random.randint(1, 40))}", {value});']

    def call_statement(self, place):
        callable_ = [it for it in place.operations + place.own if it.kind != "function" and (place.may_wait or it.kind != "entry" or self.chance(0.1))]
        if not callable_:
            return []
        text = self.call_text(self.one(*callable_), place, 2)
        return [f"{text};"] if text else []

    def delay_statement(self, place):
        times = [it.name for it in place.objects if it.type is TIME and it.is_writable]
        if times and self.chance(0.7):
            name = self.one(*times)
            return [f"{name} := {name} + {self.one('Milliseconds', 'Microseconds')} ({self.random.randint(0, 12)});", f"delay until {name};"]
        return [f"delay until {self.time(place, 1)};"]

    def leave_statement(self, place):
        kinds = ["raise"]
        if place.in_loop:
            kinds += ["exit", "exit when"] * 2
        if place.in_procedure:
            kinds += ["return"]
        if place.in_handler:
            kinds += ["raise;"]
        kind = self.one(*kinds)
        text = {"exit": "exit;", "return": "return;", "raise;": "raise;"}.get(kind)
        if kind == "exit when":
            return [f"exit when {self.condition(place, 2)};"]
        if kind == "raise":
            text = f"raise {self.one(*PREDEFINED, *self.exceptions)};"
        if self.chance(0.8):
            return [f"if {self.condition(place, 2)} then", f"   {text}", "end if;"]
        return [text]

    def if_statement(self, place):
        lines = [f"if {self.condition(place, 3)} then", *self.indented(self.statements(self.deeper(place), 3))]
        while self.chance(0.25):
            lines += [f"elsif {self.condition(place, 2)} then", *self.indented(self.statements(self.deeper(place), 2))]
        if self.chance(0.5):
            lines += ["else", *self.indented(self.statements(self.deeper(place), 2))]
        return [*lines, "end if;"]

    def read_statement(self, place):
        """What is done, or written, depends on what is read."""
        channel = self.random.randint(1, 4)
        if self.chance(0.4):
            return [f'Put ("{self.one("a", "alarm")}", Read ({channel}));']
        condition = f"Read ({channel}) {self.relation()} {self.random.randint(0, 9)}"
        lines = [f"if {condition} then", *self.indented(self.statements(self.deeper(place), 2))]
        return [*lines, "else", *self.indented(self.statements(self.deeper(place), 2)), "end if;"]

    def case_statement(self, place):
        it = self.one(*self.scalars())
        selector = self.named(it, place, 1)
        if selector is None:
            return []
        values = ["True", "False"] if it.kind == "boolean" else [str(value) if value >= 0 else f"(-{-value})" for value in range(-2, 6)]
        self.random.shuffle(values)
        lines = [f"case {selector} is"]
        for _ in range(self.random.randint(0, 2)):
            if values:
                chosen, values = values[: self.random.randint(1, 2)], values[2:]
                lines += [f"   when {' | '.join(chosen)} =>", *self.indented(self.statements(self.deeper(place), 2), 2)]
        return [*lines, "   when others =>", *self.indented(self.statements(self.deeper(place), 2), 2), "end case;"]

    def for_statement(self, place):
        it = self.one(INTEGER, *self.integers())
        low = max(it.low, min(it.high, self.random.randint(-3, 3)))
        name = self.fresh("I")
        typed = f"{it.name} ({low})"
        high = f"{it.name} ({self.integer(it, place, 1)})" if self.chance(0.1) else f"{low + self.random.randint(-1, 3)}"
        inner = self.deeper(place, in_loop=True)
        inner.objects.append(Object(name, it, False))
        body = self.indented(self.statements(inner, 3))
        if not high.lstrip("-").isdigit():
            body = ["   exit when " + f"{name} > {self.literal(it)};", *body]
        return [f"for {name} in {self.one('', 'reverse ')}{typed} .. {high} loop", *body, "end loop;"]

    def while_statement(self, place):
        return self.counted(place, lambda name, most: f"while {name} < {most} loop", lambda name, most: [])

    def loop_statement(self, place):
        return self.counted(place, lambda name, most: "loop", lambda name, most: [f"exit when {name} >= {most};"])

    def counted(self, place, head, inside):
        """A loop that a counter of a block ends."""
        name, most = self.fresh("N"), self.random.randint(0, 4)
        inner = self.deeper(place, in_loop=True)
        inner.objects.append(Object(name, INTEGER, False))
        body = [*inside(name, most), f"{name} := {name} + 1;", *self.statements(inner, 3)]
        return ["declare", f"   {name} : Integer := 0;", "begin", f"   {head(name, most)}", *self.indented(body, 2), "   end loop;", "end;"]

    def block_statement(self, place):
        inner = self.deeper(place)
        declarations = self.locals(inner, self.random.randint(0, 2))
        lines = ["declare", *self.indented(declarations)] if declarations else []
        return [*lines, "begin", *self.indented(self.statements(inner, 3)), *self.handlers(inner, 0.6), "end;"]

    @staticmethod
    def indented(lines, levels=1):
        return [f"{'   ' * levels}{line}" for line in lines]

    def handlers(self, place, share, calm=0):
        """Handlers of a sequence, with this share; with the second one a single one, which raises nothing."""
        if self.chance(calm):
            return ["exception", "   when others =>", f'      {self.one("null;", "Put (%s, 1);" % self.one(*LABELS))}']
        if not self.chance(share):
            return []
        inner = self.deeper(place, in_handler=True)
        names = [*PREDEFINED, *self.exceptions]
        self.random.shuffle(names)
        lines = ["exception"]
        for _ in range(self.random.randint(0, 2)):
            if names:
                chosen, names = names[: self.random.randint(1, 2)], names[2:]
                lines += [f"   when {' | '.join(chosen)} =>", *self.indented(self.statements(inner, 2), 2)]
        if len(lines) == 1 or self.chance(0.5):
            lines += ["   when others =>", *self.indented(self.statements(inner, 2), 2)]
        return lines

    def locals(self, place, count, is_static=False):
        """Declarations of objects, which are visible from there on."""
        lines = []
        for _ in range(count):
            it = self.one(*self.types, TIME, SPAN, INTEGER)
            name = self.fresh("L")
            initial = self.static_value(it) if is_static else self.value(it, place, 2)
            is_constant = initial is not None and self.chance(0.15)
            if initial is None or (self.chance(0.3) and not is_constant):
                initial = None
            lines.append(f"{name} : {'constant ' if is_constant else ''}{it.name}{f' := {initial}' if initial else ''};")
            place.objects.append(Object(name, it, not is_constant))
        return lines

    def static_value(self, it):
        if it.kind in ("array", "record"):
            return None
        if it.kind == "time":
            return "Clock"
        if it.kind == "span":
            return f"{self.one('Milliseconds', 'Microseconds')} ({self.random.randint(-5, 50)})"
        return self.literal(it)

    # Subprograms

    def formals(self, is_function, most=3):
        found = []
        for _ in range(self.random.randint(0, most)):
            it = self.one(*(self.scalars() if is_function else self.types))
            mode = "in" if is_function else self.one("in", "in", "out", "in out")
            found.append((self.fresh("A"), mode, it))
        return found

    def profile(self, operation):
        written = "; ".join(f"{name} : {self.mode_text(mode)}{it.name}" for name, mode, it in operation.formals)
        result = f" return {operation.result.name}" if operation.result else ""
        return f"{operation.kind} {operation.name}{f' ({written})' if written else ''}{result}"

    @staticmethod
    def mode_text(mode):
        return "" if mode == "in" else f"{mode} "

    def formal_objects(self, operation):
        return [Object(name, it, mode != "in") for name, mode, it in operation.formals]

    def body_lines(self, head, operation, place, calm=0):
        """The text of a body, whose objects and operations are those of the place."""
        if operation.kind == "function":
            expression = self.value(operation.result, place, 3)
            return [f"{head} is", "begin", f"   return {expression};", f"end {operation.name};"]
        declarations = self.locals(place, self.random.randint(0, 2))
        inner = self.statements(place, 4)
        return [f"{head} is", *self.indented(declarations), "begin", *self.indented(inner), *self.handlers(place, 0.7, calm), f"end {operation.name};"]

    def visible(self):
        return self.constants + self.variables

    def subprogram(self):
        is_function = self.chance(0.4)
        operation = Operation("function" if is_function else "procedure", self.fresh("P"), self.formals(is_function))
        if is_function:
            operation.result = self.one(*self.scalars())
        objects = self.visible() + self.formal_objects(operation)
        may_wait = not is_function and self.chance(0.4)
        place = Place(objects, list(self.operations), in_procedure=not is_function, may_wait=may_wait)
        self.left = 12
        lines = self.body_lines(self.profile(operation), operation, place)
        self.operations.append(operation)
        return self.profile(operation) + ";", lines

    def recursion(self):
        """A procedure that calls itself, to a depth that the program chooses, or until no frame is left."""
        name, formal = self.fresh("P"), self.fresh("A")
        most = self.one(3, 20, 125, 126, 127, 200)
        call = f"if {formal} < {most} then {name} ({formal} + 1); end if;"
        lines = [f"procedure {name} ({formal} : Integer) is", "begin", f"   {call}", f'   Put ("depth", {formal});' if self.chance(0.3) else "   null;"]
        lines += ["exception", "   when Storage_Error =>", f'      Put ("full", {formal});', f"      {self.one('raise;', 'null;')}"] if self.chance(0.5) else []
        self.operations.append(Operation("procedure", name, [(formal, "in", NATURAL)]))
        return f"procedure {name} ({formal} : Integer);", [*lines, f"end {name};"]

    # Protected objects

    def protected_object(self, channels):
        name = self.fresh("O")
        components = [Object(self.fresh("C"), self.one(*self.types, BOOLEAN), True) for _ in range(self.random.randint(1, 3))]
        gate = Object(self.fresh("G"), BOOLEAN, True)
        components.append(gate)
        channel = channels.pop() if channels and self.chance(0.5) else None
        ceiling = 31 if channel else self.one(30, 31, self.random.randint(5, 31))
        operations = [self.own_operation(name, ceiling, kind) for kind in self.kinds_of(channel)]
        declared = [f"protected {name}{'' if channel or ceiling == 30 and self.chance(0.5) else f' with Priority => {ceiling}'} is"]
        bodies = [f"protected body {name} is"]
        for operation in operations:
            aspect = f" with Attach_Handler => {channel}" if operation.kind == "procedure" and not operation.formals and channel else ""
            channel = None if aspect else channel
            declared.append(f"   {self.profile(operation)}{aspect};")
        own = [operation for operation in operations]
        for operation in operations:
            bodies += self.indented(self.own_body(operation, own, components, gate))
        declared += ["private", *self.indented(f"{it.name} : {it.type.name}{self.component_value(it)};" for it in components), f"end {name};"]
        self.operations += operations
        return declared, [*bodies, f"end {name};"]

    def component_value(self, thing):
        value = self.static_value(thing.type) if self.chance(0.7) else None
        return f" := {value}" if value else ""

    def kinds_of(self, channel):
        kinds = ["handler"] if channel else []
        kinds += [self.one("procedure", "function", "procedure") for _ in range(self.random.randint(1, 2))]
        if self.chance(0.7):
            kinds += ["procedure"] * ("procedure" not in kinds) + ["entry"]
        return kinds

    def own_operation(self, name, ceiling, kind):
        is_function = kind == "function"
        formals = [] if kind == "handler" else self.formals(is_function, 2)
        result = self.one(*self.scalars()) if is_function else None
        return Operation("procedure" if kind == "handler" else kind, self.fresh("P"), formals, result, name, ceiling)

    def own_body(self, operation, own, components, gate):
        is_function = operation.kind == "function"
        parts = [Object(it.name, it.type, not is_function) for it in components]
        others = [it for it in self.operations if it.kind != "entry" or self.chance(0.05)]
        callable_ = own[: own.index(operation)]
        objects = self.visible() + parts + self.formal_objects(operation)
        place = Place(objects, others, in_procedure=not is_function, own=[it for it in callable_ if it.kind != "entry"])
        self.left = 8
        barrier = f" when {gate.name if self.chance(0.9) else self.one('True', 'False')}" if operation.kind == "entry" else ""
        lines = self.body_lines(self.profile(operation) + barrier, operation, place)
        if operation.kind != "function" and self.chance(0.8):
            value = "False" if operation.kind == "entry" else "True"
            lines.insert(lines.index("begin") + 1, f"   {gate.name} := {value};")
            if operation.kind == "procedure":
                self.openers.append(operation)
        return lines

    # Tasks

    def task(self, meeting):
        """A task, in whose loop this call comes first, if there is one."""
        name, next_ = self.fresh("K"), self.fresh("L")
        priority = self.random.randint(0, 30) if self.chance(0.1) else self.random.randint(1, 12)
        place = Place(self.visible(), list(self.operations), may_wait=True)
        declarations = [f"{next_} : Time := Clock;"]
        place.objects.append(Object(next_, TIME))
        declarations += self.locals(place, self.random.randint(0, 2), is_static=True)
        self.left = 14
        inner = self.deeper(place, in_loop=True)
        period = f"{next_} := {next_} + {self.one('Milliseconds', 'Microseconds')} ({self.random.randint(0, 10)});"
        turn = [*self.statements(inner, 4), *([period, f"delay until {next_};"] if self.chance(0.8) else [])]
        turn = [*self.read_statement(inner), *turn] if self.chance(self.reads / 10) else turn
        turn = ["begin", *self.indented(turn), *self.handlers(inner, 1, 0.9 if meeting else 0.6), "end;"] if meeting or self.chance(0.8) else turn
        turn = [*self.call_lines(meeting, inner), *turn] if meeting else turn
        loop = [f"for {self.fresh('I')} in 1 .. {self.random.randint(1, 5)} loop", *self.indented(turn), "end loop;"]
        body = [*([] if meeting else self.statements(place, 1)), *loop, *self.statements(place, 2)]
        lines = [f"task body {name} is", *self.indented(declarations), "begin", *self.indented(body), *self.handlers(place, 0.95, 0.6), f"end {name};"]
        aspect = "" if self.chance(0.1) else f" with Priority => {priority}"
        return f"task {name}{aspect};", lines

    def meetings(self):
        """Calls by which tasks meet at entries: for most entries one of it, and one of a procedure of its object that opens its barrier."""
        found = []
        for entry in self.operations:
            openers = [it for it in self.openers if it.protected == entry.protected]
            if entry.kind == "entry" and openers and self.chance(0.7):
                found += [entry, self.one(*openers)]
        return found[:4]

    def call_lines(self, operation, place):
        text = self.call_text(operation, place, 1)
        return [f"{text};"] if text else []

    # Programs

    def objects(self):
        lines = []
        for _ in range(self.random.randint(1, 5)):
            it = self.one(*self.types, TIME, SPAN)
            name, value = self.fresh("V"), self.static_value(it)
            is_constant = value is not None and self.chance(0.3)
            has_value = is_constant or (value is not None and self.chance(0.7))
            lines.append(f"{name} : {'constant ' if is_constant else ''}{it.name}{f' := {value}' if has_value else ''};")
            (self.constants if is_constant else self.variables).append(Object(name, it, not is_constant))
        return lines

    def program(self):
        declared, bodies = [], []
        for _ in range(self.random.randint(0, 4)):
            declared += self.type_declaration()
        for _ in range(self.random.randint(0, 2)):
            self.exceptions.append(self.fresh("E"))
            declared.append(f"{self.exceptions[-1]} : exception;")
        declared += self.objects()
        channels = self.random.sample(range(1, 5), self.random.randint(0, 2))
        makers = ["subprogram"] * self.random.randint(0, 3) + ["protected_object"] * self.random.randint(0, 3) + ["recursion"] * self.chance(0.15)
        self.random.shuffle(makers)
        for maker in makers:
            head, lines = self.protected_object(channels) if maker == "protected_object" else getattr(self, maker)()
            declared += head if isinstance(head, list) else [head]
            bodies += lines
        meetings = self.meetings()
        many = max(self.random.randint(self.reads > 1, 4), len(meetings))
        for _, meeting in itertools.zip_longest(range(many), meetings):
            head, lines = self.task(meeting)
            declared.append(head)
            bodies += lines
        run = Operation("procedure", "Run", [])
        place = Place(self.visible(), list(self.operations), in_procedure=True, may_wait=True)
        self.left = 20
        bodies += self.body_lines("procedure Run", run, place, 0.6)
        return self.framed([*declared, "procedure Run;"], bodies)

    def framed(self, declared, bodies):
        aspect = f" with Priority => {self.random.randint(0, 20)}" if self.chance(0.3) else ""
        head = ["pragma Profile (Ravenscar);"] + ["pragma Partition_Elaboration_Policy (Sequential);"] * self.chance(0.5)
        head += ["with Ada.Real_Time; use Ada.Real_Time;", "with Control_IO; use Control_IO;"]
        main = ["with App;", f"procedure Main{aspect} is", "begin", *["   App.Run;"] * self.one(1, 1, 1, 2), "end Main;"]
        package = ["package App is", *self.indented(declared), "end App;", "package body App is", *self.indented(bodies), "end App;"]
        return "\n".join([*head, *package, *main]) + "\n"

    def schedule(self):
        lines, time = [], 0
        for _ in range(self.random.choice((0, 0, 1, 3, 6, 12))):
            time += self.random.choice((0, 0, 1, 500, 1000, 3000, 10_000))
            value = self.random.choice((0, 1, 5, -3, 90, 2**63 - 1, -(2**63))) if self.chance(0.2) else self.random.randint(-9, 30)
            lines.append(f"{time} {self.random.randint(1, 4) if self.chance(0.95) else 8} {value}\n")
        return "".join(lines)


def made_program(seed, reads=2):
    """The text of a program, and a schedule, by a seed."""
    writer = Writer(seed, reads)
    return writer.program(), writer.schedule()
