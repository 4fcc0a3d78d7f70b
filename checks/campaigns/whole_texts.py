"""Random texts of whole Ada 2012 with what `adarun lower` has rules for, by a seed: GNAT compiles them as they are.

Values are small: GNAT's Integer has 32 bits, and that of adarun 64. Functions write no variables, so that the order of operands shows in exceptions alone."""
import random
from dataclasses import dataclass, field

LEVELS = 3


@dataclass(eq=False)
class Type:
    """A type or subtype: its kind is "integer", "count", "enumeration", "modular", "boolean", "record" or "array"."""

    kind: str
    name: str
    low: int = 0
    high: int = 0
    literals: tuple = ()
    components: tuple = ()  # of (name, type, default or "")
    component: "Type" = None
    index: "Type" = None


@dataclass(eq=False)
class Variable:
    name: str
    type: Type
    is_writable: bool = True


@dataclass(eq=False)
class Subprogram:
    name: str
    formals: tuple  # of (name, mode, type, default or "")
    result: Type = None


@dataclass
class Place:
    """What is visible where code is written, and how deep it is."""

    variables: list
    callable: list
    level: int = 0
    loops: tuple = ()
    is_function: bool = False
    may_raise: bool = True

    def deeper(self, **changes):
        return Place(**{**self.__dict__, "variables": list(self.variables), "level": self.level + 1, **changes})


INTEGER = Type("integer", "Integer", -100, 100)
BOOLEAN = Type("boolean", "Boolean")


class Writer:
    """Writes one text."""

    def __init__(self, seed):
        self.random = random.Random(seed)
        self.count = 0
        self.lines, self.indent = [], 0
        self.types, self.constants, self.numbers, self.variables = [], [], [], []
        self.functions, self.procedures, self.exceptions = [], [], []

    # what every part needs

    def chance(self, share):
        return self.random.random() < share

    def one(self, choices):
        return self.random.choice(choices)

    def new(self, beginning):
        self.count += 1
        return f"{beginning}{self.count}"

    def put(self, line):
        self.lines.append("   " * self.indent + line)

    def of_kind(self, *kinds):
        return [type_ for type_ in self.types if type_.kind in kinds]

    def any_scalar(self):
        return self.one([INTEGER, INTEGER, BOOLEAN] + self.of_kind("integer", "count", "enumeration", "modular"))

    # literals and static values

    def integer_literal(self, value):
        if value < 0:
            return f"({value})"
        form = self.random.randrange(12)
        if form == 0:
            return f"16#{value:X}#"
        if form == 1:
            return f"2#{value:b}#"
        if form == 2 and value and value % 10 == 0:
            return f"{value // 10}E1"
        return str(value)

    def static(self, type_):
        """A static value of a scalar type."""
        match type_.kind:
            case "boolean":
                return self.one(["True", "False"])
            case "enumeration":
                return self.one(type_.literals)
            case "modular" | "count":
                return self.integer_literal(self.random.randint(type_.low, type_.high))
            case _:
                return self.integer_literal(self.random.randint(max(type_.low, -20), min(type_.high, 20)))

    # expressions

    def named(self, type_, place):
        """A variable, constant or component of this type, or none."""
        found = []
        for variable in place.variables + self.constants:
            if variable.type is type_:
                found.append(variable.name)
            if variable.type.kind == "record":
                found += [f"{variable.name}.{name}" for name, own, _ in variable.type.components if own is type_]
            if variable.type.kind == "array" and variable.type.component is type_:
                found.append(f"{variable.name} ({self.index(variable.type, place)})")
        return self.one(found) if found else None

    def index(self, array, place):
        if place.level >= LEVELS or self.chance(0.75):
            return self.static(array.index)
        return self.expression(array.index, place.deeper())

    def call(self, function, place):
        actuals, taken, is_named = [], [], False
        for name, mode, type_, default in function.formals:
            if default and mode == "in" and self.chance(0.4):
                is_named = True
                continue
            is_named = is_named or self.chance(0.3)
            if mode == "in":
                # A record or an array that a procedure writes is no actual parameter of mode `in` too: whether that is copied isn't specified (RM 6.2).
                is_copied = function.result is None and type_.kind in ("record", "array")
                actual = self.aggregate(type_, place.deeper()) if is_copied else self.expression(type_, place.deeper())
            else:
                actual = self.target(type_, place, taken)
                taken.append(actual)
            actuals.append(f"{name} => {actual}" if is_named else actual)
        if is_named and self.chance(0.3):
            first = next((at for at, actual in enumerate(actuals) if " => " in actual), len(actuals))
            if all(" => " in actual for actual in actuals[first:]):
                rest = actuals[first:]
                self.random.shuffle(rest)
                actuals = actuals[:first] + rest
        return f"{function.name} ({', '.join(actuals)})" if actuals else function.name

    def targets(self, type_, place):
        """The whole variables of this type that may be written."""
        return [variable.name for variable in place.variables if variable.type is type_ and variable.is_writable]

    def target(self, type_, place, taken):
        """One of these that is no other actual parameter: callers see that there is one."""
        return self.one([name for name in self.targets(type_, place) if name not in taken])

    def can_call(self, subprogram, place):
        written = [type_ for _, mode, type_, _ in subprogram.formals if mode != "in"]
        return all(len(self.targets(type_, place)) >= written.count(type_) for type_ in written)

    def called(self, type_, place):
        found = [own for own in self.functions if own.result is type_ and own.name in place.callable]
        return self.call(self.one(found), place) if found and place.level < LEVELS else None

    def expression(self, type_, place):
        if place.level >= LEVELS or self.chance(0.25):
            return (self.named(type_, place) if self.chance(0.8) else None) or self.simple(type_)
        if self.chance(0.25):
            found = self.called(type_, place)
            if found:
                return found
        own = {"integer": self.integer, "count": self.counted, "enumeration": self.enumerated, "modular": self.modular, "boolean": self.boolean}
        if type_.kind in own:
            return own[type_.kind](type_, place.deeper())
        return self.composite(type_, place)

    def simple(self, type_):
        if type_.kind in ("record", "array"):
            return self.aggregate(type_, None)
        return self.static(type_)

    def composite(self, type_, place):
        if self.chance(0.4):
            found = self.named(type_, place)
            if found:
                return found
        return self.aggregate(type_, place)

    def aggregate(self, type_, place):
        def value(own):
            return self.expression(own, place.deeper()) if place is not None and self.chance(0.6) else self.simple(own)

        if type_.kind == "record":
            parts = [(name, value(own)) for name, own, _ in type_.components]
            if len(parts) > 1 and self.chance(0.4):
                return f"({', '.join(own for _, own in parts)})"
            if self.chance(0.3):
                self.random.shuffle(parts)
            return f"({', '.join(f'{name} => {own}' for name, own in parts)})"
        indexes = type_.index.literals if type_.index.kind == "enumeration" else [str(at) for at in range(type_.index.low, type_.index.high + 1)]
        match self.random.randrange(4):
            case 0:
                return f"(others => {value(type_.component)})"
            case 1 if len(indexes) > 1:
                return f"({indexes[0]} => {value(type_.component)}, others => {value(type_.component)})"
            case 2 if len(indexes) > 2:
                return f"({indexes[0]} .. {indexes[1]} => {value(type_.component)}, others => {value(type_.component)})"
            case _ if len(indexes) > 1:
                return f"({', '.join(value(type_.component) for _ in indexes)})"
            case _:
                return f"(others => {value(type_.component)})"

    def integer(self, type_, place):
        if type_ is not INTEGER and self.chance(0.5):
            return self.named(type_, place) or self.static(type_)
        left, right = self.expression(INTEGER, place), self.expression(INTEGER, place)
        forms = [
            lambda: f"({left} {self.one('+-')} {right})",
            lambda: f"({left} {self.one(['mod', 'rem', '/'])} {self.one(['3', '7', '10', right])})",
            lambda: f"(({left}) mod 50 * (({right}) mod 9))",
            lambda: f"abs ({left})",
            lambda: f"(if {self.boolean(BOOLEAN, place.deeper())} then {left} else {right})",
            lambda: f"Integer'{self.one(['Max', 'Min'])} ({left}, {right})",
            lambda: f"Integer'(({left}))",
        ]
        for kind in ("enumeration", "count", "modular"):
            for own in self.of_kind(kind)[:2]:
                attribute = f"{own.name}'Pos ({self.expression(own, place)})" if kind == "enumeration" else f"Integer ({self.expression(own, place)})"
                forms.append(lambda attribute=attribute: attribute)
        for own in self.of_kind("array")[:2]:
            forms.append(lambda own=own: f"{own.name}'Length")
        if self.numbers:
            forms.append(lambda: self.one(self.numbers))
        return self.one(forms)()

    def counted(self, type_, place):
        forms = [
            lambda: self.named(type_, place) or self.static(type_),
            lambda: f"{type_.name} ({self.expression(INTEGER, place)} mod {type_.high - type_.low + 1} + {type_.low})",
            lambda: f"{type_.name}'{self.one(['First', 'Last'])}",
            lambda: f"({self.expression(type_, place)} + {self.one(['1', '2'])})",
        ]
        return self.one(forms)()

    def enumerated(self, type_, place):
        return self.one(
            [
                lambda: self.static(type_),
                lambda: f"{type_.name}'Val ({self.expression(INTEGER, place)} mod {len(type_.literals)})",
                lambda: f"{type_.name}'{self.one(['Succ', 'Pred'])} ({self.expression(type_, place)})",
                lambda: f"{type_.name}'{self.one(['First', 'Last'])}",
            ]
        )()

    def modular(self, type_, place):
        left = self.named(type_, place) or f"{type_.name} ({self.integer_literal(self.random.randint(0, type_.high))})"
        return self.one(
            [
                lambda: left,
                lambda: f"({left} {self.one('+-*')} {self.expression(type_, place)})",
                lambda: f"{type_.name} ({self.expression(INTEGER, place)} mod {type_.high + 1})",
                lambda: f"{type_.name}'{self.one(['Succ', 'Pred'])} ({left})",
            ]
        )()

    def boolean(self, type_, place):
        own = self.any_scalar()
        if own is BOOLEAN or not self.named(own, place):
            own = INTEGER
        left = self.named(own, place)
        low, high = (self.integer_literal(at) for at in sorted((self.random.randint(0, 9), self.random.randint(0, 9))))
        records = [variable for variable in place.variables if variable.type.kind == "record"]
        forms = [
            lambda: f"{left} {self.one(['=', '/=', '<', '<=', '>', '>='])} {self.expression(own, place)}",
            lambda: f"{self.named(INTEGER, place)} {self.one(['in', 'not in'])} {low} .. {high}",
            lambda: f"({self.named(INTEGER, place)} + {self.expression(INTEGER, place)}) in {low} | {high} | 11 .. 15",
            lambda: f"not {self.condition(place)}",
            lambda: f"({self.condition(place)} {self.one(['and', 'or', 'xor', 'and then', 'or else'])} {self.condition(place)})",
        ]
        if len(records) > 1 and self.chance(0.2):
            pair = self.random.sample(records, 2)
            if pair[0].type is pair[1].type:
                forms.append(lambda: f"{pair[0].name} {self.one(['=', '/='])} {pair[1].name}")
        return "(" + self.one(forms)() + ")"

    def condition(self, place):
        """A Boolean expression that is no literal."""
        if place.level >= LEVELS:
            return self.named(BOOLEAN, place) or f"({self.named(INTEGER, place)} > {self.static(INTEGER)})"
        return self.boolean(BOOLEAN, place.deeper())

    # statements

    def statements(self, place, many):
        self.indent += 1
        for _ in range(self.random.randint(1, many)):
            self.statement(place)
        self.indent -= 1

    def statement(self, place):
        if place.level >= LEVELS or self.chance(0.45):
            return self.simple_statement(place)
        return self.one([self.if_statement, self.case_statement, self.for_loop, self.while_loop, self.block, self.element_loop, self.plain_loop])(place)

    def simple_statement(self, place):
        match self.random.randrange(10):
            case 0 | 1 | 2:
                if place.is_function:
                    return self.assignment(place)
                return self.put(f'Put ("{self.new("v")}", {self.expression(INTEGER, place.deeper())});')
            case 3 if self.exceptions and place.may_raise and self.chance(0.5):
                return self.put(f"if {self.boolean(BOOLEAN, place.deeper())} then raise {self.one(self.exceptions)}; end if;")
            case 4 if not place.is_function:
                own = [one for one in self.procedures if one.name in place.callable and self.can_call(one, place)]
                return self.put(self.call(self.one(own), place) + ";") if own else self.assignment(place)
            case 5 if place.loops and self.chance(0.6):
                name = self.one(place.loops)
                return self.put(f"exit{' ' + name if name else ''} when {self.boolean(BOOLEAN, place.deeper())};")
            case _:
                return self.assignment(place)

    def assignment(self, place):
        found = [variable for variable in place.variables if variable.is_writable]
        if not found:
            return self.put("null;")
        variable = self.one(found)
        type_, name = variable.type, variable.name
        if type_.kind == "record" and self.chance(0.5):
            part, type_, _ = self.one(type_.components)
            name = f"{name}.{part}"
        if type_.kind == "array" and self.chance(0.6):
            name, type_ = f"{name} ({self.index(type_, place)})", type_.component
        return self.put(f"{name} := {self.value(type_, place)};")

    def value(self, type_, place):
        """An expression for a variable: most are within its range."""
        if type_.kind == "integer" and self.chance(0.8):
            found = self.named(INTEGER, place)
            return f"({self.integer(INTEGER, place.deeper())}) mod {type_.high + 1}" if found and type_.high > 0 else self.static(type_)
        return self.expression(type_, place.deeper())

    def if_statement(self, place):
        self.put(f"if {self.boolean(BOOLEAN, place.deeper())} then")
        self.statements(place.deeper(), 2)
        if self.chance(0.3):
            self.put(f"elsif {self.boolean(BOOLEAN, place.deeper())} then")
            self.statements(place.deeper(), 2)
        if self.chance(0.5):
            self.put("else")
            self.statements(place.deeper(), 2)
        self.put("end if;")

    def case_statement(self, place):
        enumerations = self.of_kind("enumeration")
        if enumerations and self.chance(0.6):
            type_ = self.one(enumerations)
            left, is_whole = list(type_.literals), self.chance(0.5)
            self.put(f"case {self.named(type_, place) or self.static(type_)} is")
            while left:
                many = self.random.randint(1, 2)
                taken, left = left[:many], left[many:]
                shown = f"{taken[0]} .. {taken[-1]}" if len(taken) > 1 and self.chance(0.3) else " | ".join(taken)
                self.put(f"   when {'others' if not left and not is_whole else shown} =>")
                self.indent += 1
                self.statements(place.deeper(), 1)
                self.indent -= 1
        else:
            self.put(f"case {self.named(INTEGER, place)} is")
            for choice in (f"{self.random.randint(-3, 0)} .. {self.random.randint(1, 3)}", "4 | 6 .. 8", "others"):
                self.put(f"   when {choice} =>")
                self.indent += 1
                self.statements(place.deeper(), 1)
                self.indent -= 1
        self.put("end case;")

    def for_loop(self, place):
        name, label = self.new("I"), self.new("Loop") if self.chance(0.4) else ""
        ranges = [(INTEGER, f"{self.random.randint(-1, 1)} .. {self.random.randint(1, 4)}"), (INTEGER, f"reverse 1 .. {self.random.randint(1, 4)}")]
        ranges += [(own, own.name) for own in self.of_kind("enumeration")] + [(own, f"{own.literals[0]} .. {own.literals[1]}") for own in self.of_kind("enumeration")]
        ranges += [(variable.type.index, f"{variable.name}'Range") for variable in place.variables if variable.type.kind == "array"]
        type_, range_ = self.one(ranges)
        range_ = range_.replace("reverse ", "") if not range_.startswith("reverse") else range_
        self.put(f"{label + ' : ' if label else ''}for {name} in {range_} loop")
        inner = place.deeper(loops=place.loops + (label,))
        inner.variables.append(Variable(name, type_, False))
        self.statements(inner, 2)
        self.put(f"end loop{' ' + label if label else ''};")

    def element_loop(self, place):
        arrays = [variable for variable in place.variables if variable.type.kind == "array" and variable.is_writable]
        if not arrays:
            return self.for_loop(place)
        array, name = self.one(arrays), self.new("E")
        self.put(f"for {name} of {array.name} loop")
        inner = place.deeper(loops=place.loops + ("",))
        inner.variables = [variable for variable in inner.variables if variable is not array] + [Variable(name, array.type.component)]
        self.statements(inner, 2)
        return self.put("end loop;")

    def while_loop(self, place):
        name = self.new("N")
        self.put("declare")
        self.put(f"   {name} : Integer := {self.random.randint(0, 2)};")
        self.put("begin")
        self.indent += 1
        self.put(f"while {name} < {self.random.randint(1, 5)}{' and then ' + self.boolean(BOOLEAN, place.deeper()) if self.chance(0.4) else ''} loop")
        self.put(f"   {name} := {name} + 1;")
        inner = place.deeper(loops=place.loops + ("",))
        inner.variables.append(Variable(name, INTEGER, False))
        self.statements(inner, 2)
        self.put("end loop;")
        self.indent -= 1
        self.put("end;")

    def plain_loop(self, place):
        label, name = self.new("Loop"), self.new("N")
        self.put("declare")
        self.put(f"   {name} : Integer := 0;")
        self.put("begin")
        self.indent += 1
        self.put(f"{label} : loop")
        self.put(f"   {name} := {name} + 1;")
        self.put(f"   exit {label} when {name} > {self.random.randint(1, 4)};")
        inner = place.deeper(loops=place.loops + (label,))
        inner.variables.append(Variable(name, INTEGER, False))
        self.statements(inner, 2)
        self.put(f"end loop {label};")
        self.indent -= 1
        self.put("end;")

    def block(self, place):
        self.put("declare")
        inner = place.deeper(may_raise=True)
        self.declarations(inner, 2)
        self.put("begin")
        self.statements(inner, 3)
        self.handlers(place)
        self.put("end;")

    def handlers(self, place):
        self.put("exception")
        for name in self.random.sample(self.exceptions, self.random.randint(0, len(self.exceptions))) + ["Constraint_Error"]:
            self.put(f"   when {name} =>")
            self.indent += 1
            self.statements(place.deeper(level=LEVELS, may_raise=False), 1)
            self.indent -= 1
        if self.chance(0.5):
            self.put("   when others => null;")

    # declarations

    def declarations(self, place, many):
        self.indent += 1
        for _ in range(self.random.randint(1, many)):
            self.variable(place)
        self.indent -= 1

    def variable(self, place):
        type_ = self.one([INTEGER, self.any_scalar()] + self.of_kind("record", "array"))
        value = self.value(type_, place) if self.chance(0.7) else self.simple(type_)
        if type_.kind == "record" and all(default for _, _, default in type_.components) and self.chance(0.5):
            value = ""
        names = [self.new("X") for _ in range(2 if self.chance(0.2) else 1)]
        self.put(f"{', '.join(names)} : {'constant ' if value and self.chance(0.15) else ''}{type_.name}{' := ' + value if value else ''};")
        is_writable = "constant" not in self.lines[-1]
        place.variables += [Variable(name, type_, is_writable) for name in names]

    def type_declarations(self):
        for _ in range(self.random.randint(1, 2)):
            literals = tuple(self.new("L") for _ in range(self.random.randint(2, 5)))
            self.types.append(Type("enumeration", self.new("Kind"), 0, len(literals) - 1, literals))
            self.put(f"type {self.types[-1].name} is ({', '.join(literals)});")
        if self.chance(0.3):
            modulus = self.one([2, 7, 16, 100, 256])
            self.types.append(Type("modular", self.new("Ring"), 0, modulus - 1))
            self.put(f"type {self.types[-1].name} is mod {modulus};")
        low = self.random.randint(-3, 1)
        self.types.append(Type("count", self.new("Count"), low, low + self.random.randint(2, 40)))
        self.put(f"type {self.types[-1].name} is range {low} .. {self.types[-1].high};")
        self.types.append(Type("integer", self.new("Small"), -20, self.random.randint(5, 60)))
        self.put(f"subtype {self.types[-1].name} is Integer range -20 .. {self.types[-1].high};")
        for _ in range(self.random.randint(1, 2)):
            components = []
            for _ in range(self.random.randint(1, 3)):
                own = self.any_scalar()
                components.append((self.new("C"), own, self.static(own) if self.chance(0.4) else ""))
            self.types.append(Type("record", self.new("Pair"), components=tuple(components)))
            self.put(f"type {self.types[-1].name} is record")
            for name, own, default in components:
                self.put(f"   {name} : {own.name}{' := ' + default if default else ''};")
            self.put("end record;")
        for _ in range(self.random.randint(1, 2)):
            index = self.one([Type("integer", "", 1, self.random.randint(1, 4)), self.one(self.of_kind("enumeration"))])
            component = self.one([INTEGER, self.any_scalar()] + self.of_kind("record"))
            self.types.append(Type("array", self.new("Row"), index=index, component=component))
            shown = f"1 .. {index.high}" if not index.name else index.name
            self.put(f"type {self.types[-1].name} is array ({shown}) of {component.name};")

    def constant_declarations(self):
        for _ in range(self.random.randint(0, 2)):
            self.numbers.append(self.new("Number"))
            self.put(f"{self.numbers[-1]} : constant := {self.random.randint(0, 30)}{self.one(['', ' * 2', ' + 2 ** 3'])};")
        self.constants.append(Variable(self.new("K"), INTEGER, False))
        self.put(f"{self.constants[-1].name} : constant Integer := {self.random.randint(1, 9)};")
        for _ in range(self.random.randint(0, 2)):
            type_ = self.any_scalar()
            self.constants.append(Variable(self.new("K"), type_, False))
            self.put(f"{self.constants[-1].name} : constant {type_.name} := {self.static(type_)};")
        for _ in range(self.random.randint(0, 2)):
            self.exceptions.append(self.new("Error"))
        if self.exceptions:
            self.put(f"{', '.join(self.exceptions)} : exception;")

    def specification_of(self, own):
        formals = "; ".join(f"{name} : {'' if mode == 'in' else mode + ' '}{type_.name}{' := ' + default if default else ''}" for name, mode, type_, default in own.formals)
        head = f"{'function' if own.result else 'procedure'} {own.name}{' (' + formals + ')' if formals else ''}"
        return head + (f" return {own.result.name}" if own.result else "")

    def new_subprogram(self, is_function):
        formals = []
        for _ in range(self.random.randint(0, 3)):
            type_ = self.one([INTEGER, self.any_scalar()] + self.of_kind("record", "array"))
            mode = "in" if is_function else self.one(["in", "in", "out", "in out"])
            default = self.static(type_) if mode == "in" and type_.kind not in ("record", "array") and self.chance(0.3) else ""
            formals.append((self.new("P"), mode, type_, default))
        formals.sort(key=lambda own: bool(own[3]))
        result = self.one([INTEGER, self.any_scalar()] + self.of_kind("record")) if is_function else None
        return Subprogram(self.new("F" if is_function else "Do"), tuple(formals), result)

    def place_within(self, own):
        """What a body sees in its declarations: formal parameters of mode `out` have no values there."""
        variables = [Variable(one.name, one.type, False) for one in self.variables] if own.result else []
        variables += [Variable(name, type_, mode != "in") for name, mode, type_, _ in own.formals if mode != "out"]
        names = {one.name for one in self.functions + self.procedures}
        return Place(variables, names, is_function=own.result is not None)

    def subprogram(self, own):
        place = self.place_within(own)
        if own.result and self.chance(0.3):
            return self.put(f"{self.specification_of(own)} is ({self.expression(own.result, place.deeper(level=1))});")
        self.put(f"{self.specification_of(own)} is")
        if self.chance(0.7):
            self.declarations(place, 2)
        self.put("begin")
        self.indent += 1
        for name, mode, type_, _ in own.formals:
            if mode == "out":
                self.put(f"{name} := {self.simple(type_)};")
                place.variables.append(Variable(name, type_))
        self.indent -= 1
        self.statements(place.deeper(level=1), 3)
        if own.result:
            self.indent += 1
            if self.chance(0.4):
                self.put(f"if {self.boolean(BOOLEAN, place.deeper())} then")
                self.put(f"   return {self.expression(own.result, place.deeper())};")
                self.put("end if;")
            self.put(f"return {self.expression(own.result, place.deeper())};")
            self.indent -= 1
        return self.put("end;" if self.chance(0.3) else f"end {own.name};")

    # what a text shows

    def shown(self, name, type_):
        """Writes the value of a scalar."""
        forms = {"enumeration": f"{type_.name}'Pos ({name})", "boolean": f"Boolean'Pos ({name})", "count": f"Integer ({name})", "modular": f"Integer ({name})"}
        self.put(f'Put ("{self.new("s")}", {forms.get(type_.kind, name)});')

    def show(self, variable):
        """Writes all values that a variable has."""
        if variable.type.kind == "record":
            for name, own, _ in variable.type.components:
                self.shown(f"{variable.name}.{name}", own)
        elif variable.type.kind == "array":
            name = self.new("I")
            self.put(f"for {name} in {variable.name}'Range loop")
            self.indent += 1
            self.show(Variable(f"{variable.name} ({name})", variable.type.component))
            self.indent -= 1
            self.put("end loop;")
        else:
            self.shown(variable.name, variable.type)

    def text(self):
        self.put("pragma Profile (Ravenscar);")
        self.put("with Control_IO; use Control_IO;")
        self.put("package Board is")
        self.indent += 1
        self.type_declarations()
        self.constant_declarations()
        self.put("procedure Run;")
        self.indent -= 1
        self.put("end Board;")
        self.put("package body Board is")
        self.indent += 1
        place = Place([], set())
        for _ in range(self.random.randint(1, 4)):
            type_ = self.one([INTEGER, self.any_scalar()] + self.of_kind("record", "array"))
            self.variables.append(Variable(self.new("V"), type_))
            self.put(f"{self.variables[-1].name} : {type_.name} := {self.simple(type_)};")
        for _ in range(self.random.randint(1, 5)):
            is_function = self.chance(0.6)
            own = self.new_subprogram(is_function)
            self.subprogram(own)
            (self.functions if is_function else self.procedures).append(own)
        self.put("procedure Run is")
        place = Place(list(self.variables), {one.name for one in self.functions + self.procedures}, level=LEVELS - 1)
        self.declarations(place, 4)
        place.level = 0
        self.put("begin")
        for _ in range(self.random.randint(2, 5)):
            self.indent += 1
            self.block(place)
            for variable in self.random.sample(place.variables, min(2, len(place.variables))):
                self.show(variable)
            self.indent -= 1
        self.put("end Run;")
        self.indent -= 1
        self.put("end Board;")
        self.put("with Board;")
        self.put("procedure Main is begin Board.Run; end Main;")
        return "\n".join(self.lines) + "\n"


def text_of(seed):
    """The text of a seed, as bytes would be compiled by GNAT and lowered here."""
    return Writer(seed).text()
