"""Judges trees by the rules of docs/LANGUAGE.md: the faults from 10 to 23, or else those from 30 to 39 and 70 to 73, each with the byte of its place.

Written from that document, and corrected by the rows of checks/rules.txt, beside the crates that check the same. Uses of a name whose own declaration is
broken are not judged."""
from dataclasses import dataclass, field
from typing import Optional

import restrictions
import tree
from values import LEAST, GREATEST, MICROSECONDS, OPERATORS, SIGNS, Raised, in_base

MOST_COMPONENTS, MOST_FORMALS, MOST_WORDS, MOST_FRAME, MOST_LABELS = 1024, 8, 8192, 512, 1024
MOST_SUBPROGRAMS, MOST_TASKS, MOST_OBJECTS, MOST_EXCEPTIONS = 128, 64, 64, 32
SMALL_TOKENS, SMALL_LEVELS, SMALL_WORDS = 2_000, 16, 64
COMPOSITE = ("array", "record")
RELATIONS, LOGICAL = ("=", "/=", "<", "<=", ">", ">="), ("and", "or", "xor", "and then", "or else")


@dataclass(eq=False)
class Type:
    """A type: "integer", "boolean", "time", "span", "array" or "record"; "broken" where its declaration is, "any" of what has no type by itself."""

    kind: str
    index: Optional["Subtype"] = None
    low: int = 0
    high: int = 0
    component: Optional["Subtype"] = None
    components: dict = field(default_factory=dict)


@dataclass(eq=False)
class Subtype:
    type: Type
    low: int = LEAST
    high: int = GREATEST


ANY, BROKEN = Type("any"), Type("broken")
BOOLEAN, TIME, SPAN, INTEGER = Type("boolean"), Type("time"), Type("span"), Type("integer")
INTEGER_SUBTYPE = Subtype(INTEGER)
BROKEN_SUBTYPE = Subtype(BROKEN)


@dataclass(eq=False)
class Entity:
    """What a name denotes: its kind is "subtype", "object", "literal", "procedure", "function", "entry", "task", "protected", "exception", "package", "clock",
    "span function", "read" or "put"."""

    kind: str
    subtype: Optional[Subtype] = None
    is_constant: bool = False
    value: object = None  # of a static constant
    profile: Optional["Profile"] = None
    operations: dict = field(default_factory=dict)
    components: list = field(default_factory=list)
    entries: tuple = ()
    at: int = 0
    has_body: bool = False
    is_declared: bool = False
    in_specification: bool = False
    is_broken: bool = False


@dataclass(eq=False)
class Profile:
    kind: str
    formals: list  # of (name, mode, Subtype, name of the subtype, place)
    result: Optional[Subtype] = None
    result_name: str = ""

    def is_like(self, other):
        def shown(profile):
            return [(name, mode, subtype_name) for name, mode, _, subtype_name, _ in profile.formals]

        return self.kind == other.kind and shown(self) == shown(other) and self.result_name == other.result_name


class Static(Exception):
    """An expression isn't static, or its evaluation raises."""


class NotStatic(Static):
    def __init__(self, at):
        super().__init__(at)
        self.at = at


PREDEFINED = {
    "INTEGER": Entity("subtype", INTEGER_SUBTYPE), "NATURAL": Entity("subtype", Subtype(INTEGER, 0)), "POSITIVE": Entity("subtype", Subtype(INTEGER, 1)),
    "BOOLEAN": Entity("subtype", Subtype(BOOLEAN)),
    "TRUE": Entity("literal", Subtype(BOOLEAN), True, True), "FALSE": Entity("literal", Subtype(BOOLEAN), True, False),
    **{name: Entity("exception") for name in ("CONSTRAINT_ERROR", "PROGRAM_ERROR", "STORAGE_ERROR", "TASKING_ERROR")},
}
UNITS = {
    "ADA.REAL_TIME": {
        "TIME": Entity("subtype", Subtype(TIME)), "TIME_SPAN": Entity("subtype", Subtype(SPAN)), "CLOCK": Entity("clock"),
        "MILLISECONDS": Entity("span function"), "MICROSECONDS": Entity("span function"),
    },
    "CONTROL_IO": {"PUT": Entity("put"), "READ": Entity("read")},
}


@dataclass
class Context:
    """Where a statement is."""

    result: Optional[Subtype] = None
    kind: str = "procedure"
    in_loop: bool = False
    in_handler: bool = False
    needs_static: bool = False


class Judge:
    """Judges one program."""

    def __init__(self, program):
        self.program, self.faults = program, set()
        self.scope = dict(PREDEFINED)
        self.own_types = {}  # of each expression that was met, with it
        self.own = None  # the protected object within whose body it is
        self.words, self.frame = 0, 0  # those of the package, and of the body in which it is, up to here
        self.with_loops, self.most_with_loops = 0, 0  # those of that body and a word for each loop parameter, and the most of a body

    def fault(self, number, at):
        self.faults.add((at, number))

    def declare(self, name, at, entity):
        """Makes a name visible, unless one like it is."""
        entity.at = at
        if name in self.scope:
            self.fault(11, at)
            return False
        self.scope[name] = entity
        return True

    # Words

    def takes(self, subtype, at):
        """A variable or a component of the package."""
        before, self.words = self.words, self.words + words_of(subtype)
        if before <= MOST_WORDS < self.words:
            self.fault(23, at)

    def takes_in_frame(self, subtype, at):
        before, self.frame = self.frame, self.frame + words_of(subtype)
        self.adds(words_of(subtype))
        if before <= MOST_FRAME < self.frame:
            self.fault(23, at)

    def adds(self, words):
        self.with_loops += words
        self.most_with_loops = max(self.most_with_loops, self.with_loops)

    def begins_frame(self, profile=None):
        self.frame = self.with_loops = 0
        for _, _, subtype, _, at in profile.formals if profile else []:
            self.takes_in_frame(subtype, at)

    # Names of subtypes

    def subtype_named(self, name):
        entity = self.scope.get(name.name)
        if entity is None:
            self.fault(10, name.at)
        elif entity.kind != "subtype":
            self.fault(12, name.at)
        else:
            return entity.subtype
        return BROKEN_SUBTYPE

    # Static values

    def static_value(self, expression):
        """The value of a static expression; raises NotStatic, or Raised where its evaluation raises."""
        if isinstance(expression, tree.Number):
            return expression.value
        if isinstance(expression, tree.Parenthesized):
            return self.static_value(expression.inner)
        if isinstance(expression, tree.Unary):
            return SIGNS[expression.operator](self.static_value(expression.operand))
        if isinstance(expression, tree.Binary):
            return self.static_operation(expression)
        if isinstance(expression, tree.Name):
            return self.static_name(expression)
        raise NotStatic(expression.at)

    def is_static(self, expression):
        try:
            self.static_value(expression)
        except NotStatic:
            return False
        except Raised:
            return all(self.is_static(part) for part in parts_of(expression))
        return all(self.is_static(part) for part in parts_of(expression))

    def static_operation(self, expression):
        left = self.static_value(expression.left)
        if expression.operator in ("and then", "or else"):
            return left if left == (expression.operator == "or else") else self.static_value(expression.right)
        return OPERATORS[expression.operator](left, self.static_value(expression.right))

    def static_name(self, name):
        entity = self.scope.get(name.name)
        if entity is None or entity.is_broken:
            raise Raised("unknown")
        if not name.parts and entity.kind in ("object", "literal") and entity.value is not None:
            return entity.value
        if name.parts and name.parts[-1].kind == "attribute":
            found = self.attribute_of(name, entity)
            if found:
                return found[1]
        if name.parts and not self.has_meaning(name):
            raise Raised("unknown")
        raise NotStatic(name.at)

    def has_meaning(self, name):
        """Whether each part of a name has a meaning after those before it, as a call that has no value does; faults are reported where the name is judged."""
        faults, self.faults = self.faults, set()
        try:
            return self.is_call(name, self.scope[name.name]) or self.name_type(name) is not BROKEN
        finally:
            self.faults = faults

    def is_call(self, name, entity):
        parts = name.parts
        if entity.kind == "protected":
            operation, parts = self.operation_of(name, entity), parts[1:]
            is_callable = operation not in ("none", None)
        else:
            is_callable = entity.kind in ("procedure", "entry", "put")
        return is_callable and [part.kind for part in parts] in ([], ["arguments"])

    def attribute_of(self, name, entity):
        """The type and the value of an attribute; None where it has no meaning."""
        which = name.parts[-1].name
        if entity.kind == "subtype" and len(name.parts) == 1:
            subtype = entity.subtype
            if subtype.type.kind == "integer" and which in ("FIRST", "LAST"):
                return subtype.type, subtype.low if which == "FIRST" else subtype.high
            kind = subtype.type
        elif entity.kind == "object":
            kind = self.prefix_type(name, entity)
        else:
            return None
        if kind is None or kind.kind != "array" or which not in ("FIRST", "LAST", "LENGTH"):
            return None
        values = {"FIRST": kind.low, "LAST": kind.high, "LENGTH": kind.high - kind.low + 1}
        return (ANY if which == "LENGTH" else kind.index.type), values[which]

    def prefix_type(self, name, entity):
        kind = entity.subtype.type
        for part in name.parts[:-1]:
            if part.kind == "select" and kind.kind == "record" and part.name in kind.components:
                kind = kind.components[part.name].type
            elif part.kind == "arguments" and kind.kind == "array":
                kind = kind.component.type
            else:
                return None
        return kind

    def require_static(self, expression, subtype, is_sound):
        """14 where it isn't static; 15 where its value raises or is outside of its subtype, and nothing else is broken in it."""
        if not self.is_static(expression):
            self.fault(14, expression.at)
            return None
        if not is_sound:
            return None
        try:
            value = self.static_value(expression)
        except Raised:
            self.fault(15, expression.at)
            return None
        if subtype.type.kind in ("integer", "any") and not subtype.low <= value <= subtype.high:
            self.fault(15, expression.at)
            return None
        return value

    # Expressions

    def expected(self, expression, kind):
        """Judges an expression that is to be of this type; whether nothing is broken in it."""
        before = len(self.faults)
        self.matches(expression, self.type_of(expression, kind), kind)
        return len(self.faults) == before

    def matches(self, expression, found, kind):
        if found is BROKEN or kind is BROKEN or found is kind or (found is ANY and kind.kind in ("integer", "any")):
            return
        if kind is ANY and found.kind == "integer":
            return
        self.fault(12, expression.at)

    def expected_integer(self, expression):
        """Judges an expression that is to be of any integer type, and gives its type."""
        found = self.type_of(expression, None)
        if found is not BROKEN and found is not ANY and found.kind != "integer":
            self.fault(12, expression.at)
            return BROKEN
        return found

    def type_of(self, expression, kind=None):
        """The type of an expression, whose parts are judged; `kind` is that which is expected, if one is known."""
        if isinstance(expression, tree.Number):
            return ANY
        if isinstance(expression, tree.Label):
            self.fault(12, expression.at)
            return BROKEN
        if isinstance(expression, tree.Parenthesized):
            return self.type_of(expression.inner, kind)
        if isinstance(expression, tree.IfExpression):
            return self.if_type(expression, kind)
        if isinstance(expression, tree.Unary):
            return self.unary_type(expression, kind)
        if isinstance(expression, tree.Binary):
            return self.binary_type(expression)
        return self.name_type(expression)

    def own_type(self, expression):
        """The type that an expression has by itself; nothing of it is reported."""
        if id(expression) not in self.own_types:
            kept = set(self.faults)
            self.own_types[id(expression)] = (self.type_of(expression), expression)
            self.faults = kept
        return self.own_types[id(expression)][0]

    def if_type(self, expression, kind):
        for condition, _ in expression.branches:
            self.expected(condition, BOOLEAN)
        parts = [value for _, value in expression.branches] + [expression.otherwise]
        types = [self.own_type(part) for part in parts]
        known = [it for it in types if it is not ANY and it is not BROKEN]
        if BROKEN not in types and len({id(it) for it in known}) <= 1 and not (known and ANY in types and known[0].kind != "integer"):
            found, wanted = known[0] if known else ANY, None
        else:
            found, wanted = BROKEN, kind if kind is not None and kind not in (ANY, BROKEN) else known[0] if known else None
        for part, own in zip(parts, types):
            self.type_of(part, wanted)
            if wanted is not None:
                self.matches(part, own, wanted)
        return found

    def unary_type(self, expression, kind):
        found = self.own_type(expression.operand)
        self.type_of(expression.operand, BOOLEAN if expression.operator == "not" else kind)
        if expression.operator == "not":
            if found not in (BOOLEAN, BROKEN):
                self.fault(12, expression.at)
            return BOOLEAN
        if found is BROKEN or found is ANY or found.kind == "integer":
            return found
        self.fault(12, expression.at)
        return BROKEN

    @staticmethod
    def beside(operator, other):
        """What is expected of an operand beside one of this type."""
        if operator in LOGICAL:
            return BOOLEAN
        if other is BROKEN or other is ANY:
            return None
        return other if operator in RELATIONS or other.kind == "integer" else None

    def binary_type(self, expression):
        operator = expression.operator
        left, right = self.own_type(expression.left), self.own_type(expression.right)
        self.type_of(expression.left, self.beside(operator, right))
        self.type_of(expression.right, self.beside(operator, left))
        if operator in LOGICAL or operator in RELATIONS:
            has_meaning = left is BOOLEAN and right is BOOLEAN if operator in LOGICAL else self.are_compared(left, right)
            if BROKEN not in (left, right) and not has_meaning:
                self.fault(12, expression.at)
            return BOOLEAN
        if BROKEN in (left, right):
            return BROKEN
        found = self.result_of(operator, left, right)
        if found is None:
            self.fault(12, expression.at)
            return BROKEN
        return found

    @staticmethod
    def are_compared(left, right):
        if left.kind in ("integer", "any") and right.kind in ("integer", "any"):
            return left is right or ANY in (left, right)
        return left is right and left.kind in ("boolean", "time", "span")

    @staticmethod
    def result_of(operator, left, right):
        if left.kind in ("integer", "any") and right.kind in ("integer", "any"):
            if left is ANY:
                return right
            return left if right in (ANY, left) else None
        if operator == "+" and left is TIME and right is SPAN:
            return TIME
        return SPAN if operator == "-" and left is TIME and right is TIME else None

    # Names

    def name_type(self, name):
        entity = self.scope.get(name.name)
        if entity is None:
            self.fault(10, name.at)
            self.judge_arguments(name)
            return BROKEN
        if entity.is_broken:
            return BROKEN
        return getattr(self, f"{entity.kind.replace(' ', '_')}_name")(name, entity)

    def judge_arguments(self, name):
        for part in name.parts:
            for argument in part.arguments:
                if not isinstance(argument, tree.Label):
                    self.type_of(argument)
                else:
                    self.fault(12, argument.at)

    def no_meaning(self, name):
        self.fault(12, name.at)
        self.judge_arguments(name)
        return BROKEN

    def subtype_name(self, name, entity):
        kind, parts = entity.subtype.type, name.parts
        if kind is BROKEN:
            self.judge_arguments(name)
            return BROKEN
        if len(parts) == 1 and parts[0].kind == "attribute":
            found = self.attribute_of(name, entity)
            return found[0] if found else self.no_meaning(name)
        if len(parts) == 1 and parts[0].kind == "arguments" and kind.kind == "integer" and len(parts[0].arguments) == 1:
            self.expected_integer(parts[0].arguments[0])
            return kind
        return self.no_meaning(name)

    def literal_name(self, name, entity):
        return self.no_meaning(name) if name.parts else BOOLEAN

    def object_name(self, name, entity):
        return self.parts_type(name, entity.subtype.type, 0)

    def parts_type(self, name, kind, first):
        """The type of a name whose parts before `first` are of this type."""
        for number, part in enumerate(name.parts[first:], first):
            if kind is BROKEN:
                for later in name.parts[number:]:
                    for argument in later.arguments:
                        self.type_of(argument)
                return BROKEN
            if part.kind == "attribute":
                entity = self.scope[name.name]
                found = number == len(name.parts) - 1 and self.attribute_of(name, entity)
                return found[0] if found else self.no_meaning(name)
            if part.kind == "select":
                if kind.kind != "record":
                    return self.no_meaning(name)
                if part.name not in kind.components:
                    self.fault(10, part.at)
                    return BROKEN
                kind = kind.components[part.name].type
            else:
                if kind.kind != "array" or len(part.arguments) != 1:
                    return self.no_meaning(name)
                self.expected(part.arguments[0], kind.index.type)
                kind = kind.component.type
        return kind

    def called_type(self, name, profile, parts, called_at):
        """The type of a call of a function, given the parts of the name after its own."""
        arguments = parts[0].arguments if parts and parts[0].kind == "arguments" else []
        if len(parts) > 1 or (parts and parts[0].kind != "arguments"):
            return self.no_meaning(name)
        self.judge_actuals(profile, arguments, called_at)
        return profile.result.type if profile.result else BROKEN

    def judge_actuals(self, profile, arguments, called_at):
        if len(arguments) != len(profile.formals):
            self.fault(16, called_at)
            for argument in arguments:
                self.type_of(argument)
            return
        for argument, (_, mode, subtype, _, _) in zip(arguments, profile.formals):
            if mode == "in":
                self.expected(argument, subtype.type)
            else:
                self.judge_variable(argument, subtype.type)

    def judge_variable(self, argument, kind):
        """An actual that is copied back: a variable of this type."""
        if not isinstance(argument, tree.Name):
            self.type_of(argument)
            self.fault(12, argument.at)
            return
        entity = self.scope.get(argument.name)
        found = self.name_type(argument)
        if found is BROKEN:
            return
        if entity.kind != "object" or any(part.kind == "attribute" for part in argument.parts):
            self.fault(12, argument.at)
        elif kind is not BROKEN and found is not kind:
            self.fault(12, argument.at)
        elif entity.is_constant:
            self.fault(13, argument.at)

    def function_name(self, name, entity):
        return self.called_type(name, entity.profile, name.parts, name.at)

    def procedure_name(self, name, entity):
        return self.no_meaning(name)

    entry_name = exception_name = package_name = put_name = procedure_name

    def task_name(self, name, entity):
        if name.parts and name.parts[0].kind == "select":
            self.fault(10, name.parts[0].at)
            return BROKEN
        return self.no_meaning(name)

    def clock_name(self, name, entity):
        if not name.parts:
            return TIME
        if len(name.parts) == 1 and name.parts[0].kind == "arguments":
            self.fault(16, name.at)
            self.judge_arguments(name)
            return TIME
        return self.no_meaning(name)

    def span_function_name(self, name, entity):
        return self.of_integer(name, SPAN)

    def read_name(self, name, entity):
        return self.of_integer(name, INTEGER)

    def of_integer(self, name, result):
        profile = Profile("function", [("", "in", INTEGER_SUBTYPE, "", 0)], Subtype(result))
        return self.called_type(name, profile, name.parts, name.at)

    def protected_name(self, name, entity):
        operation = self.operation_of(name, entity)
        if operation is None:
            return BROKEN
        if operation == "none" or operation.kind != "function":
            return self.no_meaning(name)
        return self.called_type(name, operation.profile, name.parts[1:], name.at)

    def operation_of(self, name, entity):
        """The operation that a name names by its object; "none" where it names none, None where there is none of its name."""
        if not name.parts or name.parts[0].kind != "select":
            return "none"
        operation = None if entity is self.own else entity.operations.get(name.parts[0].name)
        if operation is None:
            self.fault(10, name.parts[0].at)
        return operation

    # Declarations

    def judge_bound(self, bound, kind=None):
        """A bound that is static, of this type or of any integer type; its value, if it has one."""
        before = len(self.faults)
        if kind is None:
            self.expected_integer(bound)
        else:
            self.expected(bound, kind)
        return self.require_static(bound, INTEGER_SUBTYPE, len(self.faults) == before)

    def range_of(self, low, high, kind=None):
        first, last = self.judge_bound(low, kind), self.judge_bound(high, kind)
        if first is None or last is None:
            return None
        if first > last:
            self.fault(15, low.at)
            return None
        return first, last

    def item(self, item):
        """A declaration of a package."""
        if isinstance(item, tree.RangeType):
            bounds = self.range_of(item.low, item.high)
            self.declare(item.name, item.name_at, Entity("subtype", Subtype(Type("integer"), *bounds) if bounds else BROKEN_SUBTYPE))
        elif isinstance(item, tree.SubtypeDeclaration):
            self.declare(item.name, item.name_at, Entity("subtype", self.subtype_of(item)))
        elif isinstance(item, tree.ArrayType):
            self.declare(item.name, item.name_at, Entity("subtype", self.array_of(item)))
        elif isinstance(item, tree.RecordType):
            self.declare(item.name, item.name_at, Entity("subtype", self.record_of(item)))
        elif isinstance(item, tree.ExceptionDeclaration):
            self.declare(item.name, item.at, Entity("exception"))
        elif isinstance(item, tree.ObjectDeclaration):
            self.object_declaration(item, needs_static=True)
        elif isinstance(item, tree.Subprogram):
            profile = self.profile_of(item)
            self.declare(item.name, item.name_at, Entity(item.kind, profile=profile, is_declared=True))
        elif isinstance(item, tree.TaskDeclaration):
            self.task_declaration(item)
        else:
            self.protected_declaration(item)

    def subtype_of(self, item):
        base = self.subtype_named(item.base)
        if item.bounds is None:
            return base
        if base.type is BROKEN:
            for bound in item.bounds:
                self.judge_bound(bound)
            return base
        if base.type.kind != "integer":
            self.fault(12, item.base.at)
            for bound in item.bounds:
                self.judge_bound(bound)
            return BROKEN_SUBTYPE
        values = []
        for bound in item.bounds:
            is_sound = self.expected(bound, base.type)
            values.append(self.require_static(bound, Subtype(base.type), is_sound))
        if None in values:
            return BROKEN_SUBTYPE
        if values[0] > values[1]:
            self.fault(15, item.bounds[0].at)
            return BROKEN_SUBTYPE
        for bound, value in zip(item.bounds, values):
            if not base.low <= value <= base.high:
                self.fault(15, bound.at)
                return BROKEN_SUBTYPE
        return Subtype(base.type, *values)

    def array_of(self, item):
        index, bounds = INTEGER_SUBTYPE, None
        if item.index:
            index = self.subtype_named(item.index)
            if index.type is not BROKEN:
                if index.type.kind != "integer":
                    self.fault(12, item.index.at)
                else:
                    bounds = index.low, index.high
        else:
            bounds = self.range_of(*item.bounds, INTEGER)
        component = self.subtype_named(item.component)
        if bounds and bounds[1] - bounds[0] + 1 > MOST_COMPONENTS:
            self.fault(23, item.bounds_at)
            bounds = None
        if bounds is None or component.type is BROKEN:
            return BROKEN_SUBTYPE
        return Subtype(Type("array", index, *bounds, component))

    def record_of(self, item):
        components, is_sound = {}, True
        for part in item.components:
            subtype = self.subtype_named(part.subtype)
            is_sound = is_sound and subtype.type is not BROKEN
            if part.name in components:
                self.fault(11, part.at)
            else:
                components[part.name] = subtype
        return Subtype(Type("record", components=components))

    def object_declaration(self, item, needs_static, is_static_constant=True):
        subtype = self.subtype_named(item.subtype)
        value = None
        if item.initial is not None:
            value = self.initial_value(item.initial, subtype, needs_static)
        elif item.is_constant:
            self.fault(14, item.at)
        if not is_static_constant:
            self.takes_in_frame(subtype, item.at)
        elif not item.is_constant:
            self.takes(subtype, item.at)
        is_scalar = subtype.type.kind in ("integer", "boolean", "time", "span")
        constant = value if item.is_constant and needs_static and is_static_constant and is_scalar else None
        self.declare(item.name, item.at, Entity("object", subtype, item.is_constant, constant, is_broken=subtype.type is BROKEN))

    def initial_value(self, expression, subtype, needs_static):
        is_sound = self.expected(expression, subtype.type)
        if not needs_static:
            return None
        if subtype.type in (TIME, SPAN):
            found = self.time_value(expression, is_sound)
            if found != "none":
                return found
        return self.require_static(expression, subtype, is_sound)

    def time_value(self, expression, is_sound):
        """The value of Clock, or of a span of static microseconds or milliseconds; "none" of another expression."""
        if not isinstance(expression, tree.Name) or expression.name not in ("CLOCK", *MICROSECONDS) or expression.name not in self.scope:
            return "none"
        if expression.name == "CLOCK":
            return None if expression.parts else 0
        if len(expression.parts) != 1 or len(expression.parts[0].arguments) != 1:
            return None
        argument = expression.parts[0].arguments[0]
        if not self.is_static(argument):
            self.fault(14, expression.at)
            return None
        if not is_sound:
            return None
        try:
            return in_base(self.static_value(argument) * MICROSECONDS[expression.name])
        except Raised:
            self.fault(15, expression.at)
            return None

    def profile_of(self, item, hidden=()):
        """The profile of a subprogram or an entry, whose formals are judged."""
        names, formals = set(hidden), []
        for number, formal in enumerate(item.formals):
            subtype = self.subtype_named(formal.subtype)
            if formal.name in self.scope or formal.name in names:
                self.fault(11, formal.at)
            if number >= MOST_FORMALS:
                self.fault(23, formal.at)
            names.add(formal.name)
            formals.append((formal.name, formal.mode, subtype, formal.subtype.name, formal.at))
        result = self.subtype_named(item.result) if item.result else None
        if item.kind == "function":
            is_simple = all(mode == "in" and subtype.type.kind not in COMPOSITE for _, mode, subtype, _, _ in formals)
            if not is_simple or result.type.kind in COMPOSITE:
                self.fault(21, item.name_at)
        return Profile(item.kind, formals, result, item.result.name if item.result else "")

    def aspect(self, aspect, name):
        """The aspect of an item that may have this one; the value of another one has any type."""
        if aspect and aspect.name == name:
            self.expected(aspect.value, INTEGER)
        elif aspect:
            self.type_of(aspect.value)

    def end_name(self, name, end):
        if end and end[0] != name:
            self.fault(22, end[1])

    def task_declaration(self, item):
        self.aspect(item.aspect, "PRIORITY")
        self.declare(item.name, item.name_at, Entity("task", entries=tuple(name for _, name, _ in item.entries), is_declared=True))
        self.end_name(item.name, item.end_name)

    def protected_declaration(self, item):
        entity = Entity("protected", is_declared=True)
        self.aspect(item.aspect, "PRIORITY")
        names = {item.name}
        for operation in item.operations:
            profile = self.profile_of(operation)
            self.aspect(operation.aspect, "ATTACH_HANDLER")
            if operation.name in self.scope or operation.name in names:
                self.fault(11, operation.name_at)
            else:
                entity.operations[operation.name] = Entity(operation.kind, profile=profile, at=operation.name_at, is_declared=True)
            names.add(operation.name)
        for part in item.components:
            subtype = self.subtype_named(part.subtype)
            if part.initial is not None:
                self.initial_value(part.initial, subtype, True)
            self.takes(subtype, part.at)
            if part.name in self.scope or part.name in names:
                self.fault(11, part.at)
            else:
                entity.components.append((part.name, subtype, part.at))
            names.add(part.name)
        self.declare(item.name, item.name_at, entity)
        self.end_name(item.name, item.end_name)

    # Statements

    def statements(self, statements, context):
        for statement in statements:
            getattr(self, f"judge_{type(statement).__name__.lower()}")(statement, context)

    def judge_null(self, statement, context):
        pass

    judge_left = judge_null

    def judge_assignment(self, statement, context):
        target = statement.target
        entity = self.scope.get(target.name)
        found = self.name_type(target)
        is_object = entity is not None and entity.kind == "object" and not any(part.kind == "attribute" for part in target.parts)
        if found is not BROKEN:
            if not is_object:
                self.fault(12, target.at)
                found = BROKEN
            elif entity.is_constant:
                self.fault(13, target.at)
        self.expected(statement.value, found) if found is not BROKEN else self.type_of(statement.value)

    def judge_call(self, statement, context):
        name = statement.name
        entity = self.scope.get(name.name)
        if entity is None:
            self.fault(10, name.at)
            self.judge_arguments(name)
        elif entity.kind == "put":
            self.judge_put(name)
        elif entity.kind in ("procedure", "entry"):
            self.judge_called(name, entity, name.parts)
        elif entity.kind == "protected":
            operation = self.operation_of(name, entity)
            if operation == "none":
                self.no_meaning(name)
            elif operation is not None:
                if operation.kind == "function":
                    self.no_meaning(name)
                else:
                    self.judge_called(name, operation, name.parts[1:])
        elif entity.kind == "task":
            self.task_name(name, entity)
        elif not entity.is_broken:
            self.judge_no_call(name)

    def judge_no_call(self, name):
        """A name of what is not called: 12, unless it has a component that isn't there."""
        self.name_type(name)
        if not any((part.at, 10) in self.faults for part in name.parts if part.kind == "select"):
            self.fault(12, name.at)

    def judge_called(self, name, entity, parts):
        if len(parts) > 1 or (parts and parts[0].kind != "arguments"):
            self.no_meaning(name)
            return
        self.judge_actuals(entity.profile, parts[0].arguments if parts else [], name.at)

    def judge_put(self, name):
        if len(name.parts) > 1 or (name.parts and name.parts[0].kind != "arguments"):
            self.no_meaning(name)
            return
        arguments = name.parts[0].arguments if name.parts else []
        if len(arguments) != 2:
            self.fault(16, name.at)
            for argument in arguments[1:] if arguments and isinstance(arguments[0], tree.Label) else arguments:
                self.type_of(argument)
            return
        if not isinstance(arguments[0], tree.Label):
            self.type_of(arguments[0])
            self.fault(12, arguments[0].at)
        self.expected(arguments[1], INTEGER)

    def judge_if(self, statement, context):
        for condition, statements in statement.branches:
            self.expected(condition, BOOLEAN)
            self.statements(statements, context)
        self.statements(statement.otherwise, context)

    def judge_case(self, statement, context):
        kind = self.type_of(statement.value)
        if kind is ANY:
            kind = INTEGER
        if kind.kind not in ("integer", "boolean", "broken"):
            self.fault(12, statement.value.at)
            kind = BROKEN
        chosen, has_others = set(), False
        for alternative in statement.alternatives:
            if has_others:
                self.fault(17, self.last_others)
            if alternative.choices is None:
                has_others, self.last_others = True, alternative.at
            for choice in alternative.choices or []:
                value = self.choice_value(choice, kind)
                if value is not None and value in chosen:
                    self.fault(17, choice.at)
                chosen.add(value)
            self.statements(alternative.statements, context)
        if not has_others:
            self.fault(17, statement.at)

    def choice_value(self, choice, kind):
        is_sound = self.expected(choice, kind) if kind is not BROKEN else self.type_of(choice) is not BROKEN
        value = self.require_static(choice, Subtype(kind), is_sound)
        return None if kind is BROKEN else value

    def judge_loop(self, statement, context):
        self.statements(statement.statements, self.inside(context, in_loop=True))

    def judge_while(self, statement, context):
        self.expected(statement.condition, BOOLEAN)
        self.judge_loop(statement, context)

    @staticmethod
    def inside(context, **changes):
        return Context(**{**context.__dict__, **changes})

    def judge_for(self, statement, context):
        low = self.expected_integer(statement.low)
        high = self.expected_integer(statement.high)
        kind = high if low is ANY else low
        if BROKEN not in (low, high) and ANY not in (low, high) and low is not high:
            self.fault(12, statement.high.at)
        self.adds(1)
        scope = dict(self.scope)
        self.declare(statement.name, statement.name_at, Entity("object", Subtype(INTEGER if kind is ANY else kind), True, is_broken=kind is BROKEN))
        self.judge_loop(statement, context)
        self.scope = scope

    def judge_block(self, statement, context):
        scope = dict(self.scope)
        self.locals(statement.body.declarations, False)
        self.sequence(statement.body, context)
        self.scope = scope

    def locals(self, declarations, needs_static):
        for item in declarations:
            if isinstance(item, tree.ObjectDeclaration):
                self.object_declaration(item, needs_static, is_static_constant=False)
            else:
                self.item(item)

    def sequence(self, body, context):
        self.statements(body.statements, context)
        named, others = set(), None
        inner = self.inside(context, in_handler=True)
        for handler in body.handlers:
            for name, at in handler.choices:
                if name == "others":
                    if len(handler.choices) > 1:
                        self.fault(20, at)
                    others = others if others is not None else at
                else:
                    self.handler_choice(name, at, named)
            if others is not None and handler is not body.handlers[-1]:
                self.fault(20, others)
            self.statements(handler.statements, inner)

    def handler_choice(self, name, at, named):
        entity = self.scope.get(name)
        if entity is None:
            self.fault(10, at)
        elif entity.kind != "exception" or name in named:
            self.fault(20, at)
        named.add(name)

    def judge_exit(self, statement, context):
        if not context.in_loop:
            self.fault(19, statement.at)
        if statement.condition is not None:
            self.expected(statement.condition, BOOLEAN)

    def judge_return(self, statement, context):
        if statement.value is None:
            if context.kind not in ("procedure", "entry"):
                self.fault(19, statement.at)
            return
        if context.kind != "function":
            self.fault(19, statement.at)
            self.type_of(statement.value)
        else:
            self.expected(statement.value, context.result.type)

    def judge_raise(self, statement, context):
        if statement.name is None:
            if not context.in_handler:
                self.fault(19, statement.at)
            return
        entity = self.scope.get(statement.name.name)
        if entity is None:
            self.fault(10, statement.name.at)
        elif entity.kind != "exception":
            self.fault(12, statement.name.at)

    def judge_delay(self, statement, context):
        self.expected(statement.value, TIME if statement.is_until else INTEGER)

    # Bodies

    def subprogram_body(self, item):
        profile, name = item.profile, item.profile.name
        entity = self.scope.get(name)
        if entity is not None and entity.kind in ("procedure", "function") and not entity.is_broken and entity.at in self.own_places:
            if entity.has_body:
                self.fault(18, profile.name_at)
            made = self.profile_of(profile)
            if not entity.has_body and not made.is_like(entity.profile):
                self.fault(18, profile.name_at)
            entity.has_body = True
            own = Entity(profile.kind, profile=made)
        else:
            made = self.profile_of(profile, hidden=(name,))
            own = Entity(profile.kind, profile=made, has_body=True)
            if self.declare(name, profile.name_at, own):
                self.own_places.add(profile.name_at)
        self.body(item, made)

    def body(self, item, profile):
        scope = dict(self.scope)
        for name, mode, subtype, _, _ in profile.formals:
            if name not in self.scope:
                self.scope[name] = Entity("object", subtype, mode == "in", is_broken=subtype.type is BROKEN)
        if profile.kind == "function":
            self.function_body(item.body, item.profile)
        self.begins_frame(profile)
        self.locals(item.body.declarations, False)
        self.sequence(item.body, Context(profile.result, profile.kind))
        self.scope = scope
        self.end_name(item.profile.name, item.body.end_name)

    def function_body(self, body, profile):
        is_return = len(body.statements) == 1 and isinstance(body.statements[0], tree.Return) and body.statements[0].value is not None
        if not is_return or body.declarations or body.handlers:
            self.fault(21, profile.name_at)

    def task_body(self, item):
        entity = self.scope.get(item.name)
        if entity is None or entity.kind != "task" or entity.has_body:
            self.fault(18, item.name_at)
        else:
            entity.has_body = True
        scope = dict(self.scope)
        self.begins_frame()
        self.locals(item.body.declarations, True)
        self.sequence(item.body, Context(kind="task"))
        self.scope = scope
        self.end_name(item.name, item.body.end_name)

    def protected_body(self, item):
        entity = self.scope.get(item.name)
        if entity is None or entity.kind != "protected" or entity.has_body:
            self.fault(18, item.name_at)
            self.end_name(item.name, item.end_name)
            return
        entity.has_body = True
        scope, places, self.own = dict(self.scope), set(self.own_places), entity
        self.scope.update(entity.operations)
        self.own_places = {operation.at for operation in entity.operations.values()}
        for body in item.bodies:
            self.operation_body(body, entity)
        for operation in entity.operations.values():
            if not operation.has_body:
                self.fault(18, operation.at)
        self.scope, self.own_places, self.own = scope, places, None
        self.end_name(item.name, item.end_name)

    def operation_body(self, item, entity):
        profile, name = item.profile, item.profile.name
        operation = self.scope.get(name) if name in self.scope and self.scope[name].at in self.own_places else None
        if operation is not None:
            made = self.profile_of(profile)
            if operation.has_body or not made.is_like(operation.profile):
                self.fault(18, profile.name_at)
            operation.has_body = True
        elif profile.kind == "entry":
            made = self.profile_of(profile)
            self.fault(18, profile.name_at)
        else:
            made = self.profile_of(profile, hidden=(name,))
            if name in self.scope or name in [part for part, _, _ in entity.components]:
                self.fault(11, profile.name_at)
            else:
                self.scope[name] = Entity(profile.kind, profile=made, at=profile.name_at, has_body=True)
                self.own_places.add(profile.name_at)
        self.operation_inside(item, made, entity)

    def operation_inside(self, item, profile, entity):
        scope = dict(self.scope)
        for name, subtype, _ in entity.components:
            self.scope.setdefault(name, Entity("object", subtype, profile.kind == "function", is_broken=subtype.type is BROKEN))
        for name, mode, subtype, _, at in profile.formals:
            if name in [part for part, _, _ in entity.components]:
                self.fault(11, at)
            self.scope.setdefault(name, Entity("object", subtype, mode == "in", is_broken=subtype.type is BROKEN))
        if item.barrier is not None:
            self.expected(item.barrier, BOOLEAN)
        if profile.kind == "function":
            self.function_body(item.body, item.profile)
        self.begins_frame(profile)
        self.locals(item.body.declarations, False)
        self.sequence(item.body, Context(profile.result, profile.kind))
        self.scope = scope
        self.end_name(item.profile.name, item.body.end_name)

    # Limits

    def limits(self, package):
        """What is declared more often than a program may."""
        items = package.items + package.body_items
        counted = [
            (MOST_SUBPROGRAMS, [item.at for item in items if self.is_first_subprogram(item)]),
            (MOST_TASKS, [item.at for item in items if isinstance(item, tree.TaskDeclaration)]),
            (MOST_OBJECTS, [item.at for item in items if isinstance(item, tree.ProtectedDeclaration)]),
            (MOST_EXCEPTIONS, [item.at for item in items if isinstance(item, tree.ExceptionDeclaration)]),
            (MOST_LABELS, list({token.value: token.at for token in reversed(self.program.tokens) if token.kind == "label"}.values())),
        ]
        operations = [operation.at for item in items if isinstance(item, tree.ProtectedDeclaration) for operation in item.operations]
        counted[0][1].extend(operations)
        for most, places in counted:
            for at in sorted(places)[most:]:
                self.fault(23, at)

    def is_first_subprogram(self, item):
        if isinstance(item, tree.SubprogramBody):
            entity = self.scope.get(item.profile.name)
            return entity is not None and entity.at == item.profile.name_at
        return isinstance(item, tree.Subprogram)

    def between(self, package):
        """Names between a protected object and its body that are like its operations' or components'."""
        items = package.items + package.body_items
        for number, item in enumerate(items):
            if isinstance(item, tree.ProtectedDeclaration):
                names = {part.name for part in item.operations + item.components}
                ends = [at for at, later in enumerate(items) if at > number and isinstance(later, tree.ProtectedBody) and later.name == item.name]
                for later in items[number + 1 : ends[0]] if ends else []:
                    named = getattr(later, "profile", later)
                    if not isinstance(later, (tree.TaskBody, tree.ProtectedBody)) and named.name in names:
                        self.fault(11, getattr(named, "name_at", named.at))

    # Programs

    def clauses(self, clauses):
        named = set()
        for clause in clauses:
            unit = clause.with_unit
            if unit.name not in UNITS:
                self.fault(10, unit.at)
            elif unit.name in named:
                self.fault(11, unit.at)
            else:
                named.add(unit.name)
                self.scope.update(UNITS[unit.name])
            if clause.use_unit.name != unit.name:
                self.fault(10, clause.use_unit.at)

    def package(self, package):
        self.clauses(package.clauses)
        self.declare(package.name, package.name_at, Entity("package"))
        self.own_places = set()
        for item in package.items:
            self.package_item(item)
        specified = set(self.scope) - {package.name}
        self.end_name(package.name, package.end_name)
        needs_body = any(isinstance(item, (tree.Subprogram, tree.TaskDeclaration, tree.ProtectedDeclaration)) for item in package.items)
        if not needs_body:
            self.fault(18, package.name_at)
        if package.body_name[0] != package.name:
            self.fault(18, package.body_name[1])
        bodies = {tree.SubprogramBody: self.subprogram_body, tree.TaskBody: self.task_body, tree.ProtectedBody: self.protected_body}
        for item in package.body_items:
            bodies.get(type(item), self.package_item)(item)
        for entity in list(self.scope.values()):
            if entity.is_declared and not entity.has_body and entity.kind in ("procedure", "function", "task", "protected"):
                self.fault(18, entity.at)
                for operation in entity.operations.values():
                    self.fault(18, operation.at)
        self.end_name(package.name, package.body_end_name)
        self.between(package)
        self.limits(package)
        return specified

    def package_item(self, item):
        self.item(item)
        name = getattr(item, "name", None)
        entity = self.scope.get(name)
        if isinstance(item, tree.Subprogram) and entity and entity.at == item.name_at:
            self.own_places.add(item.name_at)

    def main(self, main, package, specified):
        if package:
            if package.with_name[0] != package.name:
                self.fault(10, package.with_name[1])
        taken = set(PREDEFINED) | ({package.name} if package else set())
        taken |= {name for name, entity in self.scope.items() if entity.kind == "task"}
        if main.name in taken:
            self.fault(11, main.name_at)
        self.aspect(main.aspect, "PRIORITY")
        for call in main.calls:
            if call:
                self.main_call(call, package, specified)
        self.end_name(main.name, main.end_name)

    def main_call(self, call, package, specified):
        (prefix, at), (name, name_at) = call
        if package is None or prefix != package.name:
            known = prefix in PREDEFINED or prefix == self.program.main.name
            self.fault(12 if known else 10, at)
            return
        entity = self.scope.get(name) if name in specified else None
        if entity is None or name in PREDEFINED or entity in [it for unit in UNITS.values() for it in unit.values()]:
            self.fault(10, name_at)
        elif entity.kind != "procedure":
            self.fault(12, at)
        elif entity.profile.formals:
            self.fault(16, at)

    def judged_rules(self):
        """The faults from 10 to 23, as (place, number)."""
        program, specified = self.program, set()
        if program.package:
            specified = self.package(program.package)
        self.main(program.main, program.package, specified)
        return self.faults

    def judged(self):
        """The faults from 10 to 23, or else those of the profile, as (place, number), in their order."""
        return sorted(self.judged_rules()) or self.restrictions()

    def restrictions(self):
        return restrictions.Restrictions(self.program, self.value_or_none).broken()

    def value_or_none(self, expression):
        """The value of a static expression among the names of the package; None where it has none."""
        try:
            return self.static_value(expression) if self.is_static(expression) else None
        except Raised:
            return None


def words_of(subtype):
    kind = subtype.type
    if kind.kind == "array":
        return (kind.high - kind.low + 1) * words_of(kind.component)
    return sum(map(words_of, kind.components.values())) if kind.kind == "record" else int(kind is not BROKEN)


def parts_of(expression):
    if isinstance(expression, tree.Parenthesized):
        return [expression.inner]
    if isinstance(expression, tree.Unary):
        return [expression.operand]
    if isinstance(expression, tree.Binary):
        return [expression.left, expression.right]
    return []


def read(text):
    """The tree of a text, None where it has none, and the number and the byte of its first fault, or None."""
    try:
        program = tree.parsed(text)
    except tree.Fault as fault:
        return None, (fault.number, fault.at)
    faults = Judge(program).judged()
    return program, (faults[0][1], faults[0][0]) if faults else None


def is_small(text):
    """Whether a text that has a tree is small (docs/LANGUAGE.md, "Limits"): its code passes no limit."""
    tokens = tree.tokens_of(text)
    parser = tree.Parser(tokens)
    judge = Judge(parser.program())
    judge.judged_rules()
    return len(tokens) - 1 <= SMALL_TOKENS and parser.most_levels <= SMALL_LEVELS and judge.most_with_loops <= SMALL_WORDS


def fault_of(text):
    """The number and the byte of the first fault of a text, or None."""
    return read(text)[1]
