"""Trees of texts, as the grammar of docs/LANGUAGE.md derives them, with the first token that no derivation allows. A place is the first byte."""
from dataclasses import dataclass, field
from typing import Optional

from tokens import Fault, tokens_of

MOST_LEVELS = 40
LOGICAL = ("and", "or", "xor")
RELATIONS = ("=", "/=", "<", "<=", ">", ">=")


@dataclass
class Node:
    at: int


# Expressions


@dataclass
class Number(Node):
    value: int


@dataclass
class Part:
    """A selected name, the arguments of a call or an index, or an attribute."""

    kind: str  # "select", "arguments", "attribute"
    at: int
    name: str = ""
    arguments: list = field(default_factory=list)


@dataclass
class Name(Node):
    """A name and its parts; `end` is the place after its last token."""

    name: str
    parts: list


@dataclass
class Label(Node):
    text: str


@dataclass
class Unary(Node):
    operator: str
    operand: Node


@dataclass
class Binary(Node):
    operator: str
    left: Node
    right: Node
    operator_at: int = 0


@dataclass
class Parenthesized(Node):
    inner: Node


@dataclass
class IfExpression(Node):
    branches: list  # of (condition, value)
    otherwise: Node


# Declarations


@dataclass
class Formal(Node):
    name: str
    mode: str  # "in", "out", "in out"
    subtype: Name


@dataclass
class Subprogram(Node):
    """The profile of a procedure, a function or an entry; `at` is its first byte, `name_at` that of its name."""

    kind: str
    name: str
    name_at: int
    formals: list
    result: Optional[Name] = None
    aspect: Optional["Aspect"] = None


@dataclass
class Aspect(Node):
    name: str
    name_at: int
    value: Node


@dataclass
class RangeType(Node):
    name: str
    name_at: int
    low: Node
    high: Node


@dataclass
class ArrayType(Node):
    name: str
    name_at: int
    bounds: Optional[tuple]
    index: Optional[Name]
    bounds_at: int
    component: Name


@dataclass
class RecordType(Node):
    name: str
    name_at: int
    components: list  # of Component


@dataclass
class Component(Node):
    name: str
    subtype: Name
    initial: Optional[Node] = None


@dataclass
class SubtypeDeclaration(Node):
    name: str
    name_at: int
    base: Name
    bounds: Optional[tuple]


@dataclass
class ObjectDeclaration(Node):
    name: str
    is_constant: bool
    subtype: Name
    initial: Optional[Node]


@dataclass
class ExceptionDeclaration(Node):
    name: str


@dataclass
class TaskDeclaration(Node):
    name: str
    name_at: int
    aspect: Optional[Aspect]
    entries: list  # of (place of `entry`, name, place)
    end_name: Optional[tuple]


@dataclass
class ProtectedDeclaration(Node):
    name: str
    name_at: int
    aspect: Optional[Aspect]
    operations: list  # of Subprogram
    components: list  # of Component
    end_name: tuple


@dataclass
class Body(Node):
    """The declarations, statements and handlers of a body or a block, and the name after its `end`."""

    declarations: list
    statements: list
    handlers: list
    end_name: Optional[tuple] = None


@dataclass
class Handler(Node):
    choices: list  # of (name or "others", place)
    statements: list


@dataclass
class SubprogramBody(Node):
    profile: Subprogram
    body: Body
    barrier: Optional[Node] = None


@dataclass
class TaskBody(Node):
    name: str
    name_at: int
    body: Body


@dataclass
class ProtectedBody(Node):
    name: str
    name_at: int
    bodies: list
    end_name: tuple


# Statements


@dataclass
class Null(Node):
    pass


@dataclass
class Assignment(Node):
    target: Name
    value: Node


@dataclass
class Call(Node):
    name: Name


@dataclass
class If(Node):
    branches: list  # of (condition, statements)
    otherwise: list


@dataclass
class Alternative(Node):
    choices: Optional[list]  # None for `others`
    statements: list


@dataclass
class Case(Node):
    value: Node
    alternatives: list


@dataclass
class Loop(Node):
    statements: list


@dataclass
class While(Node):
    condition: Node
    statements: list


@dataclass
class For(Node):
    name: str
    name_at: int
    is_reverse: bool
    low: Node
    high: Node
    statements: list


@dataclass
class Block(Node):
    body: Body


@dataclass
class Exit(Node):
    condition: Optional[Node]


@dataclass
class Return(Node):
    value: Optional[Node]


@dataclass
class Raise(Node):
    name: Optional[Name]


@dataclass
class Delay(Node):
    is_until: bool
    value: Node


@dataclass
class Left(Node):
    """A statement that the profile leaves out: abort, requeue, accept or select."""

    word: str


# Programs


@dataclass
class Pragma(Node):
    name: str
    name_at: int
    argument: str
    argument_at: int


@dataclass
class Unit:
    name: str
    at: int


@dataclass
class Clause(Node):
    with_unit: Unit
    use_unit: Unit


@dataclass
class Package(Node):
    clauses: list
    name: str
    name_at: int
    items: list
    end_name: tuple
    body_name: tuple
    body_items: list
    body_end_name: tuple
    with_name: tuple


@dataclass
class Main(Node):
    name: str
    name_at: int
    aspect: Optional[Aspect]
    calls: list  # of None or ((package, place), (procedure, place))
    end_name: tuple


@dataclass
class Program:
    pragmas: list
    package: Optional[Package]
    main: Main
    first_at: int
    tokens: list


class Parser:
    """Reads tokens from left to right: a token is taken only where some derivation has it after those before it."""

    def __init__(self, tokens):
        self.tokens, self.levels, self.most_levels = tokens, 0, 0
        self.words = [token.value if token.kind in ("word", "delimiter") else None for token in tokens]
        # The token that is to be read, by its number, and its text where it is a word or a delimiter.
        self.next, self.token, self.word = 0, tokens[0], self.words[0]

    def refuse(self):
        raise Fault(6, self.token.at)

    def sees_name(self):
        return self.token.kind == "name"

    def step(self):
        token = self.token
        self.next = number = self.next + 1
        self.token, self.word = self.tokens[number], self.words[number]
        return token

    def take(self, value):
        return self.step() if self.word == value else self.refuse()

    def accepts(self, value):
        if self.word != value:
            return False
        self.step()
        return True

    def name(self):
        token = self.step() if self.sees_name() else self.refuse()
        return token.value, token.at

    def open(self, *values):
        """Takes a token that opens a level."""
        if self.word not in values:
            self.refuse()
        if self.levels == MOST_LEVELS:
            raise Fault(7, self.token.at)
        self.levels += 1
        self.most_levels = max(self.most_levels, self.levels)
        return self.step()

    def close(self, value=None):
        if value:
            self.take(value)
        self.levels -= 1

    # Expressions

    def expression(self):
        left = self.relation()
        if self.word not in LOGICAL:
            return left
        operator = self.token.value
        at = self.step().at
        follows = {"and": "then", "or": "else"}.get(operator)
        is_short = bool(follows) and self.accepts(follows)
        chain = f"{operator} {follows}" if is_short else operator
        left = Binary(left.at, chain, left, self.relation(), at)
        while self.word in LOGICAL:
            at = self.take(operator).at
            if is_short:
                self.take(follows)
            left = Binary(left.at, chain, left, self.relation(), at)
        return left

    def relation(self):
        left = self.simple()
        if self.word in RELATIONS:
            operator = self.step()
            return Binary(left.at, operator.value, left, self.simple(), operator.at)
        return left

    def simple(self):
        if self.word in ("+", "-"):
            sign = self.step()
            left = Unary(sign.at, sign.value, self.term())
        else:
            left = self.term()
        while self.word in ("+", "-"):
            operator = self.step()
            left = Binary(left.at, operator.value, left, self.term(), operator.at)
        return left

    def term(self):
        left = self.factor()
        while self.word in ("*", "/", "mod", "rem"):
            operator = self.step()
            left = Binary(left.at, operator.value, left, self.factor(), operator.at)
        return left

    def factor(self):
        if self.word in ("abs", "not"):
            operator = self.step()
            return Unary(operator.at, operator.value, self.primary())
        return self.primary()

    def primary(self):
        if self.token.kind == "number":
            token = self.step()
            return Number(token.at, token.value)
        if self.sees_name():
            return self.whole_name()
        if self.word != "(":
            self.refuse()
        at = self.open("(").at
        inner = self.if_expression() if self.word == "if" else Parenthesized(at, self.expression())
        inner.at = at
        self.close(")")
        return inner

    def if_expression(self):
        at = self.open("if").at
        condition = self.expression()
        self.take("then")
        branches = [(condition, self.expression())]
        while self.accepts("elsif"):
            condition = self.expression()
            self.take("then")
            branches.append((condition, self.expression()))
        self.take("else")
        otherwise = self.expression()
        self.close()
        return IfExpression(at, branches, otherwise)

    def whole_name(self):
        name, at = self.name()
        parts = []
        while self.word in (".", "(", "'"):
            if self.word == "(":
                opened = self.open("(").at
                arguments = [self.argument()]
                while self.accepts(","):
                    arguments.append(self.argument())
                self.close(")")
                parts.append(Part("arguments", opened, arguments=arguments))
            else:
                kind = "select" if self.step().value == "." else "attribute"
                selected, place = self.name()
                parts.append(Part(kind, place, name=selected))
        return Name(at, name, parts)

    def argument(self):
        if self.token.kind == "label":
            token = self.step()
            return Label(token.at, token.value)
        return self.expression()

    def bare_name(self):
        name, at = self.name()
        return Name(at, name, [])

    def range(self):
        low = self.simple()
        self.take("..")
        return low, self.simple()

    # Declarations

    def type_declaration(self):
        if self.word == "subtype":
            return self.subtype_declaration()
        at = self.take("type").at
        name, name_at = self.name()
        self.take("is")
        if self.accepts("range"):
            low, high = self.range()
            self.take(";")
            return RangeType(at, name, name_at, low, high)
        if self.word == "array":
            return self.array_type(at, name, name_at)
        self.take("record")
        components = []
        while not components or self.word != "end":
            component, place = self.name()
            self.take(":")
            components.append(Component(place, component, self.bare_name()))
            self.take(";")
        self.take("end")
        self.take("record")
        self.take(";")
        return RecordType(at, name, name_at, components)

    def array_type(self, at, name, name_at):
        self.take("array")
        self.open("(")
        bounds_at = self.token.at
        low = self.simple()
        is_index = isinstance(low, Name) and not low.parts and self.word == ")"
        bounds = index = None
        if is_index:
            index = low
        else:
            self.take("..")
            bounds = (low, self.simple())
        self.close(")")
        self.take("of")
        component = self.bare_name()
        self.take(";")
        return ArrayType(at, name, name_at, bounds, index, bounds_at, component)

    def subtype_declaration(self):
        at = self.take("subtype").at
        name, name_at = self.name()
        self.take("is")
        base = self.bare_name()
        bounds = self.range() if self.accepts("range") else None
        self.take(";")
        return SubtypeDeclaration(at, name, name_at, base, bounds)

    def initial(self):
        return self.expression() if self.accepts(":=") else None

    def object_declaration(self, allows_exception=False):
        name, at = self.name()
        self.take(":")
        if allows_exception and self.accepts("exception"):
            self.take(";")
            return ExceptionDeclaration(at, name)
        is_constant = self.accepts("constant")
        subtype = self.bare_name()
        initial = self.initial()
        self.take(";")
        return ObjectDeclaration(at, name, is_constant, subtype, initial)

    def formals(self):
        if self.word != "(":
            return []
        self.open("(")
        formals = [self.formal()]
        while self.accepts(";"):
            formals.append(self.formal())
        self.close(")")
        return formals

    def formal(self):
        name, at = self.name()
        self.take(":")
        is_in, is_out = self.accepts("in"), self.accepts("out")
        mode = "in out" if is_in and is_out else "out" if is_out else "in"
        return Formal(at, name, mode, self.bare_name())

    def subprogram(self, *kinds):
        if self.word not in kinds:
            self.refuse()
        word = self.step()
        name, name_at = self.name()
        formals = self.formals()
        result = None
        if word.value == "function":
            self.take("return")
            result = self.bare_name()
        return Subprogram(word.at, word.value, name, name_at, formals, result)

    def aspect(self):
        if self.word != "with":
            return None
        at = self.take("with").at
        name, name_at = self.name()
        self.take("=>")
        return Aspect(at, name, name_at, self.expression())

    def task_declaration(self, at):
        name, name_at = self.name()
        aspect = self.aspect()
        entries, end_name = [], None
        if self.accepts("is"):
            while self.word == "entry":
                entry_at = self.step().at
                entry, place = self.name()
                entries.append((entry_at, entry, place))
                self.take(";")
            self.take("end")
            end_name = self.name()
        self.take(";")
        return TaskDeclaration(at, name, name_at, aspect, entries, end_name)

    def protected_declaration(self, at):
        name, name_at = self.name()
        aspect = self.aspect()
        self.take("is")
        operations, components = [], []
        while self.word in ("procedure", "function", "entry"):
            operation = self.subprogram("procedure", "function", "entry")
            if operation.kind != "entry":
                operation.aspect = self.aspect()
            self.take(";")
            operations.append(operation)
        if self.accepts("private"):
            while self.sees_name():
                component, place = self.name()
                self.take(":")
                components.append(Component(place, component, self.bare_name(), self.initial()))
                self.take(";")
        self.take("end")
        end_name = self.name()
        self.take(";")
        return ProtectedDeclaration(at, name, name_at, aspect, operations, components, end_name)

    def item(self):
        if self.word in ("type", "subtype"):
            return self.type_declaration()
        if self.sees_name():
            return self.object_declaration(allows_exception=True)
        if self.word == "task":
            return self.task_declaration(self.step().at)
        if self.word == "protected":
            return self.protected_declaration(self.step().at)
        profile = self.subprogram("procedure", "function")
        self.take(";")
        return profile

    def body_item(self):
        """An item or a body, in the body of a package."""
        if self.word in ("task", "protected"):
            word = self.step()
            if self.accepts("body"):
                return self.task_body(word.at) if word.value == "task" else self.protected_body(word.at)
            return self.task_declaration(word.at) if word.value == "task" else self.protected_declaration(word.at)
        if self.word not in ("procedure", "function"):
            return self.item()
        profile = self.subprogram("procedure", "function")
        if self.accepts(";"):
            return profile
        self.take("is")
        return SubprogramBody(profile.at, profile, self.body())

    def task_body(self, at):
        name, name_at = self.name()
        self.take("is")
        return TaskBody(at, name, name_at, self.body())

    def protected_body(self, at):
        name, name_at = self.name()
        self.take("is")
        bodies = []
        while self.word in ("procedure", "function", "entry"):
            profile = self.subprogram("procedure", "function", "entry")
            barrier = None
            if profile.kind == "entry":
                self.take("when")
                barrier = self.expression()
            self.take("is")
            bodies.append(SubprogramBody(profile.at, profile, self.body(), barrier))
        self.take("end")
        end_name = self.name()
        self.take(";")
        return ProtectedBody(at, name, name_at, bodies, end_name)

    def local_declarations(self):
        declarations = []
        while self.word != "begin":
            if self.word == "task":
                declarations.append(self.task_declaration(self.step().at))
            elif self.word == "protected":
                declarations.append(self.protected_declaration(self.step().at))
            else:
                declarations.append(self.object_declaration())
        return declarations

    def body(self):
        at = self.token.at
        declarations = self.local_declarations()
        self.take("begin")
        statements, handlers = self.sequence()
        self.take("end")
        end_name = self.name()
        self.take(";")
        return Body(at, declarations, statements, handlers, end_name)

    # Statements

    def sequence(self):
        """Statements and the handlers after them, up to `end`."""
        statements = self.statements("end", "exception")
        handlers = []
        if self.accepts("exception"):
            while not handlers or self.word == "when":
                handlers.append(self.handler())
        return statements, handlers

    def handler(self):
        at = self.take("when").at
        choices = [self.choice()]
        while self.accepts("|"):
            choices.append(self.choice())
        self.take("=>")
        return Handler(at, choices, self.statements("end", "when"))

    def choice(self):
        if self.word == "others":
            return "others", self.step().at
        return self.name()

    def statements(self, *ends):
        statements = [self.statement()]
        while self.word not in ends:
            statements.append(self.statement())
        return statements

    def statement(self):
        if self.sees_name():
            return self.named_statement()
        if self.word not in STATEMENTS:
            self.refuse()
        return STATEMENTS[self.word](self)

    def named_statement(self):
        name = self.whole_name()
        if self.accepts(":="):
            value = self.expression()
            self.take(";")
            return Assignment(name.at, name, value)
        self.take(";")
        return Call(name.at, name)

    def null_statement(self):
        at = self.step().at
        self.take(";")
        return Null(at)

    def if_statement(self):
        at = self.open("if").at
        condition = self.expression()
        self.take("then")
        branches = [(condition, self.statements("elsif", "else", "end"))]
        while self.accepts("elsif"):
            condition = self.expression()
            self.take("then")
            branches.append((condition, self.statements("elsif", "else", "end")))
        otherwise = self.statements("end") if self.accepts("else") else []
        self.take("end")
        self.take("if")
        self.take(";")
        self.close()
        return If(at, branches, otherwise)

    def case_statement(self):
        at = self.open("case").at
        value = self.expression()
        self.take("is")
        alternatives = []
        while not alternatives or self.word == "when":
            alternatives.append(self.alternative())
        self.take("end")
        self.take("case")
        self.take(";")
        self.close()
        return Case(at, value, alternatives)

    def alternative(self):
        at = self.take("when").at
        if self.word == "others":
            at, choices = self.step().at, None
        else:
            choices = [self.expression()]
            while self.accepts("|"):
                choices.append(self.expression())
        self.take("=>")
        return Alternative(at, choices, self.statements("when", "end"))

    def loop_statement(self):
        word = self.open("while", "for", "loop")
        make = Loop, ()
        if word.value == "while":
            condition = self.expression()
            self.take("loop")
            make = While, (condition,)
        elif word.value == "for":
            name, name_at = self.name()
            self.take("in")
            is_reverse = self.accepts("reverse")
            low, high = self.range()
            self.take("loop")
            make = For, (name, name_at, is_reverse, low, high)
        statements = self.statements("end")
        self.take("end")
        self.take("loop")
        self.take(";")
        self.close()
        return make[0](word.at, *make[1], statements)

    def block_statement(self):
        at = self.open("declare", "begin")
        declarations = []
        if at.value == "declare":
            declarations = self.local_declarations()
            self.take("begin")
        statements, handlers = self.sequence()
        self.take("end")
        self.take(";")
        self.close()
        return Block(at.at, Body(at.at, declarations, statements, handlers))

    def exit_statement(self):
        at = self.step().at
        condition = self.expression() if self.accepts("when") else None
        self.take(";")
        return Exit(at, condition)

    def return_statement(self):
        at = self.step().at
        value = None if self.word == ";" else self.expression()
        self.take(";")
        return Return(at, value)

    def raise_statement(self):
        at = self.step().at
        name = None if self.word == ";" else self.bare_name()
        self.take(";")
        return Raise(at, name)

    def delay_statement(self):
        at = self.step().at
        is_until = self.accepts("until")
        value = self.expression()
        self.take(";")
        return Delay(at, is_until, value)

    def left_statement(self):
        word = self.step()
        self.unit() if word.value == "requeue" else self.name()
        self.take(";")
        return Left(word.at, word.value)

    def select_statement(self):
        at = self.take("select").at
        while self.word != "select":
            if self.token.kind == "end":
                self.refuse()
            self.step()
        if self.words[self.next - 1] != "end":
            self.refuse()
        self.take("select")
        self.take(";")
        return Left(at, "select")

    # Programs

    def unit(self):
        name, at = self.name()
        if self.accepts("."):
            name = f"{name}.{self.name()[0]}"
        return Unit(name, at)

    def pragma(self):
        at = self.take("pragma").at
        name, name_at = self.name()
        self.take("(")
        argument, argument_at = self.name()
        self.take(")")
        self.take(";")
        return Pragma(at, name, name_at, argument, argument_at)

    def package(self):
        at, clauses = self.token.at, []
        while self.word == "with":
            clause = self.step().at
            with_unit = self.unit()
            self.take(";")
            self.take("use")
            clauses.append(Clause(clause, with_unit, self.unit()))
            self.take(";")
        self.take("package")
        name, name_at = self.name()
        self.take("is")
        items = []
        while self.word != "end":
            items.append(self.item())
        self.take("end")
        end_name = self.name()
        self.take(";")
        self.take("package")
        self.take("body")
        body_name = self.name()
        self.take("is")
        body_items = []
        while self.word != "end":
            body_items.append(self.body_item())
        self.take("end")
        body_end_name = self.name()
        self.take(";")
        self.take("with")
        with_name = self.name()
        self.take(";")
        return Package(at, clauses, name, name_at, items, end_name, body_name, body_items, body_end_name, with_name)

    def main(self):
        at = self.take("procedure").at
        name, name_at = self.name()
        aspect = self.aspect()
        self.take("is")
        self.take("begin")
        calls = []
        while not calls or self.word != "end":
            if self.word == "null":
                self.step()
                calls.append(None)
            else:
                package = self.name()
                self.take(".")
                calls.append((package, self.name()))
            self.take(";")
        self.take("end")
        end_name = self.name()
        self.take(";")
        return Main(at, name, name_at, aspect, calls, end_name)

    def program(self):
        first_at = self.token.at
        pragmas = []
        while self.word == "pragma":
            pragmas.append(self.pragma())
        package = None if self.word == "procedure" else self.package()
        main = self.main()
        if self.token.kind != "end":
            self.refuse()
        return Program(pragmas, package, main, first_at, self.tokens)


STATEMENTS = {
    "null": Parser.null_statement,
    "if": Parser.if_statement,
    "case": Parser.case_statement,
    "while": Parser.loop_statement,
    "for": Parser.loop_statement,
    "loop": Parser.loop_statement,
    "declare": Parser.block_statement,
    "begin": Parser.block_statement,
    "exit": Parser.exit_statement,
    "return": Parser.return_statement,
    "raise": Parser.raise_statement,
    "delay": Parser.delay_statement,
    "abort": Parser.left_statement,
    "requeue": Parser.left_statement,
    "accept": Parser.left_statement,
    "select": Parser.select_statement,
}


def parsed(text):
    """The tree of a text; raises the first fault of spelling, or else of grammar."""
    return Parser(tokens_of(text)).program()
