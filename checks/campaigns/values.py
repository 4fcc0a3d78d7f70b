"""Subtypes and their values, as docs/LANGUAGE.md has them ("Names, types and values"): integers, Booleans, times and spans are scalars; arrays are lists,
records dicts."""
import copy
from dataclasses import dataclass

LEAST, GREATEST = -(2**63), 2**63 - 1


class Raised(Exception):
    """An exception of the program, by its name in upper case."""

    def __init__(self, name):
        super().__init__(name)
        self.name = name


def constraint_error():
    return Raised("CONSTRAINT_ERROR")


@dataclass(frozen=True)
class Scalar:
    """A scalar subtype; `kind` is "integer", "boolean", "time" or "span"."""

    kind: str
    low: int = LEAST
    high: int = GREATEST

    def first_value(self):
        return {"integer": self.low, "boolean": False}.get(self.kind, 0)

    def checked(self, value):
        if self.kind == "boolean" or self.low <= value <= self.high:
            return value
        raise constraint_error()


@dataclass(frozen=True)
class Array:
    low: int
    high: int
    component: object

    def first_value(self):
        return [self.component.first_value() for _ in range(self.high - self.low + 1)]

    def checked(self, value):
        return copy.deepcopy(value)

    def place(self, index):
        if not self.low <= index <= self.high:
            raise constraint_error()
        return index - self.low


@dataclass(frozen=True)
class Record:
    components: tuple  # of (name, subtype)

    def first_value(self):
        return {name: subtype.first_value() for name, subtype in self.components}

    def checked(self, value):
        return copy.deepcopy(value)

    def subtype_of(self, name):
        return dict(self.components)[name]


INTEGER = Scalar("integer")
NATURAL = Scalar("integer", 0)
POSITIVE = Scalar("integer", 1)
BOOLEAN = Scalar("boolean")
TIME = Scalar("time")
SPAN = Scalar("span")


def in_base(value):
    """A result, which raises Constraint_Error outside of the base range."""
    if LEAST <= value <= GREATEST:
        return value
    raise constraint_error()


def quotient(left, right):
    if right == 0:
        raise constraint_error()
    magnitude = abs(left) // abs(right)
    return magnitude if (left < 0) == (right < 0) else -magnitude


def modulus(left, right):
    if right == 0:
        raise constraint_error()
    return left % right


OPERATORS = {
    "+": lambda left, right: in_base(left + right),
    "-": lambda left, right: in_base(left - right),
    "*": lambda left, right: in_base(left * right),
    "/": lambda left, right: in_base(quotient(left, right)),
    "mod": modulus,
    "rem": lambda left, right: left - right * quotient(left, right),
    "=": lambda left, right: left == right,
    "/=": lambda left, right: left != right,
    "<": lambda left, right: left < right,
    "<=": lambda left, right: left <= right,
    ">": lambda left, right: left > right,
    ">=": lambda left, right: left >= right,
    "and": lambda left, right: left and right,
    "or": lambda left, right: left or right,
    "xor": lambda left, right: left != right,
}
SIGNS = {"+": lambda value: value, "-": lambda value: in_base(-value), "abs": lambda value: in_base(abs(value)), "not": lambda value: not value}
MICROSECONDS = {"MILLISECONDS": 1000, "MICROSECONDS": 1}
