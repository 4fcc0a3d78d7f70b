"""Which variables the text of a program declares, and which words they are: read from the text alone, by docs/LANGUAGE.md and docs/FORMATS.md, for waves.py to
compare with what the program writes. The text is one that the program accepts.
"""
import re

TOKEN = re.compile(r'--[^\n]*|"[^"\n]*"|[A-Za-z]\w*|\d[\d_]*|\.\.|:=|=>|/=|<=|>=|\S')
LEAST, GREATEST = -(2**63), 2**63 - 1
SHOWN = 64
SCALAR, ARRAY, RECORD = "scalar", "array", "record"


def tokens_of(text):
    return [word.upper() for word in TOKEN.findall(text) if not word.startswith("--")]


def words_of(kind):
    """How many words an object of the type has."""
    form, *parts = kind
    if form == SCALAR:
        return 1
    if form == ARRAY:
        _, count, element = parts
        return count * words_of(element)
    return sum(words_of(element) for _, element in parts[0])


def parts_of(kind, name, word):
    """The names and words of the scalar parts of an object, without arrays of too many components."""
    form, *parts = kind
    if form == SCALAR:
        yield name, word
    elif form == ARRAY:
        first, count, element = parts
        for place in range(count if count <= SHOWN else 0):
            yield from parts_of(element, f"{name}({first + place})", word + place * words_of(element))
    else:
        for own, element in parts[0]:
            yield from parts_of(element, f"{name}.{own}", word)
            word += words_of(element)


class Text:
    """The tokens of a text, read from the left, with the types and constants that are declared so far."""

    def __init__(self, text):
        self.tokens, self.at = tokens_of(text), 0
        self.types = {"INTEGER": (SCALAR, LEAST, GREATEST), "NATURAL": (SCALAR, 0, GREATEST), "POSITIVE": (SCALAR, 1, GREATEST), "BOOLEAN": (SCALAR, 0, 1)}
        self.types.update({name: (SCALAR, LEAST, GREATEST) for name in ("TIME", "TIME_SPAN")})
        self.constants, self.objects = {"TRUE": 1, "FALSE": 0}, {}

    def token(self, ahead=0):
        return self.tokens[self.at + ahead] if self.at + ahead < len(self.tokens) else ""

    def take(self):
        self.at += 1
        return self.tokens[self.at - 1]

    def takes(self, word):
        if self.token() == word:
            self.at += 1
            return True
        return False

    def until(self, *ends):
        """Goes to after the first of these words outside of parentheses, which it returns."""
        depth = 0
        while depth or self.token() not in ends:
            depth += {"(": 1, ")": -1}.get(self.take(), 0)
        return self.take()

    def skip_body(self):
        """Goes to after the `end` of a body whose `is` was taken."""
        depth, before = 0, ""
        while True:
            word = self.take()
            if word == "END":
                depth -= 1
                if self.token() in ("IF", "CASE", "LOOP", "SELECT"):
                    self.take()
                if depth == 0:
                    self.until(";")
                    return
            elif word == "BEGIN" or word in ("CASE", "LOOP", "SELECT") or word == "IF" and before != "(":
                depth += 1
            before = word

    # Static expressions (RM 4.9), by levels of operators.

    def value(self):
        sign = {"-": -1, "+": 1}.get(self.token())
        if sign:
            self.take()
        value = (sign or 1) * self.term()
        while self.token() in ("+", "-"):
            value += self.term() if self.take() == "+" else -self.term()
        return value

    def term(self):
        value = self.factor()
        while self.token() in ("*", "/", "MOD", "REM"):
            operator, right = self.take(), self.factor()
            quotient = abs(value) // abs(right) * (1 if (value < 0) == (right < 0) else -1) if operator != "*" else 0
            value = {"*": value * right, "/": quotient, "MOD": 0 if operator == "*" else value % right, "REM": value - right * quotient}[operator]
        return value

    def factor(self):
        word = self.take()
        if word == "ABS":
            return abs(self.factor())
        if word == "(":
            value = self.value()
            self.take()
            return value
        if word[0].isdigit():
            return int(word.replace("_", ""))
        if self.takes("'"):
            return self.attribute(self.types.get(word) or self.objects[word], self.take())
        return self.constants[word]

    @staticmethod
    def attribute(kind, name):
        first, last = (kind[1], kind[2]) if kind[0] == SCALAR else (kind[1], kind[1] + kind[2] - 1)
        return {"FIRST": first, "LAST": last, "LENGTH": last - first + 1}[name]

    def range_(self):
        first = self.value()
        self.take()
        return first, self.value()

    # Declarations.

    def type_(self):
        name = self.take()
        self.take()
        if self.takes("RANGE"):
            self.types[name] = (SCALAR, *self.range_())
        elif self.takes("ARRAY"):
            self.take()
            index = self.types.get(self.token()) if self.token(1) == ")" else None
            first, last = (self.types[self.take()][1:3]) if index else self.range_()
            self.take(), self.take()
            self.types[name] = (ARRAY, first, last - first + 1, self.types[self.take()])
        else:
            self.take()
            components = []
            while not self.takes("END"):
                own = self.take()
                self.take()
                components.append((own, self.types[self.take()]))
                self.take()
            self.types[name] = (RECORD, components)
        self.until(";")

    def subtype(self):
        name = self.take()
        self.take()
        kind = self.types[self.take()]
        self.types[name] = (SCALAR, *self.range_()) if self.takes("RANGE") else kind
        self.until(";")

    def object_(self):
        """The name and the type of the variable that is declared, if one is."""
        name = self.take()
        self.take()
        if self.takes("EXCEPTION"):
            self.until(";")
            return []
        constant = self.takes("CONSTANT")
        kind = self.types[self.take()]
        self.objects[name] = kind
        if constant and self.takes(":=") and kind[0] == SCALAR:
            place = self.at
            try:
                self.constants[name] = self.value()
            except (KeyError, IndexError):
                self.at = place
        self.until(";")
        return [] if constant else [(name, kind)]

    def protected(self):
        """The name of the object that is declared, with the names and types of its components."""
        name, components = self.take(), []
        self.until("IS")
        while not self.takes("END"):
            if self.token() in ("PROCEDURE", "FUNCTION", "ENTRY"):
                self.until(";")
            elif not self.takes("PRIVATE"):
                components += self.object_()
        self.until(";")
        return name, components

    def item(self, variables, objects):
        """One declaration or body of a package."""
        word = self.token()
        if word in ("TYPE", "SUBTYPE"):
            self.take()
            (self.type_ if word == "TYPE" else self.subtype)()
        elif word in ("PROCEDURE", "FUNCTION", "ENTRY", "TASK") or word == "PROTECTED" and self.token(1) == "BODY":
            self.take()
            if word == "PROTECTED":
                self.until("IS")
                while not self.takes("END"):
                    self.item(variables, objects)
                self.until(";")
            elif self.until(";", "IS") == "IS":
                self.skip_body()
        elif word == "PROTECTED":
            self.take()
            objects.append(self.protected())
        elif word == "PRAGMA":
            self.until(";")
        else:
            variables += self.object_()

    def package(self):
        """The package's name, with its variables and protected objects: those of its specification, and then those of its body."""
        variables, objects, name = [], [], None
        while self.at < len(self.tokens):
            if self.takes("PACKAGE"):
                self.takes("BODY")
                name = self.take()
                self.until("IS")
                while not self.takes("END"):
                    self.item(variables, objects)
                self.until(";")
            elif self.token() in ("PROCEDURE", "") or self.at >= len(self.tokens):
                break
            else:
                self.until(";")
        return name, variables, objects


def placed(objects):
    """The names and words of the scalar parts of objects, one object after the other."""
    found, word = [], 0
    for name, kind in objects:
        found += parts_of(kind, name, word)
        word += words_of(kind)
    return found


def scopes_of(source):
    """The package's name and its variables, if there is a package, and the names of protected objects, with their components."""
    name, variables, objects = Text(source.decode("latin-1")).package()
    return (name, placed(variables)), [(own, placed(components)) for own, components in objects]
