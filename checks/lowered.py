#!/usr/bin/env python3
"""Compares what `lower` writes with the pairs of crate_tests/src/lowered_texts.rt, and what it reports of constructs that aren't lowered with docs/LOWERING.md.

    lowered.py PROGRAM SCRATCH

Each text of a pair is lowered from a file and from standard input; what it is lowered to is lowered to itself. A program of whole Ada is lowered, checked and run, and
deep texts are lowered in 1 MiB of stack. Each program NAME.adb of examples/natural is lowered line for line; what it is lowered to is lowered to itself and checked,
and writes NAME.lines on the schedule NAME.schedule, or on an empty one where there is none. What NAME.ada of examples/from_ada is lowered to writes the lines of
NAME.out, which the same program rewritten by hand writes, but for their labels. What the first text of each pair of docs/FROM_ADA.md is lowered to runs as the second
one does, but for the pairs of STAYS, of which something stays."""

import os
import re
import resource
import subprocess
import sys

sys.path.insert(0, os.path.dirname(os.path.abspath(__file__)))
from from_ada import DOCUMENT as FORMS, framed, pairs_of  # noqa: E402
from traces import write  # noqa: E402

HERE = os.path.dirname(os.path.abspath(__file__))
PAIRS = os.path.join(HERE, "..", "crates", "crate_tests", "src", "lowered_texts.rt")
DOCUMENT = os.path.join(HERE, "..", "docs", "LOWERING.md")
PAIR = re.compile(r'\(\s*"((?:[^"\\]|\\.)*)",\s*"((?:[^"\\]|\\.)*)",?\s*\)')
PROGRAMS = os.path.join(HERE, "..", "examples", "natural")
BOTH_FORMS = os.path.join(HERE, "..", "examples", "from_ada")
# A name as the programs of examples/natural write it, with a capital letter, which no reserved word of theirs has; and a line of which a rule writes names elsewhere:
# clauses are before the package, and discriminants are formal parameters of the body.
NAME = re.compile(rb"\b[A-Z]\w*")
ELSEWHERE = re.compile(rb"\s*(?:with|use|task type)\b")
STEPS = "1000000"
# The pairs of docs/FROM_ADA.md of which the first text isn't lowered to a text of the language.
STAYS = {
    "A derived type", "A constant array", "A subprogram in a subprogram", "Two subprograms of one name", "A barrier that is an expression", "A protected type",
}
# The status of a run that ended, and of one that waits forever, by the first word of the last line.
STATUSES = {b"ended": 0, b"waits": 4}
MOST = 65536
LEVELS = 40
STACK = 1 << 20
# What opens and closes a level, and what is before, inside and after all of them.
DEEP = {
    "parentheses": ("procedure P is begin X := ", "(", "1", ")", "; end P;"),
    "if expressions": ("procedure P is begin X := ", "(if A then ", "1", " else 2)", "; end P;"),
    "calls": ("procedure P is begin X := ", "F (", "1", ")", "; end P;"),
    "blocks": ("procedure P is begin ", "declare A, B : T := 1; begin ", "null;", " end;", " end P;"),
    "loops": ("procedure P is begin ", "L : loop ", "null;", " end loop L;", " end P;"),
}
# A text with each construct that isn't lowered; the sign @ is before the place that is reported.
CONSTRUCTS = {
    "an abort statement": "procedure P is begin @abort T; end P;",
    "an accept statement": "procedure P is begin @accept E; end P;",
    "an access type or value": "package Q is type T is @access Integer; end Q;",
    "an aliased object or component": "package Q is A : @aliased Integer; end Q;",
    "a case expression": "procedure P is begin X := (@case A is when 1 => 2, when others => 3); end P;",
    "a component that takes its default in an aggregate": "procedure P is begin X := (A => @<>); end P;",
    "a derived type": "package Q is type T is @new Integer; end Q;",
    "an entry of a task": "package Q is task T is @entry E; end T; end Q;",
    "an extended return statement": "function F return T is begin return @R : T; end F;",
    "a generic unit or an instance of one": "@generic package Q is end Q;",
    "a goto statement or a label for one": "procedure P is begin @goto L; end P;",
    "an interface type": "package Q is type T is @interface; end Q;",
    "a limited type or a limited with clause": "package Q is type T is @limited record A : B; end record; end Q;",
    "a package in a declarative part": "procedure P is @package Q is end Q; begin null; end P;",
    "an object that is renamed": "package Q is A : T @renames B; end Q;",
    "a function that is an operator": 'function @"+" (A : T) return T is begin return A; end;',
    "an overriding indicator": "package Q is @overriding procedure P; end Q;",
    "a private type": "package Q is type T is @private; end Q;",
    "a private unit or private with clause": "@private package Q is end Q;",
    "a quantified expression": "procedure P is begin X := (@for all I in A => B); end P;",
    "a raise expression": "procedure P is begin X := (@raise E); end P;",
    "a real type": "package Q is type T is @digits 6; end Q;",
    "a representation clause": "package Q is @for T use 8; end Q;",
    "a requeue statement": "procedure P is begin @requeue E; end P;",
    "a select statement": "procedure P is begin @select null; end select; end P;",
    "a separate body": "procedure P is @separate;",
    "a slice of an array": "procedure P is begin X := A (1 .. 2@); end P;",
    "a tagged or abstract type": "package Q is type T is @tagged null record; end Q;",
    "an array type without bounds": "package Q is type T is array (Integer range @<>) of B; end Q;",
    "a variant part of a record": "package Q is type T is record A : B; @case D is when 1 => C : B; end case; end record; end Q;",
}
NATURAL = b"""pragma Profile (Ravenscar);
with Control_IO; use Control_IO;
package App is
   Low, High : Integer := 16#10#;
   Step : constant := 2 ** 3;
   procedure Rise;
   pragma Inline (Rise);
end;
package body App is
   function Next (A : Integer) return Integer is (A + Step);
   procedure Rise is
   begin
      High := Next (High);
      Put ("high", High);
   end;
end;
with App;
procedure Main is
begin
   App.Rise;
end Main;
"""


def with_stack():
    """A limit on the stack of the program that is called."""
    resource.setrlimit(resource.RLIMIT_STACK, (STACK, STACK))


def unescaped(literal):
    """The bytes of a string literal of Rattle."""
    return literal.replace("\\n", "\n").replace('\\"', '"').encode()


def pairs():
    with open(PAIRS, encoding="utf-8") as file:
        return [(unescaped(text), unescaped(lowered)) for text, lowered in PAIR.findall(file.read())]


def instead():
    """What docs/LOWERING.md says to write for each construct that isn't lowered."""
    with open(DOCUMENT, encoding="utf-8") as file:
        table = file.read().partition("| construct | write instead |\n|---|---|\n")[2].partition("\n\n")[0]
    return dict(line.strip("| ").split(" | ") for line in table.splitlines())


def lines_of_names(text):
    """In which lines each name of a text is."""
    found = {}
    for number, line in enumerate(text.split(b"\n")):
        for name in NAME.findall(line):
            found.setdefault(name, set()).add(number)
    return found


def moved(text, lowered):
    """The names that one line of a text has, and that the lowered text has in other lines alone."""
    lines, after = text.split(b"\n"), lines_of_names(lowered)
    once = {name: found for name, found in lines_of_names(text).items() if len(found) == 1 and not ELSEWHERE.match(lines[min(found)])}
    return sorted(name for name, found in once.items() if name in after and not found & after[name])


def without_labels(lines):
    """Lines of a run without their labels, which are the third of four words; the last line has fewer words."""
    return [line.split()[:2] + line.split()[-1:] for line in lines.splitlines()]


def names_in(folder, ending):
    """The names of the files of a folder that have this ending, without it."""
    return sorted(name.removesuffix(ending) for name in os.listdir(folder) if name.endswith(ending))


def bytes_of(path):
    """What a file has, or nothing where it isn't there."""
    if not os.path.exists(path):
        return b""
    with open(path, "rb") as file:
        return file.read()


class Comparer:
    """Lowers texts with the program, and compares what it leaves."""

    def __init__(self, program, folder):
        self.program, self.folder, self.texts, self.wrong = os.path.abspath(program), folder, 0, []
        os.makedirs(folder)

    def call(self, *words, given=b""):
        left = subprocess.run([self.program, *words], cwd=self.folder, input=given, capture_output=True, check=False)
        return left.stdout, left.stderr, left.returncode

    def expect(self, name, left, expected):
        self.texts += 1
        if left != expected:
            self.wrong.append(f"{name}: {left} where {expected} is expected")

    def lower(self, text):
        write(os.path.join(self.folder, "main.adb"), text)
        return self.call("lower", "main.adb")

    def pair(self, text, lowered):
        left = self.lower(text)
        self.expect(text, (left[0], left[2]), (lowered, 0))
        given = self.call("lower", "-", given=text)
        self.expect(f"{text}, from standard input", given, (lowered, left[1].replace(b"main.adb:", b"-:"), 0))
        self.expect(f"{lowered}, lowered again", self.call("lower", "-", given=lowered), (lowered, b"", 0))

    def construct(self, name, marked, words):
        place, text = marked.index("@"), marked.replace("@", "")
        said = f"main.adb:1:{place + 1}: error: {name} isn't lowered: {words}\n{text}\n{' ' * place}^\n"
        self.expect(text, self.lower(text.encode()), (b"", said.encode(), 2))

    def natural(self):
        """A program of whole Ada: its note, the lines of its lowered text, and its run."""
        lowered, notes, status = self.lower(NATURAL)
        self.expect("the note", (notes, status), (b"main.adb:7:4: note: pragma INLINE left out\n   pragma Inline (Rise);\n   ^\n", 0))
        self.expect("the number of lines", lowered.count(b"\n"), NATURAL.count(b"\n"))
        write(os.path.join(self.folder, "lowered.adb"), lowered)
        self.expect("the check of a lowered text", self.call("check", "lowered.adb"), (b"", b"", 0))
        self.expect("the run of a lowered text", self.call("simulate", "lowered.adb"), (b"0 MAIN high 24\nended at 0\n", b"", 0))

    def program_of(self, name):
        """A program of examples/natural: the lines of its lowered text, and its run."""
        text, expected, schedule = (bytes_of(os.path.join(PROGRAMS, name + ending)) for ending in (".adb", ".lines", ".schedule"))
        lowered, _, status = self.lower(text)
        self.expect(f"the status of lowering {name}", status, 0)
        self.expect(f"the number of lines of {name}", lowered.count(b"\n"), text.count(b"\n"))
        self.expect(f"the names of {name} in other lines", moved(text, lowered), [])
        self.expect(f"{name}, lowered again", self.call("lower", "-", given=lowered), (lowered, b"", 0))
        write(os.path.join(self.folder, "lowered.adb"), lowered)
        write(os.path.join(self.folder, "schedule"), schedule)
        self.expect(f"the check of {name}", self.call("check", "lowered.adb"), (b"", b"", 0))
        last = expected.splitlines()[-1].split()[0] if expected else b""
        self.expect(f"the run of {name}", self.call("go", "lowered.adb", "schedule", STEPS), (expected, b"", STATUSES.get(last)))

    def both_forms(self, name):
        """A program of examples/from_ada: what it is lowered to writes what the program that was rewritten by hand writes, with other labels."""
        lowered, _, status = self.lower(bytes_of(os.path.join(BOTH_FORMS, name + ".ada")))
        self.expect(f"the status of lowering {name}", status, 0)
        told, faults, status = self.run(lowered)
        self.expect(f"the status of {name}", (faults, status), (b"", 0))
        self.expect(f"the run of {name}", without_labels(told), without_labels(bytes_of(os.path.join(BOTH_FORMS, name + ".out"))))

    def run(self, text):
        """What a text writes on an empty schedule, and its status."""
        write(os.path.join(self.folder, "run.adb"), text)
        write(os.path.join(self.folder, "schedule"), b"")
        return self.call("go", "run.adb", "schedule", STEPS)

    def forms(self, title, ada, here):
        """A pair of docs/FROM_ADA.md: what its first text is lowered to runs as its second one does."""
        self.expect(f"the run of `{title}`", self.run(self.lower(framed(ada).encode())[0]), self.run(framed(here).encode()))

    def deep(self):
        """Texts with as many levels as one may have, and with one more, in 1 MiB of stack."""
        for name, (start, opening, inside, closing, end) in DEEP.items():
            for levels, status in ((LEVELS, 0), (LEVELS + 1, 2)):
                text = start + opening * levels + inside + closing * levels + end
                left = subprocess.run([self.program, "lower", "-"], input=text.encode(), capture_output=True, preexec_fn=with_stack, check=False)
                self.expect(f"{levels} levels of {name}", left.returncode, status)

    def long(self):
        """A text that is as long as one may be, and a longer one, of which a beginning would be a text."""
        longest = b"package Q is end Q;".ljust(MOST)
        self.expect("the longest text", self.lower(longest), (longest, b"", 0))
        left = self.lower(longest + b" ")
        self.expect("a longer one", (left[0], left[1].split(b"\n")[0], left[2]), (b"", b"main.adb:1:65537: error: a text that is too long", 2))


def main():
    program, scratch = sys.argv[1:]
    comparer, words = Comparer(program, scratch), instead()
    found = pairs()
    for text, lowered in found:
        comparer.pair(text, lowered)
    comparer.expect("the constructs", sorted(words), sorted(CONSTRUCTS))
    for name, marked in CONSTRUCTS.items():
        comparer.construct(name, marked, words.get(name))
    comparer.natural()
    programs, both = names_in(PROGRAMS, ".adb"), names_in(BOTH_FORMS, ".ada")
    for name in programs:
        comparer.program_of(name)
    for name in both:
        comparer.both_forms(name)
    with open(FORMS, encoding="utf-8") as file:
        forms = [(title, blocks) for title, blocks in pairs_of(file.read()) if len(blocks) == 2 and title not in STAYS]
    for title, (ada, here) in forms:
        comparer.forms(title, ada, here)
    comparer.deep()
    comparer.long()
    for told in comparer.wrong:
        print(f"lowered: {told}", file=sys.stderr)
    print(f"lowered: {len(found)} pairs, {len(CONSTRUCTS)} constructs, {len(programs) + len(both)} programs, {len(forms)} pairs of forms, {comparer.texts} comparisons, {len(comparer.wrong)} wrong")
    sys.exit(1 if comparer.wrong or not found or not programs or not both or not forms else 0)


if __name__ == "__main__":
    main()
