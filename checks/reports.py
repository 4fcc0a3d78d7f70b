"""What the program reports of sources, schedules and runs, as checks/end_to_end asks for it: the texts of docs/FAULTS.md with their explanations, what `simulate` and
`check` show, the manual, and names that begin with a hyphen."""

import os
import re

from shared import EMPTY_SCHEDULE, STEPS, Called, call, make_by, text_of
from sources import nested

RUN = "./run"
LAST_NUMBER = 300
EXAMPLE = "examples/first.adb"
EXAMPLE_LINES = "0 MAIN a 14\n0 MAIN b 3\nended at 0"
TOKEN = "error: A token that cannot stand here: No text of the grammar (docs/LANGUAGE.md) has this token after those before it, or the text ends too early (RM 1.1.4). [fault 6]"
BYTE = (
    "error: No token begins here: Only the characters of tokens, white space and comments stand in a text (RM 2.1, 2.2);"
    " `**`, `<<`, `>>` and `<>` are no part of this language. [fault 2]"
)
LINE = (
    "error: A line of another form: Each line is a time, one space, a channel, one space, a value and a line feed, in numbers without leading zeros. [fault 50]"
)
SHARP = "hint: `#` begins nothing: numbers are decimal."
PROFILE = "pragma Profile (Ravenscar);"

# Sources with what `simulate` reports of them: what it is of, the text, what stands behind its name and `:`.
REFUSED = [
    (
        "bytes that aren't printable",
        b"pragma Profile (Ravenscar);\r\n  \303\244 -- \303\244\r\n",
        f"2:3: {BYTE}\n  ?? -- ??\n  ^\nhint: Outside comments a text is ASCII: letters, digits, and the delimiters of RM 2.2.",
    ),
    (
        "a byte order mark",
        b"\357\273\277pragma Profile (Ravenscar);\n",
        f"1:1: {BYTE}\n???{PROFILE}\n^\n"
        "hint: The bytes EF BB BF are a byte order mark, where they begin a text: save it without one. Outside comments a text is ASCII.",
    ),
    ("a line of 228 columns", f"{PROFILE}{' ' * 100}#{' ' * 100}\n", f"1:128: {BYTE}\n{' ' * 80}#{' ' * 79}\n{' ' * 80}^\n{SHARP}"),
    ("a line of 160 columns", f"{PROFILE}{' ' * 132}#", f"1:160: {BYTE}\n{PROFILE}{' ' * 132}#\n{' ' * 159}^\n{SHARP}"),
    (
        "a text that ends too early",
        f"{PROFILE}\nprocedure Main is",
        f"2:18: {TOKEN}\nprocedure Main is\n                 ^\n"
        "open here: the body of main that begins at 2:1, closed by `end` and its name\ncould stand here: `begin`",
    ),
]

FAULTY = f"{PROFILE}\n\tprocedure Main is begin end Main;\n"
FAULTY_REPORT = (
    f"2:26: {TOKEN}\n\tprocedure Main is begin end Main;\n\t                        ^\n"
    "hint: A statement is wanted here: write `null;` where there is nothing to do.\ncould stand here: an identifier, `null`"
)

# A task that waits forever at an entry.
TAKER = """pragma Profile (Ravenscar);
with Control_IO; use Control_IO;
with Ada.Real_Time; use Ada.Real_Time;
package App is
   task Taker with Priority => 5;
   task Giver with Priority => 4;
   procedure Begin_All;
end App;
package body App is
   protected Cell is
      procedure Give (N : Integer);
      entry Take (N : out Integer);
   private
      Held : Integer := 0;
      Full : Boolean := False;
   end Cell;
   protected body Cell is
      procedure Give (N : Integer) is
      begin
         Held := N;
         Full := True;
      end Give;
      entry Take (N : out Integer) when Full is
      begin
         N := Held;
         Full := False;
      end Take;
   end Cell;
   task body Taker is
      N : Integer;
   begin
      loop
         Cell.Take (N);
         Put ("taken", N);
      end loop;
   end Taker;
   task body Giver is
   begin
      delay until Clock + Milliseconds (3);
      Cell.Give (7);
   end Giver;
   procedure Begin_All is
   begin
      null;
   end Begin_All;
end App;
with App;
procedure Main is
begin
   App.Begin_All;
end Main;
"""

# A loop that waits for the clock, which doesn't move.
BUSY = """pragma Profile (Ravenscar);
with Ada.Real_Time; use Ada.Real_Time;
package App is
   procedure Wait;
end App;
package body App is
   procedure Wait is
      Start : Time := Clock;
   begin
      while Clock < Start + Milliseconds (5) loop
         null;
      end loop;
   end Wait;
end App;
with App;
procedure Main is
begin
   App.Wait;
end Main;
"""
STILL = "the clock has not moved in the last half of the steps: computing takes no virtual time, so a loop that waits for the clock needs a delay until"


class Faults:
    """The texts of docs/FAULTS.md with what is reported of them, as checks/faults.py writes them to a folder."""

    def __init__(self, checks):
        self.checks, self.folder = checks, checks.path("faults")
        os.mkdir(self.folder)
        make_by("faults.py", "docs/FAULTS.md", self.folder)

    def names(self, *endings):
        return sorted(name for name in os.listdir(self.folder) if name.endswith(endings))

    def path(self, name):
        return os.path.join(self.folder, name)

    def content(self, name):
        return text_of(self.path(name)).rstrip("\n") if os.path.exists(self.path(name)) else None

    def texts(self):
        """Each text, image, schedule and set of schedules is refused by the fault of its section."""
        for name in self.names(".text", ".image"):
            number, fault = name.split(".")[0], self.content(f"{name.split('.')[0]}.fault")
            kinds = {
                "image": (6, "image", ["list", self.path(name)]),
                "schedule": (7, "schedule", ["go", EXAMPLE, self.path(name), STEPS]),
                "choices": (7, "set of schedules", ["search", EXAMPLE, self.path(name), "60000", STEPS]),
                "fault": (2, "text", ["go", self.path(name), EMPTY_SCHEDULE, STEPS]),
            }
            status, kind, words = kinds[fault.split()[0]]
            self.checks.expect(f"the {kind} of fault {number}", call(self.checks.program, *words), status, "", fault)

    def explanations(self):
        """The program explains each of them as its section does, and no other number."""
        for number in range(LAST_NUMBER + 1):
            explained, called = self.content(f"{number}.explained"), call(self.checks.program, "explain", str(number))
            if explained is None:
                self.checks.expect(f"the explanation of {number}, which is no fault", called, 1, "", "usage")
            else:
                self.checks.expect(f"the explanation of fault {number}", called, 0, explained)

    def continuations(self):
        """What could stand in a text with a token that cannot stand where it is; of each other text nothing."""
        whole = self.content("6.explained")
        for name in self.names(".text", ".mistake"):
            fault = self.content(f"{name.removesuffix('.text')}.fault") if name.endswith(".text") else None
            if fault is None or not fault.startswith(("schedule", "choices")):
                told, called = self.content(f"{name}.told"), call(self.checks.program, "explain", "6", self.path(name))
                self.checks.expect(f"what could stand in {name}", called, 0, whole if told is None else f"{whole}\n\n{told}")

    def levels(self):
        """A parenthesis and an if expression could stand where they open the 40th level, and not where they would open the 41st."""
        whole = self.content("6.explained")
        for levels, more in ((38, "`(`, `+`, `-`, `abs`, `if`, `not`"), (39, "`+`, `-`, `abs`, `not`")):
            source = self.checks.file("source", re.sub(r"7\)*\);", "*", nested(levels)))
            called = call(self.checks.program, "explain", "6", source)
            self.checks.expect(f"what could stand in {levels + 1} levels", called, 0, f"{whole}\n\ncould stand here: an identifier, a number, {more}")

    def mistakes(self):
        """First mistakes, each with its fault; below the line of the place is what to write instead, and what could stand there. `./run` shows the same."""
        for name in self.names(".mistake"):
            number, source = name.split(".")[0], self.path(name)
            refused = call(self.checks.program, "go", source, EMPTY_SCHEDULE, STEPS)
            self.checks.expect(f"the first mistake {number}", refused, 2, "", self.content(f"{number}.wrong"))
            for command in ([self.checks.program, "simulate"], [RUN]):
                called = call(*command, source)
                below = Called(called.status, called.out, "\n".join(called.err.split("\n")[3:]))
                self.checks.expect(f"{' '.join(command)} of the first mistake {number}", below, 2, "", self.content(f"{number}.shown"))


def hyphens(checks):
    """Names of files that begin with a hyphen are words after `--`; words that are no UTF-8 are no names."""
    checks.file("-first.adb", text_of(EXAMPLE))
    program, inside = checks.program, {"cwd": checks.scratch}
    checks.expect("a name that begins with a hyphen", call(program, "go", "--", "-first.adb", EMPTY_SCHEDULE, STEPS, **inside), 0, EXAMPLE_LINES)
    dump = call(program, "trace", "--vcd", EXAMPLE, EMPTY_SCHEDULE, STEPS).out
    called = call(program, "trace", "--vcd", "--", "-first.adb", EMPTY_SCHEDULE, STEPS, **inside)
    checks.expect("a dump of a file whose name begins with a hyphen", called, 0, dump)
    checks.expect("a name that is no UTF-8", call(program, "go", b"\xff", EMPTY_SCHEDULE, "1"), 1, "", "usage")
    checks.expect("simulate a file whose name begins with a hyphen", call(program, "simulate", "--", "-first.adb", **inside), 0, EXAMPLE_LINES)
    checks.expect("check a file whose name begins with a hyphen", call(program, "check", "--", "-first.adb", **inside), 0)


def simulate(checks):
    """`simulate` runs as `go` does, and shows where a source or a schedule is at fault, and the rule; so does `./run`."""
    program, tank = checks.program, text_of("examples/tank.out")
    checks.expect("simulate with all words", call(program, "simulate", "examples/tank.adb", "examples/tank.schedule", "1000000"), 0, tank)
    checks.expect("simulate without a limit", call(program, "simulate", "examples/tank.adb", "examples/tank.schedule"), 0, tank)
    checks.expect("simulate without a schedule", call(program, "simulate", EXAMPLE), 0, EXAMPLE_LINES)
    source = checks.file("source", FAULTY)
    for command in ([program, "simulate"], [RUN]):
        checks.expect(f"{' '.join(command)} of a faulty source", call(*command, source), 2, "", f"{source}:{FAULTY_REPORT}")
    for name, text, report in REFUSED:
        source = checks.file("source", text)
        checks.expect(name, call(program, "simulate", source), 2, "", f"{source}:{report}")
    source = checks.file("source", TAKER)
    waits = f"{source}:33:10: TAKER waits at CELL.TAKE since 3000\n         Cell.Take (N);\n         ^"
    checks.expect("a task that waits forever", call(program, "simulate", source), 4, "3000 TAKER taken 7\nwaits forever at 3000", waits)
    source = checks.file("source", BUSY)
    was_running = f"{source}:10:7: MAIN was running here\n      while Clock < Start + Milliseconds (5) loop\n      ^\n{STILL}"
    checks.expect("a loop that waits for the clock", call(program, "simulate", source, EMPTY_SCHEDULE, "1000"), 5, "step limit at 0", was_running)
    for name, text, place, line in (("", "0 1 5\n0 9\t5\n", 2, "0 9\t5"), (" without a line feed", "0 9 5", 1, "0 9 5")):
        schedule = checks.file("bad", text)
        checks.expect(f"a faulty schedule{name}", call(program, "simulate", EXAMPLE, schedule), 7, "", f"{schedule}:{place}: {LINE}\n{line}")


def check_onto_a_full_device(checks):
    source = checks.file("source", "procedure Main is begin end Main;\n")
    with open("/dev/full", "w", encoding="utf-8") as full:
        checks.expect("check where standard error is full", call(checks.program, "check", source, stderr=full), 1)


def manual(checks):
    """The manual has each command of README.md, and the version is one line."""
    version = re.search(r'^pub const VERSION: &str = "(.*)\\n";$', text_of("crates/manual/src/lib.rt"), re.M)[1]
    checks.expect("the version", call(checks.program, "version"), 0, version)
    shown = call(checks.program, "manual")
    checks.expect("the manual", shown, 0, shown.out)
    for command in re.findall(r"^    (adarun [^ \n]+(?: --vcd| --chart| --svg)?)", text_of("README.md"), re.M):
        checks.expect(f"{command} in the manual", shown, 0, shown.out if f"    {command}" in shown.out else f"    {command}")


def linked_run(checks):
    os.symlink(os.path.abspath("run"), checks.path("run"))
    called = call(checks.path("run"), "examples/tank.adb", "examples/tank.schedule")
    checks.expect("./run by a symbolic link", called, 0, text_of("examples/tank.out"))


def example(checks):
    checks.expect("the example", call(RUN, EXAMPLE), 0, EXAMPLE_LINES)
    at_limit = call(RUN, EXAMPLE, EMPTY_SCHEDULE, "0")
    checks.expect("the example with limit 0", at_limit, 5, "step limit at 0", f"{EXAMPLE}: MAIN was running here")


def faults(checks):
    found = Faults(checks)
    found.texts()
    found.explanations()
    found.continuations()
    found.levels()
    found.mistakes()
