"""Large and deep sources, and one with every production of the grammar, as checks/end_to_end gives them to the program."""

import os
import re
import resource

from shared import CHECKS, EMPTY_SCHEDULE, STEPS, Called, call, lines_of_trace, make_by, place_of, text_of

STACK = 192 * 1024
NUMBER_OF_LARGE = "23"
FAULT = re.compile(r"fault (\d+) at (\d+:\d+)")


def many(procedures, labels):
    """A package of so many procedures, each of which writes so many labels of its own, and a main that calls them all, the last one first."""
    numbers = range(1, procedures + 1)
    lines = ["pragma Profile (Ravenscar);", "with Control_IO; use Control_IO;", "package App is", *(f"procedure P{p};" for p in numbers), "end App;", "package body App is"]
    for p in numbers:
        lines += [f"procedure P{p} is begin", *(f'Put ("{p}-{label}", {p} * 100 - (-{label}));' for label in range(1, labels + 1)), f"end P{p};"]
    lines += ["end App;", "with App;", "procedure Main is begin", *(f"App.P{p};" for p in reversed(numbers)), "end Main;"]
    return "\n".join(lines) + "\n"


def lines_of_many(procedures, labels):
    written = [f"0 MAIN {p}-{label} {p * 100 + label}" for p in range(procedures, 0, -1) for label in range(1, labels + 1)]
    return "\n".join([*written, "ended at 0"])


def nested(levels, inside="7"):
    """So many parentheses inside those of Put."""
    deep = "(" * levels + inside + ")" * levels
    head = "pragma Profile (Ravenscar);\nwith Control_IO; use Control_IO;\npackage App is procedure P; end App;\npackage body App is procedure P is begin\n"
    return head + f'Put ("n", {deep});\nend P; end App;\nwith App;\nprocedure Main is begin App.P; end Main;\n'


def filled(count):
    """A source of so many bytes on one line."""
    return "pragma Profile (Ravenscar); procedure Main is begin null; end Main;".ljust(count)


def large(checks):
    """Procedures, labels, levels and bytes, as many as there may be, and one more."""
    checks.go("128 procedures and 1,024 labels", many(128, 8), 0, lines_of_many(128, 8))
    text = many(129, 1)
    checks.go("129 procedures", text, 2, "", f"fault 23 at {place_of(text, text.index('procedure P129;'))}")
    text = many(5, 205)
    checks.go("1,025 labels", text, 2, "", f"fault 23 at {place_of(text, text.index(chr(34) + '5-205'))}")
    checks.go("40 levels", nested(39), 0, "0 MAIN n 7\nended at 0")
    checks.go("41 levels", nested(40), 2, "", "fault 7 at 5:50")
    checks.go("501 levels", nested(500), 2, "", "fault 7 at 5:50")
    checks.go("65,536 bytes", filled(65_536), 0, "ended at 0")
    checks.go("65,537 bytes", filled(65_537), 2, "", "fault 1 at 1:65537")


def every_production(checks):
    """A source that uses every production of the grammar, and the same without each of its tokens: where it is at fault (checks/deletions.py).
    What is derived breaks the rule 18 first: Server has no body."""
    whole = text_of(os.path.join(CHECKS, "every_production.adb"))
    bodiless = f"fault 18 at {place_of(whole, whole.index('Server', whole.index('task Server')))}"
    checks.go("every production", whole, 2, "", bodiless)
    for line in text_of(os.path.join(CHECKS, "deletions.txt")).splitlines():
        start, length, place = line.split()
        text = whole[: int(start)] + " " * int(length) + whole[int(start) + int(length) :]
        checks.go(f"without the token at byte {start}", text, 2, "", bodiless if place == "none" else f"fault 6 at {place}")


def with_stack(size):
    return lambda: resource.setrlimit(resource.RLIMIT_STACK, (size, size))


def reported(called, fault):
    """What `go` leaves of a text with this fault, of a call that reports it among others in words."""
    number, place = FAULT.fullmatch(fault).groups()
    is_there = re.search(rf":{place}: error: .*\[fault {number}\]\n", called.err)
    return Called(called.status, called.out, fault) if is_there else called


def by_other_commands(checks, name, path, status, out, err):
    """The text by the commands that report more than `go`."""

    def called(*words):
        return call(checks.program, *words, env={}, preexec_fn=with_stack(STACK))

    run = [path, EMPTY_SCHEDULE, STEPS]
    checked, simulated = called("check", path), called("simulate", *run)
    traced, dumped, measured = called("trace", *run), called("trace", "--vcd", *run), called("measure", *run)
    searched = called("search", path, EMPTY_SCHEDULE, "0", STEPS)
    number = err.split()[1] if status == 2 else NUMBER_OF_LARGE
    section, explained = called("explain", number), called("explain", number, path)
    checks.expect(f"{name}: explain", Called(explained.status, explained.out[: len(section.out)], explained.err), 0, section.out)
    checks.expect(f"{name}: trace", Called(traced.status, lines_of_trace(traced.out), traced.err), status, out, err)
    if status == 2:
        checks.expect(f"{name}: simulate", reported(simulated, err), status, out, err)
        checks.expect(f"{name}: check", reported(checked, err), status, out, err)
        checks.expect(f"{name}: dump", dumped, status, out, err)
        checks.expect(f"{name}: measure", measured, status, out, err)
        checks.expect(f"{name}: search", searched, status, out, err)
        return
    checks.expect(f"{name}: simulate", Called(simulated.status, simulated.out, ""), status, out)
    checks.expect(f"{name}: check", checked, 0)
    checks.expect(f"{name}: dump", Called(dumped.status, dumped.out.splitlines()[-1:][0], dumped.err), status, "$end")
    checks.expect(f"{name}: measure", Called(measured.status, measured.out.splitlines()[-1:][0], measured.err), status, out.splitlines()[-1])
    checks.expect(f"{name}: search", Called(searched.status, "", searched.err), 0 if status == 0 else status)


def with_a_small_stack(checks):
    """The longest and the deepest texts of each kind (checks/large_texts.py), with a stack of 192 KiB: what a long text needs doesn't grow with its length, and what
    a deep one needs is bounded by the 40 levels. The environment is on the stack too, so it is empty."""
    folder = checks.path("large")
    make_by("large_texts.py", folder)
    for name in sorted(re.sub(r"\.adb$", "", file) for file in os.listdir(folder) if file.endswith(".adb")):
        status, out, err = (text_of(os.path.join(folder, f"{name}.{part}")) for part in ("status", "out", "err"))
        path = os.path.join(folder, f"{name}.adb")
        ran = call(checks.program, "go", path, EMPTY_SCHEDULE, STEPS, env={}, preexec_fn=with_stack(STACK))
        checks.expect(name, ran, int(status), out, err)
        by_other_commands(checks, name, path, int(status), out, err.rstrip("\n"))
