"""Images, streams that can't be written, and terminals, as checks/end_to_end tries them."""

import os
import pty
import subprocess
import threading
import tty

from reports import EXAMPLE, EXAMPLE_LINES
from shared import EMPTY_SCHEDULE, STEPS, Called, call, make_by

CHOICES = "0 1 1|2\n"
UNTIL = "1000"
END_OF_INPUT = b"\x04"


def images(checks):
    """Images: compiled to a file, listed as their bytes say, run as their source."""
    program, image = checks.program, checks.path("first.img")

    def listed(name, path):
        checks.expect(name, call(program, "list", path), 0, make_by("listing.py", path))

    checks.expect("compile", call(program, "compile", EXAMPLE, image), 0)
    checks.expect("run of what was compiled", call(program, "run", image, EMPTY_SCHEDULE, STEPS), 0, EXAMPLE_LINES)
    listed("listing", image)
    checks.expect("compile onto a full device", call(program, "compile", EXAMPLE, "/dev/full"), 1, "", "cannot write")
    for kind, *count in (["every"], ["large", "65535"]):
        path = checks.path(f"{kind}.img")
        make_by("images.py", kind, path, *count)
        listed(f"listing of {' '.join([kind, *count])}", path)


def watched(checks):
    """What the program that asks for exclusion answers where it watches no run, and where the limit is 0."""
    image, none = checks.path("first.img"), checks.path("none.img")
    for name, words, status, out in (
        ("a run to be watched without a limit", [image, EMPTY_SCHEDULE], 2, ""),
        ("a run to be watched of an image that isn't there", [none, EMPTY_SCHEDULE, "1"], 2, ""),
        ("a run to be watched of no image", [EXAMPLE, EMPTY_SCHEDULE, "1"], 6, ""),
        ("a run to be watched on no schedule", [image, EXAMPLE, "1"], 7, ""),
        ("a run that is watched at its start", [image, EMPTY_SCHEDULE, "0"], 0, "held after 0 steps"),
    ):
        checks.expect(name, call(checks.watcher, *words), status, out)


def unwritable(checks):
    """Standard output that is full or closed."""
    with open("/dev/full", "w", encoding="utf-8") as full:
        for stream, others in (("full", {"stdout": full}), ("closed", {"stdout": None, "preexec_fn": lambda: os.close(1)})):
            for words in writing(checks):
                checks.expect(f"{' '.join(words)} where standard output is {stream}", call(checks.program, *words, **others), 1, "", "cannot write")
        checks.expect("simulate where standard output is full", call(checks.program, "simulate", EXAMPLE, stdout=full), 1)


def writing(checks):
    """Calls of each command that writes to standard output, and says so where it can't."""
    image, choices = checks.path("first.img"), checks.file("choices", CHOICES)
    return (
        ["go", EXAMPLE, EMPTY_SCHEDULE, STEPS],
        ["trace", EXAMPLE, EMPTY_SCHEDULE, STEPS],
        ["trace", "--vcd", EXAMPLE, EMPTY_SCHEDULE, STEPS],
        ["trace", "--chart", EXAMPLE, EMPTY_SCHEDULE, STEPS],
        ["trace", "--svg", EXAMPLE, EMPTY_SCHEDULE, STEPS],
        ["measure", EXAMPLE, EMPTY_SCHEDULE, STEPS],
        ["search", EXAMPLE, choices, UNTIL, STEPS],
        ["search", "--quiet", EXAMPLE, choices, UNTIL, STEPS, "line", "none"],
        ["search", EXAMPLE, choices, UNTIL, STEPS, "waits", "--part", "1/2"],
        ["list", image],
        ["run", image, EMPTY_SCHEDULE, STEPS],
        ["format", EXAMPLE],
        ["lower", EXAMPLE],
        ["explain", "12"],
        ["explain", "12", EXAMPLE],
        ["manual"],
        ["version"],
    )


def terminal():
    """Both ends of a terminal that hands on bytes as they are."""
    other, own = pty.openpty()
    tty.setraw(own)
    return other, own


def all_of(end):
    """The bytes that come out of a terminal until nobody has its other end."""
    found = b""
    while True:
        try:
            part = os.read(end, 65_536)
        except OSError:
            return found
        if not part:
            return found
        found += part


def shown(stream, *words):
    """What a call leaves that has a terminal as this stream, whose bytes are read while it runs."""
    other, own = terminal()
    streams = {"stdin": subprocess.DEVNULL, "stdout": subprocess.PIPE, "stderr": subprocess.PIPE, stream: own}
    with subprocess.Popen(words, **streams) as running:
        os.close(own)
        seen = []
        reader = threading.Thread(target=lambda: seen.append(all_of(other)))
        reader.start()
        out, err = running.communicate()
        reader.join()
    os.close(other)
    left = {"stdout": out, "stderr": err, stream: seen[0]}
    return Called(running.returncode, left["stdout"].decode(), left["stderr"].decode())


def typed(text, *words):
    """What a call leaves whose standard input is a terminal at which the text is typed, and then that it ends."""
    other, own = pty.openpty()
    with subprocess.Popen(words, stdin=own, stdout=subprocess.PIPE, stderr=subprocess.PIPE) as running:
        os.close(own)
        echo = threading.Thread(target=all_of, args=(other,))
        echo.start()
        os.write(other, text + END_OF_INPUT)
        out, err = running.communicate()
    os.close(other)
    echo.join()
    return Called(running.returncode, out.decode(), err.decode())


def terminals(checks):
    """Terminals and /dev/null as standard output and standard error, and a terminal as standard input: what is left is as it is in a file."""
    faulty = checks.file("faulty.adb", "procedure Main is begin X := Y; end Main;\n")
    calls = [*writing(checks), ["simulate", EXAMPLE], ["simulate", faulty], ["check", faulty], ["check", EXAMPLE], ["go", faulty, EMPTY_SCHEDULE, STEPS], ["go"]]
    for words in calls:
        name, expected = " ".join(words), call(checks.program, *words)
        for stream in ("stdout", "stderr"):
            if words[0] != "search" or stream == "stdout" or words[1] == "--quiet":
                checks.expect(f"{name} with a terminal as {stream}", shown(stream, checks.program, *words), expected.status, expected.out, expected.err)
        left = call(checks.program, *words, stdout=subprocess.DEVNULL)
        checks.expect(f"{name} with /dev/null as standard output", left, expected.status, "", expected.err)
    with open(EXAMPLE, "rb") as file:
        text = file.read()
    for command in ("simulate", "check", "format", "lower"):
        expected = call(checks.program, command, EXAMPLE)
        checks.expect(f"{command} of a text that is typed", typed(text, checks.program, command, "-"), expected.status, expected.out, expected.err)
