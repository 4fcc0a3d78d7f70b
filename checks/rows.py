#!/usr/bin/env python3
"""Calls the program for each row of the tables in a folder, and compares every byte that it writes, and its exit status, with the row.

    rows.py PROGRAM WATCHER FOLDER SCRATCH

A table has rows of one kind, told by its name: programs, time, delays, tasks, protected, entries, interrupts, traces, refused and spelling have sources, schedules has schedules, images
and operations have images, words has words.

- A source is called by `go`, by `trace`, whose rows tell the same lines, then by `compile`, and what was compiled by `run`; one of traces by `trace` alone, with each byte of its rows. Where it is refused, no image is made, and one that was there stays.
- What was compiled of a row of tasks, delays, protected objects, entries or handlers of interrupts is also run, on a schedule that is read, by the WATCHER (crates/exclusion_main), which asks after each step whether
  exclusion holds. It takes as many steps as the least limit that gives the row's lines, where the row has `limits`, or as the limit that cuts it.
- A row has a name, and lines of a word and what belongs to it: the whole `text`, or what stands in the frame in the place of SPEC and BODY (`spec`, `body`;
  the frame loses a line without text, and has an empty procedure where it calls one that no `body` has), or an image (`image`, checks/mnemonics.py); a
  `schedule` and a `limit` (none, 100000); and what is expected: lines of `out`, the line `err`, the exit `status` (0). Lines of one word are joined.
- A row on one line has what is expected, `: `, and the text, the schedule or the words.
- A row with `limits` is run with each limit from 0 on: up to the first one that gives the row's lines it writes whole lines of these, no fewer than with the
  limit before, and then where the limit cut it, at a time between those of the lines around; from there on it gives the row's lines.
- A row with `until N` is called by `simulate` and by `trace`, both up to this time, and by nothing else.
- What a row with `checks N` compiles to has N instructions CHK in its listing.
- Of the image of a row with `cut`, each beginning is too short by what isn't there, and is refused at its end.
- `\\n`, `\\xNN` and the like stand for bytes, and {5*ab} for a part five times.
"""
import os
import re
import subprocess
import sys
from concurrent.futures import ThreadPoolExecutor

import mnemonics

FRAMED = "    "
STATUSES = {"fault": 2, "schedule": 7, "image": 6, "usage": 1, "cannot": 1, "accepted": 0}
WATCHED = {"tasks", "delays", "protected", "entries", "interrupts"}
DEFAULT_RUN = "procedure Run is begin null; end Run;"
# A main that calls a procedure of an object, and writes the number of an exception that this leaves.
CALLING = """label given label caught word 7 word 8 object 20 - 0 0 2 own 11 own 12 task MAIN 5 0
    sub 4 - 4 0 0 0 1 PCALL 0 1 0 RET 0 0 0 PUT 1 1 0 RET 0 0 0 handler 0 2 0 2"""
CALLING_PLACES = 4
JOBS = 2
MOST_STEPS = 5_000
MOST_LIMIT = 2**64 - 1
STATUS_OF_LIMIT = 5


def bytes_of(text):
    """The bytes that a text of a table stands for."""
    repeated = re.sub(r"\{(\d+)\*([^{}]*)\}", lambda part: part[2] * int(part[1]), text)
    return repeated.encode("latin-1").decode("unicode_escape").encode("latin-1")


def framed(frame, row):
    """The text of a row: what it has stands in the place of the frame's marks."""
    if "text" in row:
        return bytes_of("\n".join(row["text"]))
    body = row.get("body", [])
    if "App.Run;" in "".join(frame) and not any("procedure Run is" in line for line in body):
        body = [*body, DEFAULT_RUN]
    parts = {"SPEC": row.get("spec", []), "BODY": body}
    lines = [line for framed in frame for line in parts.get(framed.strip(), [framed])]
    return bytes_of("\n".join(lines)) + b"\n"


def rows_of(name, lines):
    """The rows of a table: each a name, with lists of lines by their words, and `source` for the text of a source."""
    frame, row, is_framed = [], None, False
    found = []
    for line in lines:
        if line.startswith(FRAMED) and is_framed:
            frame.append(line[len(FRAMED):])
            continue
        is_framed = line == "frame"
        word, _, rest = line.partition(" ")
        if is_framed:
            frame, row = [], None
        elif not line or line.startswith("#"):
            row = None
        elif word == "row":
            row = {"name": rest, "frame": frame}
            found.append(row)
        elif row is not None:
            row.setdefault(word, []).append(rest)
        else:
            found.append(short_row(name, line, frame))
    return found


def operation_row(name, written, given):
    """A row of an operation: its image, and the lines that are written of what it gives or raises."""
    words = given.split()
    code = " ".join(words[1:])
    if words[0] != "code":
        pushed = [f"PUSH {depth} 0 {operand}" for depth, operand in enumerate(words[:-1])]
        code = " ".join([*pushed, f"{words[-1]} {len(pushed)} 0 0 PUT 1 0 0 RET 0 0 0"])
    end = CALLING_PLACES + len(code.split()) // 4
    out = ["image fault at 0"] if written == "breaks" else [*(f"0 MAIN {line}" for line in written.split(", ")), "ended at 0"]
    status = ["6" if written == "breaks" else "0"]
    return {"name": name, "image": [f"{CALLING} sub 1 0 {end} 0 0 3 4 {code}"], "schedule": ["0 1 7\\n"], "limit": ["1000"], "out": out, "status": status}


def short_row(name, line, frame):
    """A row on one line: what is expected, and a text, a schedule, words or an operation."""
    expected, _, given = re.match(r"(.*?):( |$)(.*)", line).groups()
    if name == "operations":
        return operation_row(line, expected, given)
    status, _, told = expected.partition(" ")
    if not status.isdigit():
        status, told = str(STATUSES[status]), expected
    kind = {"spelling": "text", "schedules": "schedule", "words": "words"}[name]
    row = {"name": f"{expected}: {given}"[:60], "frame": frame, "err": [told] if told != "accepted" else [], "status": [status], kind: [given]}
    if told == "accepted":
        row["out"] = ["0 MAIN a 14", "ended at 0"]
    return row


def time_of(line):
    """The time of a line, which begins with it, or of a last line, which ends with it."""
    words = line.split()
    return int(words[0] if words[0].isdigit() else words[-1])


class Caller:
    """Calls the program, and the watcher if there is one, in a folder of its own, and tells where it leaves something else than what is expected."""

    def __init__(self, program, watcher, folder):
        self.program, self.watcher, self.folder = os.path.abspath(program), watcher and os.path.abspath(watcher), folder
        self.calls, self.watched, self.steps, self.wrong = 0, 0, 0, []
        os.makedirs(folder)

    def write(self, name, content):
        with open(os.path.join(self.folder, name), "wb") as file:
            file.write(content)

    def read(self, name):
        path = os.path.join(self.folder, name)
        if not os.path.exists(path):
            return None
        with open(path, "rb") as file:
            return file.read()

    def call(self, row, words, out, err, status):
        """Calls the program on the words."""
        run = subprocess.run([self.program, *words], cwd=self.folder, capture_output=True, check=False)
        self.calls += 1
        if (run.stdout, run.stderr, run.returncode) != (out, err, status):
            self.wrong.append(f"{row['name']}: {' '.join(words)}: status {run.returncode}, {run.stdout[-300:]!r}, {run.stderr!r}; expected {status}, {out[-300:]!r}, {err!r}")

    def tell(self, row, words, out, err, status):
        """Calls the program for a trace: the lines of the run stand in it word for word, in their order, and its last line is the run's."""
        run = subprocess.run([self.program, "trace", *words], cwd=self.folder, capture_output=True, check=False)
        self.calls += 1
        *rows, last = run.stdout.splitlines(keepends=True) or [b""]
        written = b"".join(told[1] + b"\n" for told in (re.fullmatch(rb"\d+ \d+ \S+ writes (.*?)(?: at \d+:\d+)?\n", told) for told in rows) if told) + last
        if (written, run.stderr, run.returncode) != (out, err, status):
            self.wrong.append(f"{row['name']}: trace: status {run.returncode}, {written[-300:]!r}, {run.stderr!r}; expected {status}, {out[-300:]!r}, {err!r}")

    def watch(self, row, words, steps):
        """Has the watcher run an image: exclusion holds after each step, and it takes so many (None: any number)."""
        run = subprocess.run([self.watcher, *words], cwd=self.folder, capture_output=True, check=False)
        self.watched += 1
        held = re.fullmatch(rb"held after (\d+) steps\n", run.stdout)
        if run.returncode or run.stderr or not held or steps not in (None, int(held[1])):
            expected = "some" if steps is None else steps
            self.wrong.append(f"{row['name']}: exclusion: status {run.returncode}, {run.stdout!r}, {run.stderr!r}; expected that it held after {expected} steps")
        else:
            self.steps += int(held[1])

    def grows(self, row, words, out):
        """Calls the program on the words with each limit from 0 on; gives the first one with which it writes this."""
        lines, before = out.splitlines(keepends=True), 0
        for limit in range(MOST_STEPS):
            run = subprocess.run([self.program, *words, str(limit)], cwd=self.folder, capture_output=True, check=False)
            self.calls += 1
            if run.stdout == out:
                if run.returncode != STATUS_OF_LIMIT:
                    self.stays(row, words, limit, run)
                return limit
            *written, last = run.stdout.splitlines(keepends=True) or [b""]
            is_beginning = written == lines[:len(written)] and before <= len(written) < len(lines)
            cut = re.fullmatch(rb"step limit at (\d+)\n", last)
            is_in_time = cut and is_beginning and time_of(([b"0 "] + lines)[len(written)]) <= int(cut[1]) <= time_of(lines[len(written)])
            if not is_in_time or run.stderr or run.returncode != STATUS_OF_LIMIT:
                self.wrong.append(f"{row['name']}: with limit {limit}: status {run.returncode}, {run.stdout!r}, {run.stderr!r}")
            before = len(written)
        self.wrong.append(f"{row['name']}: no limit below {MOST_STEPS} gives its lines")
        return None

    def stays(self, row, words, limit, ended):
        """Calls the program with one step more than it needs, and with the most steps that a limit may have: it writes the same."""
        for more in (limit + 1, MOST_LIMIT):
            run = subprocess.run([self.program, *words, str(more)], cwd=self.folder, capture_output=True, check=False)
            self.calls += 1
            if (run.stdout, run.stderr, run.returncode) != (ended.stdout, ended.stderr, ended.returncode):
                self.wrong.append(f"{row['name']}: with limit {more}: status {run.returncode}, {run.stdout!r}, {run.stderr!r}, and not as with limit {limit}")

    def counts(self, row, mnemonic, expected):
        """The listing of the compiled image has so many instructions of this mnemonic."""
        run = subprocess.run([self.program, "list", "main.img"], cwd=self.folder, capture_output=True, check=False)
        self.calls += 1
        found = sum(mnemonic in line.split() for line in run.stdout.decode().splitlines())
        self.same(row, f"{found} instructions {mnemonic}, expected {expected}", (run.returncode, found), (0, expected))

    def same(self, row, what, found, expected):
        if found != expected:
            self.wrong.append(f"{row['name']}: {what}")


def expected_of(row):
    """Standard output, standard error and the exit status of a row."""
    out, err = ("".join(line + "\n" for line in row.get(word, [])).encode() for word in ("out", "err"))
    return out, err, int(row.get("status", ["0"])[0])


def row_of(table, name):
    """A row of a table by its name: its source, its schedule, its limit, and standard output, standard error and the exit status."""
    with open(os.path.join(os.path.dirname(os.path.abspath(__file__)), "rows", table + ".txt"), encoding="utf-8") as file:
        row = next(row for row in rows_of(table, file.read().split("\n")) if row["name"] == name)
    return framed(row["frame"], row), bytes_of("".join(row.get("schedule", []))), row.get("limit", ["100000"])[0], *expected_of(row)


def run_source(caller, row):
    """A source by `go`, and by `compile` and then `run`; up to a time by `simulate`."""
    limit = row.get("limit", ["100000"])[0]
    out, err, status = expected_of(row)
    caller.write("main.adb", framed(row["frame"], row))
    caller.write("input", bytes_of("".join(row.get("schedule", []))))
    if "until" in row:
        words = ["main.adb", "input", limit, "--until", row["until"][0]]
        caller.call(row, ["simulate", *words], out, err, status)
        caller.tell(row, words, out, b"", status)
        return
    caller.call(row, ["go", "main.adb", "input", limit], out, err, status)
    caller.tell(row, ["main.adb", "input", limit], out, err, status)
    if status == 2:
        caller.write("kept.img", b"kept")
        for image, before in [("kept.img", b"kept"), ("none.img", None)]:
            caller.call(row, ["compile", "main.adb", image], b"", err, 2)
            caller.same(row, f"{image} has changed", caller.read(image), before)
    else:
        caller.call(row, ["compile", "main.adb", "main.img"], b"", b"", 0)
        caller.call(row, ["run", "main.img", "input", limit], out, err, status)
        if "checks" in row:
            caller.counts(row, "CHK", int(row["checks"][0]))
        steps = int(limit) if status == STATUS_OF_LIMIT else None
        if "limits" in row:
            steps = caller.grows(row, ["go", "main.adb", "input"], out)
        if caller.watcher and status != STATUSES["schedule"]:
            caller.watch(row, ["main.img", "input", limit], steps)


def run_trace(caller, row):
    """A source by `trace`, with each byte of its rows."""
    caller.write("main.adb", framed(row["frame"], row))
    caller.write("input", bytes_of("".join(row.get("schedule", []))))
    caller.call(row, ["trace", "main.adb", "input", row.get("limit", ["100000"])[0]], *expected_of(row))


def run_image(caller, row):
    """An image by `run`; one that is refused, by `list` too."""
    out, err, status = expected_of(row)
    caller.write("main.img", mnemonics.image_of("\n".join(row["image"])))
    caller.write("input", bytes_of("".join(row.get("schedule", []))))
    caller.call(row, ["run", "main.img", "input", row.get("limit", ["100000"])[0]], out, err, status)
    if err:
        caller.call(row, ["list", "main.img"], b"", err, status)
    if "limits" in row:
        caller.grows(row, ["run", "main.img", "input"], out)
    if "cut" in row:
        image = mnemonics.image_of(row["image"][0])
        for length in range(len(image)):
            caller.write("main.img", image[:length])
            caller.call(row, ["run", "main.img", "input", "1"], b"", f"image fault 41 at byte {length}\n".encode(), 6)
    if "listed" in row:
        caller.call(row, ["list", "main.img"], "".join(line + "\n" for line in row["listed"]).encode(), b"", 0)


def run_words(caller, row):
    """The program on words, over the files that words.txt tells of."""
    thousand = mnemonics.image_of("thousand")
    files = {
        "main.adb": b"pragma Profile (Ravenscar);\nprocedure Main is begin null; end Main;\n",
        "refused.adb": b"procedure Main is begin end Main;",
        "return.img": mnemonics.image_of("return_alone"),
        "thousand.img": thousand,
        "short.img": thousand[:-1],
        "empty": b"",
        "faulty": b"0\n",
    }
    for name, content in files.items():
        caller.write(name, content)
    caller.call(row, row["words"][0].split(), *expected_of(row))
    files_left = {name: caller.read(name) for name in sorted(os.listdir(caller.folder))}
    caller.same(row, "files have changed", files_left, files)


KINDS = {"programs": run_source, "time": run_source, "delays": run_source, "tasks": run_source, "protected": run_source, "entries": run_source, "interrupts": run_source, "refused": run_source, "spelling": run_source, "schedules": run_source, "traces": run_trace, "images": run_image, "operations": run_image, "words": run_words}


def check_table(program, watcher, path, scratch):
    """Calls the rows of one table; gives a line that says how many there are and how many calls that made, and what was wrong."""
    name = os.path.splitext(os.path.basename(path))[0]
    with open(path, encoding="utf-8") as file:
        rows = rows_of(name, file.read().split("\n"))
    is_watched = name in WATCHED
    callers = [Caller(program, watcher if is_watched else None, os.path.join(scratch, f"{name}-{number}")) for number in range(JOBS)]
    with ThreadPoolExecutor(JOBS) as pool:
        list(pool.map(lambda caller: [KINDS[name](caller, row) for row in rows[callers.index(caller)::JOBS]], callers))
    calls, runs, steps = (sum(getattr(caller, count) for caller in callers) for count in ("calls", "watched", "steps"))
    wrong = [told for caller in callers for told in caller.wrong]
    watched = f"{runs} runs with exclusion after each of {steps} steps, " if is_watched else ""
    return f"{len(rows)} rows of {path}, {calls} calls, {watched}{len(wrong)} wrong", bool(rows and (runs or not is_watched)), wrong


def main():
    program, watcher, folder, scratch = sys.argv[1:]
    failed = False
    for path in sorted(os.path.join(folder, name) for name in os.listdir(folder)):
        summary, is_tried, wrong = check_table(program, watcher, path, scratch)
        for told in wrong:
            print(f"rows: {path}: {told}", file=sys.stderr)
        print(f"rows: {summary}")
        failed = failed or not is_tried or wrong
    return 1 if failed else 0


if __name__ == "__main__":
    sys.exit(main())
