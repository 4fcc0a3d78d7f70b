#!/usr/bin/env python3
"""Runs the commands of README.md as they stand there, and compares what they write with what it shows.

    readme.py PROGRAM SCRATCH

`./build` finds the program that the gate has just proved, so it takes a second here. `./test`, which is named there too, is what calls this.
"""
import os
import re
import subprocess
import sys

SOURCE, SCHEDULE = "examples/tank.adb", "examples/tank.schedule"
PROFILE = "pragma Profile (Ravenscar);\n"
# Sources whose runs end as the table of statuses says.
STOPPED = PROFILE + "package App is procedure Run; end App;\npackage body App is procedure Run is begin raise Program_Error; end Run; end App;\nwith App; procedure Main is begin App.Run; end Main;\n"
WAITS = (
    PROFILE
    + "package App is procedure Run; protected Box is entry Take; private Full : Boolean := False; end Box; end App;\npackage body App is\n"
    + "protected body Box is entry Take when Full is begin null; end Take; end Box;\nprocedure Run is begin Box.Take; end Run;\nend App;\nwith App; procedure Main is begin App.Run; end Main;\n"
)


def blocks_of(text):
    """Each run of indented lines, with the text of the paragraph in front of it."""
    before, found = "", []
    for part in re.split(r"\n\n", text):
        lines = part.strip("\n").split("\n")
        if all(line.startswith("    ") for line in lines):
            found.append((before, [line[4:] for line in lines]))
        before = part
    return found

OPTION = r" \[(--(?:quiet|tsv|time|until TIME))\]"


class Checker:
    def __init__(self, program, scratch):
        self.program, self.scratch, self.right, self.many = program, scratch, 0, 0

    def is_so(self, name, holds, told=""):
        self.many += 1
        self.right += bool(holds)
        if not holds:
            print(f"readme: {name}: {told}", file=sys.stderr)

    def called(self, words):
        ran = subprocess.run(words, capture_output=True, text=True, check=False)
        return ran.returncode, ran.stdout, ran.stderr

    def file(self, name, text):
        path = os.path.join(self.scratch, name)
        with open(path, "w", encoding="utf-8") as file:
            file.write(text)
        return path

    def example(self, blocks):
        """The program, its schedule, its lines, the piece of its trace, and its chart."""
        with open(SOURCE, encoding="utf-8") as file:
            source = [line.strip() for line in file]
        shown, schedule, lines, trace, chart = blocks[:5]
        for column in (slice(0, 46), slice(46, None)):
            part = [line[column].strip() for line in shown[1] if line[column].strip()]
            where = [number for number, line in enumerate(source) if line == part[0]]
            self.is_so(f"the piece of {SOURCE} that begins with `{part[0]}`", any(source[at : at + len(part)] == part for at in where), part)
        with open(SCHEDULE, encoding="utf-8") as file:
            self.is_so(SCHEDULE, file.read().split("\n") == [*schedule[1], ""], schedule[1])
        command = re.search(r"`(\./run [^`]*)`", lines[0])[1]
        self.is_so(command, self.called(command.split()) == (0, "\n".join(lines[1]) + "\n", ""), lines[1])
        told = self.called([self.program, "trace", SOURCE, SCHEDULE, "1000000"])[1]
        self.is_so("the piece of its trace", "\n".join(trace[1]) + "\n" in told, trace[1])
        told = self.called([self.program, "trace", "--chart", SOURCE, SCHEDULE, "1000000"])[1]
        self.is_so("its chart", "\n".join(chart[1]) + "\n" == told, chart[1])
        return "\n".join(lines[1]) + "\n"

    def refused(self, blocks):
        """The text that is refused, and what `./run` reports of it."""
        for (_, text), (before, report) in zip(blocks, blocks[1:]):
            command = re.search(r"`(\./run (\w+\.adb))` reports", before)
            if command:
                self.file(command[2], "\n".join(text) + "\n")
                ran = subprocess.run([os.path.abspath("run"), command[2]], cwd=self.scratch, capture_output=True, text=True, check=False)
                self.is_so(command[1], (ran.returncode, ran.stdout, ran.stderr) == (2, "", "\n".join(report) + "\n"), ran.stderr)

    def lowered(self, blocks):
        """The lines of a text of whole Ada, what `lower` writes for them, line for line, and the first lines of the run."""
        for (_, text), (_, words), (before, lines) in zip(blocks, blocks[1:], blocks[2:]):
            command = re.search(r"`adarun lower ([^ `]*) > ([^ `]*)` the call `adarun go \2 ([^ `]*) (\d+)`", before)
            if command:
                source, name, schedule, limit = command.groups()
                status, written, _ = self.called([self.program, "lower", source])
                with open(source, encoding="utf-8") as file:
                    pairs = list(zip(map(str.strip, file.read().split("\n")), map(str.strip, written.split("\n"))))
                self.is_so(f"the lines of {source}", status == 0 and all(pair in pairs for pair in zip(text, words)) and len(text) == len(words), (status, words))
                status, told, _ = self.called([self.program, "go", self.file(name, written), schedule, limit])
                self.is_so(f"the run of {name}", status == 0 and told.startswith("\n".join(lines) + "\n"), (status, told))
                return
        self.is_so("a text of whole Ada", False, "isn't shown")

    def commands(self, lines, written):
        """Each command of the program, with names in the place of the words in capitals; of alternatives in brackets none, and each."""
        image = os.path.join(self.scratch, "tank.img")
        choices = self.file("choices.txt", "10000 1 20|50|90\n")
        names = {"SRC": SOURCE, "FILE": SOURCE, "SCHED": SCHEDULE, "LIMIT": "1000000", "IMG": image, "NUMBER": "6", "CHOICES": choices, "UNTIL": "60000", "LABEL": "nobody", "TIME": "60000"}
        for line in lines:
            shown, _, group, part = re.fullmatch(r"(.*?)( \[([^]]*\|[^]]*)\])?( \[--part K/N\])?", re.split(r"  +", line)[0]).groups()
            starts = [re.sub(OPTION, "", shown), *([re.sub(OPTION, r" \1", shown)] if re.search(OPTION, shown) else [])]
            forms = starts if group is None else [*starts, *(f"{start} {words.strip()}" for start in starts for words in group.split("|"))]
            for form in [*forms, *(f"{form} --part 2/3" for form in forms if part)]:
                words = form.split()
                status, out, err = self.called([self.program, *(names.get(word.strip("[]"), word) for word in words[1:])])
                writes = out == written if words[1] in ("go", "run", "simulate") else (out == "") == (words[1] in ("compile", "check"))
                self.is_so(form, status == 0 and err == "" and writes, (status, out, err))

    def build(self):
        """`./build`, which gives the program that stands there already."""
        with open(self.program, "rb") as file:
            before = file.read()
        status, out, err = self.called(["./build"])
        with open(self.program, "rb") as file:
            self.is_so("./build", (status, out) == (0, "") and file.read() == before, err[-1000:])

    def install(self):
        """`./build --install`: the program, its manual page and the completions below a prefix."""
        prefix = os.path.join(self.scratch, "prefix")
        status, out, err = self.called(["./build", "--install", prefix])
        manual = self.called([f"{prefix}/bin/adarun", "manual"])[1]
        with open(f"{prefix}/share/man/man1/adarun.1", encoding="utf-8") as page:
            shown = re.sub(r"\\([-e])", lambda part: {"-": "-", "e": "\\"}[part[1]], page.read())
        words = [line.strip() for line in manual.splitlines() if line.strip()]
        has_all = words == [re.sub(r"^\.SH ", "", line).strip() for line in shown.splitlines() if line.strip() and not re.match(r"\.(TH|nf|fi)", line)]
        completed = self.called(["bash", "-c", f". {prefix}/share/bash-completion/completions/adarun; COMP_WORDS=(adarun s); COMP_CWORD=1; _adarun; echo ${{COMPREPLY[@]}}"])
        self.is_so("./build --install", (status, out) == (0, "") and manual != "" and has_all and completed == (0, "simulate search\n", ""), (err[-1000:], completed))

    def run_of(self, words):
        """`./run` with as few words as it takes, and with all; and up to a time, at which it ends or is cut."""
        shown = re.sub(OPTION, "", words)
        most = [{"SOURCE": SOURCE, "SCHEDULE": SCHEDULE, "LIMIT": "0"}[word] for word in re.findall(r"[A-Z]+", shown)]
        for number in range(1, len(most) + 1):
            status, _, _ = self.called(["./run", *most[:number]])
            self.is_so(f"{shown} with {number}", status == (5 if number == len(most) else 0), status)
        for time, wanted in (("60000", 0), ("20000", 5)) if shown != words else ():
            status, out, _ = self.called(["./run", SOURCE, SCHEDULE, "--until", time])
            self.is_so(f"{words} with {time}", status == wanted and (wanted == 0) != out.endswith(f"time limit at {time}\n"), (status, out))

    def statuses(self, text):
        """Each status of the table, with what stands on standard error."""
        nothing = self.file("nothing", "")
        stopped, waits = self.file("stopped.adb", STOPPED), self.file("waits.adb", WAITS)
        calls = {
            "0": [["go", SOURCE, SCHEDULE, "1000000"]],
            "1": [[], ["go", os.path.join(self.scratch, "none.adb"), SCHEDULE, "1"], ["compile", SOURCE, os.path.join(self.scratch, "none", "to.img")]],
            "2": [["go", nothing, SCHEDULE, "1"]],
            "3": [["go", stopped, SCHEDULE, "1000000"]],
            "4": [["go", waits, SCHEDULE, "1000000"]],
            "5": [["go", SOURCE, SCHEDULE, "0"]],
            "6": [["run", nothing, SCHEDULE, "1"]],
            "7": [["go", SOURCE, self.file("bad.schedule", "x\n"), "1"]],
        }
        for status, told in re.findall(r"^\| (\d) \|[^|]*\|([^|]*)\|$", text, re.M):
            for words in calls.get(status, []):
                gave, _, err = self.called([self.program, *words])
                forms = [re.escape(form).replace("FILE", ".*") for form in re.findall(r"`((?:fault|image fault|schedule fault|usage|cannot)[^`]*)`", told)]
                forms = [re.sub(r"\b(N|B|L|LINE|COLUMN)\b", r"\\d+", form) for form in forms]
                says = any(re.match(form, err) for form in forms) if forms else err == ""
                self.is_so(f"status {status} of {words}", str(gave) == status and says, (gave, err))

    def paths(self, text):
        """The files and folders that it names."""
        for path in sorted(set(re.findall(r"\b(?:docs|examples|crates|bin)/[\w./]*\w", text))):
            self.is_so(path, os.path.exists(path), "isn't there")


def main():
    program, scratch = sys.argv[1:]
    with open("README.md", encoding="utf-8") as file:
        text = file.read()
    blocks = blocks_of(text)
    checker = Checker(program, scratch)
    written = checker.example([block for block in blocks if "->" not in "".join(block[1])])
    checker.refused(blocks)
    checker.lowered(blocks)
    for _, lines in blocks:
        if lines[0].startswith("adarun "):
            checker.commands(lines, written)
        for line in lines:
            if line.startswith("./build --install "):
                checker.install()
            elif line.startswith("./build "):
                checker.build()
            if line.startswith("./run "):
                checker.run_of(re.split(r"  +", line)[0])
    checker.statuses(text)
    checker.paths(text)
    print(f"readme: {checker.right} of {checker.many} of what README.md shows is so")
    return 0 if checker.right == checker.many else 1


sys.exit(main())
