"""What a campaign tries: a case of each kind, by its seed. Each gives what came of it, and what differs from what the documents say, if anything does."""
import functools
import math
import os
import random
import re
import sys
from dataclasses import dataclass

HERE = os.path.dirname(os.path.realpath(__file__))
CHECKS = os.path.dirname(HERE)
sys.path[:0] = [CHECKS, os.path.join(CHECKS, "..", "bench")]

import declared_words  # noqa: E402
import image_rules  # noqa: E402
import interpreter  # noqa: E402
import judge  # noqa: E402
import listing  # noqa: E402
import measures  # noqa: E402
import programs  # noqa: E402
import random_images  # noqa: E402
import reduce  # noqa: E402
import rules  # noqa: E402
import runs  # noqa: E402
import searches  # noqa: E402
import texts  # noqa: E402
import traces  # noqa: E402
import tree  # noqa: E402
import waves  # noqa: E402
from calling import called  # noqa: E402
from reference import STATUSES, World  # noqa: E402

STATEMENTS, ENOUGH, CUT, SECONDS = 20_000, 50_000_000, 400, 300
LEAST_TRACED, MOST_TRACED, PARTED = 32, 1_000, 0.25
REFUSED, LARGE = 2, 23
CHOICES = {1: [0, 1, 7, -3], 2: [0, 2, 5], 3: [1, 9], 4: [0, 4]}
MOST_SCHEDULES, STEP, READS = 48, 1_000, 12
SCHEDULE = [(0, 1, 3), (0, 2, 5), (500, 1, 7), (500, 3, 9)]
END = re.compile(r"(?:.*\n)*(ended|waits forever|unhandled)")
MEASURES = {"table": [], "fields": ["--tsv"]}
FAILED = "the checks fail"


@dataclass
class Difference:
    """What differs, and the content of the file that shows it."""

    told: str
    content: bytes
    schedule: str = ""


class Caller:
    """Calls the program with files of a folder of its own."""

    def __init__(self, program, folder):
        self.program, self.folder = os.path.abspath(program), os.path.join(folder, str(os.getpid()))
        self.tracer, self.waver, self.measurer = (kind(program, self.folder) for kind in (traces.Comparer, waves.Checker, measures.Comparer))

    def path(self, name):
        return os.path.join(self.folder, name)

    def write(self, name, content):
        with open(self.path(name), "wb") as file:
            file.write(content if isinstance(content, bytes) else content.encode())
        return self.path(name)

    def call(self, *words):
        """Status, standard output and standard error."""
        done = called([self.program, *words], seconds=SECONDS)
        return done.returncode, done.stdout.decode("latin-1"), done.stderr.decode("latin-1")

    def compiled(self, source):
        """The image of a source; None where it is refused."""
        image = self.path("main.img")
        if self.call("compile", source, image)[0] == REFUSED:
            return None
        with open(image, "rb") as file:
            return file.read()


@functools.cache
def legal_texts():
    """Texts that are changed: the legal ones of rules.txt, and examples."""
    with open(os.path.join(CHECKS, "rules.txt"), encoding="utf-8") as file:
        found = [text.encode() for text, number, _ in rules.rows_of(file.read().split("\n")) if number is None]
    folder = os.path.join(CHECKS, "..", "examples")
    for name in sorted(os.listdir(folder)):
        if name.endswith(".adb"):
            with open(os.path.join(folder, name), "rb") as file:
                found += [file.read()] * 3
    return [text for text in found if judge.fault_of(text) is None]


def place_of(text, at):
    return f"{text.count(10, 0, at) + 1}:{at - (text.rfind(10, 0, at) + 1) + 1}"


def first_difference(out, expected):
    pairs = list(zip([*out.splitlines(), None], [*expected.splitlines(), None]))
    return next((f"{got!r} where {wanted!r} is meant" for got, wanted in pairs if got != wanted), f"{len(out)} bytes where {len(expected)} are meant")


def judged(differs, *given):
    """What came of a case, and how it differs; a case that the checks themselves can't judge differs, too."""
    try:
        return differs(*given)
    except Exception as error:  # noqa: BLE001
        return "failed", f"{FAILED}: {type(error).__name__}: {error}"


def tried(differs, text, schedule=""):
    """What came of a case, and its difference, with a smaller text and fewer lines of its schedule that still show one."""
    came, told = judged(differs, text, schedule)
    if told is None:
        return came, None

    def shows(*smaller):
        still = judged(differs, *smaller)[1]
        return still is not None and still.startswith(FAILED) == told.startswith(FAILED)

    small = reduce.reduced(text, lambda shorter: shows(shorter, schedule))
    few = reduce.fewer_lines(schedule, lambda fewer: shows(small, fewer))
    return came, Difference(judged(differs, small, few)[1], small, few)


def is_too_large(status, err, text):
    """Whether a text is refused because its code may pass a limit of images, which that of a small one never does."""
    return status == REFUSED and err.startswith(f"fault {LARGE} ") and not judge.is_small(text)


# Programs beside the interpreter


def run_differs(caller, text, schedule):
    """What came of a run, and how it differs from what the source means."""
    program, fault = judge.read(text)
    if fault:
        return "no program", None
    try:
        expected = interpreter.run(program, interpreter.Schedule(schedule), STATEMENTS)
    except interpreter.TooLong:
        return "too long", None
    source, given, image = caller.write("main.adb", text), caller.write("input", schedule), caller.path("main.img")
    last = END.match(expected)[1]
    for words in (["go", source, given, str(ENOUGH)], ["compile", source, image], ["run", image, given, str(ENOUGH)]):
        status, out, err = caller.call(*words)
        if is_too_large(status, err, text):
            return "too large", None
        wanted = (0, "", "") if words[0] == "compile" else (STATUSES[last.split()[0]], expected, "")
        if (status, out, err) != wanted:
            return last, f"{words[0]}: status {status}, {err.strip()!r}, and these lines differ first: {first_difference(out, expected)}"
    return last, None


def program_case(caller, seed):
    text, schedule = programs.made_program(seed)
    came, difference = tried(functools.partial(run_differs, caller), text.encode(), schedule)
    if came == "no program":
        return came, Difference(f"the judge refuses it: {judge.fault_of(text.encode())}", text.encode(), schedule)
    return came, difference


# Texts beside the judge


def refusal_differs(caller, text, _):
    fault = judge.fault_of(text)
    expected = f"fault {fault[0]} at {place_of(text, fault[1])}\n" if fault else ""
    status, out, err = caller.call("go", caller.write("main.adb", text), "/dev/null", str(CUT))
    if not fault and is_too_large(status, err, text):
        return "too large", None
    is_right = err == expected and (status == REFUSED and not out if fault else status != REFUSED)
    return f"fault {fault[0]}" if fault else "accepted", None if is_right else f"status {status}, {err.strip()!r} where {expected.strip()!r} is meant"


def text_case(caller, seed):
    source = random.Random(seed)
    made = [programs.made_program(f"{seed} text")[0].encode()] if source.random() < 0.4 else legal_texts()
    return tried(functools.partial(refusal_differs, caller), texts.changed_text(seed, made))


# Traces, dumps and measures beside the reference


def readings_differ(caller, form, steps, text, schedule):
    """What came of the trace, the dumps and the measures of a program that takes so many steps, the measures in one of their forms."""
    source, _ = caller.write("main.adb", text), caller.write("input", schedule)
    data = caller.compiled(source)
    if data is None:
        return "too large", None
    comparers = caller.tracer, caller.waver, caller.measurer
    for comparer in comparers:
        comparer.wrong.clear()
    lines, names = interpreter.Schedule(schedule).lines, traces.objects_of(text)
    world = waves.Watched(declared_words.scopes_of(text), data, lines, names, traces.bodies_of(text))
    caller.tracer.compare("trace", steps, world.trace(steps), False)
    caller.waver.check_run("dump", world, steps)
    measured = measures.Measures(World(data, lines, names), steps)
    caller.measurer.compare("measure", getattr(measured, form)(), *MEASURES[form], "main.adb", "input", str(steps))
    wrong = [told for comparer in comparers for told in comparer.wrong]
    return "traced", "; ".join(wrong[:3]) or None


def trace_case(caller, seed):
    text, schedule = programs.made_program(seed)
    source = random.Random(seed)
    form, steps = source.choice(list(MEASURES)), int(math.exp(source.uniform(math.log(LEAST_TRACED), math.log(MOST_TRACED))))
    return tried(functools.partial(readings_differ, caller, form, steps), text.encode(), schedule)


# Images beside the rules of images and the reference


def image_of(caller, source):
    """A random image, or that of a random program, which may have handlers of interrupts."""
    if source.random() < 0.5:
        return random_images.random_image(source.randrange(2**40)).bytes()
    text, _ = programs.made_program(source.randrange(2**40))
    return caller.compiled(caller.write("main.adb", text)) or random_images.random_image(0).bytes()


def changes_of(source, size):
    """Up to three bytes and their places in an image of so many."""
    changes = []
    for _ in range(source.choice((0, 0, 1, 1, 2, 3))):
        byte = source.choice((source.randrange(256), 0, 1, 255))
        changes.append((source.randrange(size), byte))
    return changes


def changed_bytes(data, changes):
    data = bytearray(data)
    for place, byte in changes:
        data[place] = byte
    return bytes(data)


def image_differs(caller, data):
    image, fault = caller.write("main.img", data), image_rules.fault_of(data)
    listed = caller.call("list", image)
    if fault:
        came, expected = f"fault {fault[0]}", (6, "", f"image fault {fault[0]} at byte {fault[1]}\n")
        return came, None if listed == expected else f"list: status {listed[0]}, {listed[2].strip()!r} where {expected[2].strip()!r} is meant"
    expected = 0, "".join(f"{line}\n" for line in listing.listing(data)), ""
    if listed != expected:
        return "listed", f"list: {first_difference(listed[1], expected[1])}"
    lines = World(data, SCHEDULE).run(CUT)
    end = lines.splitlines()[-1].split()[0]
    given = caller.write("input", "".join(f"{time} {channel} {value}\n" for time, channel, value in SCHEDULE))
    ran = caller.call("run", image, given, str(CUT))
    return end, None if ran == (STATUSES[end], lines, "") else f"run: {ran[0]}, {ran[2]!r}, {first_difference(ran[1], lines)}"


def image_case(caller, seed):
    """An image, of which a difference is shown with as few changed bytes as show it."""
    source = random.Random(seed)
    made = image_of(caller, source)
    changes = changes_of(source, len(made))
    came, told = judged(image_differs, caller, changed_bytes(made, changes))
    if told is None:
        return came, None
    few = reduce.without(changes, lambda fewer: judged(image_differs, caller, changed_bytes(made, fewer))[1] is not None)
    return came, Difference(told, changed_bytes(made, few))


# Searches beside the runs of each schedule


@dataclass
class Search:
    """What is searched for, up to when, in how many parts too, if any, and where in a set is the schedule whose run is also taken by `go`, if none is found."""

    wanted: list
    until: int
    parts: int
    share: float


class Searched:
    """A search of a program through a set, in files that are written."""

    def __init__(self, caller, search, text, chosen):
        self.caller, self.search, self.chosen = caller, search, chosen
        self.file, self.given = caller.write("main.adb", text), caller.write("choices", chosen)
        self.runs, self.asked = runs.Runs(tree.parsed(text), STATEMENTS), []

    def answer(self):
        return self.caller.call("search", self.file, self.given, str(self.search.until), str(ENOUGH), *self.search.wanted)

    def run_of(self, schedule):
        self.asked.append(schedule)
        return self.runs.lines(schedule)

    def differs(self, answer):
        """How an answer, those of the parts, or a run by `go` differ from what the runs of the schedules by the interpreter mean."""
        search = self.search
        expected = searches.answer(self.run_of, self.chosen, search.until, search.wanted)
        if not searches.is_answer(answer, *expected):
            return f"{answer} where {expected} is meant, as the interpreter has it"
        case = self.file, self.chosen, search.until, search.wanted
        if search.parts and not searches.parts_agree(self.caller.program, case, self.given, search.parts, *expected):
            return "its parts don't answer as the whole set"
        schedule = self.asked[int(search.share * len(self.asked)) if expected[0] == 0 else -1]
        lines = searches.by_go(self.caller.program, self.file, self.caller.path("schedule"), ENOUGH)(schedule)
        return None if lines == self.runs.lines(schedule) else f"on {schedule!r} {first_difference(lines, self.runs.lines(schedule))}"


def search_differs(caller, search, text, chosen):
    """What came of a search through a set, and how it differs from what its runs mean."""
    searched = Searched(caller, search, text, chosen)
    status, out, err = searched.answer()
    if is_too_large(status, err, text):
        return "too large", None
    try:
        told = searched.differs((status, out, err))
    except interpreter.TooLong:
        return "too long", None
    if told and judge.fault_of(text):
        return "no program", None
    return {0: "none"}.get(status, "found"), f"search up to {search.until} {' '.join(search.wanted)}: {told}" if told else None


def search_case(caller, seed):
    source = random.Random(seed)
    text, _ = programs.made_program(seed, READS)
    chosen, until = searches.random_set(source, CHOICES, STEP, MOST_SCHEDULES)
    wanted = source.choice(([], ["unhandled"], ["waits"], ["line", "a"], ["line", "alarm"]))
    search = Search(wanted, until, source.randint(2, 5) if source.random() < PARTED else 0, source.random())
    return tried(functools.partial(search_differs, caller, search), text.encode(), chosen)


KINDS = {"programs": program_case, "texts": text_case, "traces": trace_case, "images": image_case, "searches": search_case}
