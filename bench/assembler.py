"""Images from bodies that are written as instructions with labels; depths are reckoned along the flow of control."""
import os
import sys
from dataclasses import dataclass

sys.path.insert(0, os.path.join(os.path.dirname(os.path.abspath(__file__)), "..", "checks"))
from images import NONE, OPERATIONS, Image  # noqa: E402

PLAIN, PROCEDURE, FUNCTION, ENTRY, TASK = range(5)
JUMPS = ("JMP", "JZ", "JNZ")
CALLS = ("CALL", "PCALL", "ECALL")


@dataclass
class Body:
    """One subprogram. `text` has instructions and labels (`name:`) separated by white space and semicolons; an operation of one operand
    has it behind its name, LDB, STB and CPY have a and k, and a jump has a label. `rows` are handlers: start, end, exception, target."""

    kind: int
    text: str
    parameters: int = 0
    results: int = 0
    locals: int = 0
    owner: int = NONE
    rows: tuple = ()


def parsed(text, first):
    """The instructions of a body as names with a and k, and the places of its labels."""
    words = text.replace(";", " ").split()
    operations, labels, at = [], {}, 0
    while at < len(words):
        word = words[at]
        at += 1
        if word.endswith(":"):
            labels[word[:-1]] = first + len(operations)
        elif word in ("LDB", "STB", "CPY"):
            operations.append([word, int(words[at]), int(words[at + 1])])
            at += 2
        elif word == "PUSH":
            operations.append([word, 0, int(words[at])])
            at += 1
        elif word in JUMPS or word in CALLS or word in ("LDL", "STL", "LDG", "STG", "LDP", "STP", "LDX", "STX", "PUT"):
            operations.append([word, words[at], 0])
            at += 1
        else:
            operations.append([word, 0, 0])
    for operation in operations:
        operation[1] = labels[operation[1]] if operation[0] in JUMPS else int(operation[1])
    return operations, labels


def depths(operations, first, body, targets, bodies, objects):
    """The depth of the operand stack before each instruction, and the greatest."""
    found, most, open_places = {}, 0, [(first, 0)] + [(target, 1) for target in targets]
    while open_places:
        place, depth = open_places.pop()
        most = max(most, depth)
        if place in found:
            assert found[place] == depth, (place, depth)
            continue
        found[place] = depth
        name, a, k = operations[place - first]
        _, taken, given = OPERATIONS[name]
        if name in CALLS:
            callee = bodies[objects[a][1] if name == "ECALL" else a]
            taken, given = callee.parameters, callee.results
        elif name == "RET":
            taken = body.results
            assert depth == taken, place
        taken, given = k + 1 if taken is None else taken, k if given is None else given
        assert taken <= depth, place
        if name not in ("JMP", "RET", "RAISE"):
            open_places.append((place + 1, depth - taken + given))
        if name in JUMPS:
            open_places.append((a, depth - taken))
    return [found.get(first + number, 0) for number in range(len(operations))], most


def assembled(bodies, tasks, labels=("x",), words=(), objects=(), attachments=()):
    """An image. A task is a name, a priority and the number of its body, main last; an object is ceiling, entry, barrier, word and words; an attachment is a channel and the
    number of the body that handles its lines."""
    image = Image()
    image.labels, image.words, image.objects, image.tasks = list(labels), list(words), list(objects), list(tasks)
    image.attachments = list(attachments)
    for body in bodies:
        first = len(image.code)
        operations, places = parsed(body.text, first)
        places["end"] = first + len(operations)
        rows = [(places[start], places[end], exception, places[target]) for start, end, exception, target in body.rows]
        before, most = depths(operations, first, body, [row[3] for row in rows], bodies, objects)
        image.code += [(OPERATIONS[name][0], depth, a, k) for (name, a, k), depth in zip(operations, before)]
        image.rows += rows
        image.subprograms.append((body.kind, body.owner, len(image.code), body.parameters, body.results, body.locals, most))
    return image
