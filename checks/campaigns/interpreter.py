"""Runs a legal text on a schedule as docs/LANGUAGE.md means it, statement by statement over its tree: the lines of the run, and its last line.

Nothing here is taken from the compiler, from images or from their reference; what the document leaves open is an error of the document."""
from collections import defaultdict, deque
from dataclasses import dataclass, field

import tree
from values import (
    BOOLEAN, INTEGER, MICROSECONDS, NATURAL, OPERATORS, POSITIVE, SIGNS, SPAN, TIME, Array, Raised, Record, Scalar, constraint_error, in_base,
)

MOST_FRAMES = 128
CHANNELS = range(1, 9)
HIGHEST, CEILING, PRIORITY = 31, 30, 15


class TooLong(Exception):
    """The run takes more statements than it was given."""


class Leaves(Exception):
    """A loop or a body is left."""


class Exits(Leaves):
    pass


class Returns(Leaves):
    def __init__(self, value=None):
        super().__init__()
        self.value = value


@dataclass
class Cell:
    """An object: its subtype and its value."""

    subtype: object
    value: object


@dataclass
class Target:
    """A variable, or a part of one: where its value is, and its subtype."""

    container: object
    key: object
    subtype: object

    def value(self):
        return self.container.value if self.key is None else self.container[self.key]

    def store(self, value):
        checked = assigned(self.value(), self.subtype.checked(value))
        if self.key is None:
            self.container.value = checked
        else:
            self.container[self.key] = checked


def assigned(old, new):
    """A value in the place of another one: the parts of a composite keep their places, by which parameters are copied back."""
    if isinstance(old, list):
        old[:] = [assigned(part, value) for part, value in zip(old, new)]
        return old
    if isinstance(old, dict):
        old.update({name: assigned(part, new[name]) for name, part in old.items()})
        return old
    return new


@dataclass
class Subprogram:
    """A procedure, a function or an entry, with its body and the object whose operation it is."""

    profile: tree.Subprogram
    body: tree.Body = None
    barrier: tree.Node = None
    owner: "Protected" = None


@dataclass(eq=False)
class Protected:
    name: str
    ceiling: int
    components: dict
    operations: dict = field(default_factory=dict)
    entry: Subprogram = None
    waiting: "Waiting" = None


@dataclass(eq=False)
class Actor:
    """A task, or the handler of an interrupt: what it runs, and what it holds."""

    name: str
    base: int
    run: object = None
    depth: int = 0
    actions: list = field(default_factory=list)
    is_ended: bool = False

    @property
    def active(self):
        return max([self.base] + [action.ceiling for action in self.actions])


@dataclass
class Waiting:
    """A call in the queue of an entry; its body's frame and the exception that has left it."""

    caller: Actor
    frame: "Frame"
    raised: Raised = None


@dataclass
class Frame:
    """One call: what its names denote, the object within whose body it is, and the exceptions that its handlers handle."""

    names: dict
    owner: Protected = None
    handled: list = field(default_factory=list)


class Run:
    """One run of a program."""

    def __init__(self, program, schedule, most_statements=200_000):
        self.schedule, self.left = schedule, most_statements
        self.delivered = 0  # how many lines of the schedule have had their handlers
        self.now, self.lines, self.last = 0, [], None
        self.ready = defaultdict(deque)
        self.sleepers = []  # of (time, actor), in the order in which they began to wait
        self.channels = {}
        self.names = {
            "INTEGER": INTEGER, "NATURAL": NATURAL, "POSITIVE": POSITIVE, "BOOLEAN": BOOLEAN, "TIME": TIME, "TIME_SPAN": SPAN,
            "TRUE": Cell(BOOLEAN, True), "FALSE": Cell(BOOLEAN, False),
        }
        self.tasks = []
        self.declare_all(program)

    # Elaboration

    def declare_all(self, program):
        package = program.package
        bodies = {}
        for item in package.items + package.body_items if package else []:
            self.declare(item, bodies)
        for actor, name in self.tasks:
            actor.run = self.body_of_task(actor, bodies[name])
        main = Actor(program.main.name, self.priority_of(program.main.aspect, PRIORITY))
        main.run = self.body_of_main(main, program.main)
        self.tasks.append((main, program.main.name))

    def static(self, expression):
        return self.value(Actor("", 0), Frame({}), expression)

    def priority_of(self, aspect, default):
        return self.static(aspect.value) if aspect else default

    def declare(self, item, bodies):
        if isinstance(item, (tree.RangeType, tree.ArrayType, tree.RecordType, tree.SubtypeDeclaration)):
            self.names[item.name] = self.type_of(item)
        elif isinstance(item, tree.ObjectDeclaration):
            subtype = self.names[item.subtype.name]
            value = subtype.first_value() if item.initial is None else subtype.checked(self.static(item.initial))
            self.names[item.name] = Cell(subtype, value)
        elif isinstance(item, tree.ExceptionDeclaration):
            self.names[item.name] = item.name
        elif isinstance(item, tree.Subprogram):
            self.names[item.name] = Subprogram(item)
        elif isinstance(item, tree.SubprogramBody):
            declared = self.names.setdefault(item.profile.name, Subprogram(item.profile))
            declared.profile, declared.body = item.profile, item.body
        elif isinstance(item, tree.TaskDeclaration):
            self.tasks.append((Actor(item.name, self.priority_of(item.aspect, PRIORITY)), item.name))
        elif isinstance(item, tree.TaskBody):
            bodies[item.name] = item.body
        elif isinstance(item, tree.ProtectedDeclaration):
            self.declare_protected(item)
        else:
            self.complete_protected(item)

    def type_of(self, item):
        if isinstance(item, tree.RangeType):
            return Scalar("integer", self.static(item.low), self.static(item.high))
        if isinstance(item, tree.RecordType):
            return Record(tuple((part.name, self.names[part.subtype.name]) for part in item.components))
        if isinstance(item, tree.ArrayType):
            component = self.names[item.component.name]
            if item.index:
                index = self.names[item.index.name]
                return Array(index.low, index.high, component)
            return Array(self.static(item.bounds[0]), self.static(item.bounds[1]), component)
        base = self.names[item.base.name]
        return Scalar("integer", *map(self.static, item.bounds)) if item.bounds else base

    def declare_protected(self, item):
        has_handler = any(operation.aspect for operation in item.operations)
        components = {}
        for part in item.components:
            subtype = self.names[part.subtype.name]
            value = subtype.first_value() if part.initial is None else subtype.checked(self.static(part.initial))
            components[part.name] = Cell(subtype, value)
        ceiling = self.priority_of(item.aspect, HIGHEST if has_handler else CEILING)
        protected = Protected(item.name, ceiling, components)
        for operation in item.operations:
            protected.operations[operation.name] = Subprogram(operation, owner=protected)
            if operation.aspect:
                self.channels[self.static(operation.aspect.value)] = protected.operations[operation.name]
        self.names[item.name] = protected

    def complete_protected(self, item):
        protected = self.names[item.name]
        for body in item.bodies:
            operation = protected.operations.setdefault(body.profile.name, Subprogram(body.profile, owner=protected))
            operation.profile, operation.body, operation.barrier = body.profile, body.body, body.barrier
            if body.profile.kind == "entry":
                protected.entry = operation

    # Dispatching

    def outcome(self):
        """Runs up to the outcome, and gives the last line."""
        for task, _ in self.tasks:
            self.ready[task.active].append(task)
        while self.last is None:
            task = self.highest()
            if task is None:
                self.pass_time()
            else:
                self.resume(task)
        return self.last

    def highest(self):
        priorities = [priority for priority, tasks in self.ready.items() if tasks]
        return self.ready[max(priorities)].popleft() if priorities else None

    def resume(self, task):
        """Runs a task until it waits, ends, or is preempted."""
        try:
            while True:
                request = next(task.run)
                if request is None:
                    if any(tasks and priority > task.active for priority, tasks in self.ready.items()):
                        self.ready[task.active].appendleft(task)
                        return
                elif request == "queued":
                    return
                else:
                    if request > self.now:
                        self.sleepers.append((request, task))
                    else:
                        self.ready[task.active].append(task)
                    return
        except StopIteration:
            task.is_ended = True
        except Raised as raised:
            self.last = f"unhandled {raised.name} in {task.name} at {self.now}"

    def pass_time(self):
        """No task is ready: the clock moves, or the run is over."""
        if all(task.is_ended for task, _ in self.tasks):
            self.last = f"ended at {self.now}"
            return
        line = self.next_line()
        times = [time for time, _ in self.sleepers] + ([line[0]] if line else [])
        if not times:
            self.last = f"waits forever at {self.now}"
            return
        self.now = max(self.now, min(times))
        for _, task in [it for it in self.sleepers if it[0] <= self.now]:
            self.ready[task.active].append(task)
        self.sleepers = [it for it in self.sleepers if it[0] > self.now]
        while line and line[0] <= self.now:
            self.delivered += 1
            self.interrupt(line[1])
            line = self.next_line()

    def next_line(self):
        """Time and channel of the first line that is still to be handled."""
        return self.schedule.handled_line(tuple(self.channels), self.delivered) if self.channels else None

    def interrupt(self, channel):
        """The handler of a channel runs from its start to its end."""
        operation = self.channels[channel]
        actor = Actor(f"INTERRUPT_{channel}", HIGHEST)
        try:
            for _ in self.within_action(actor, operation.owner, Frame({}, operation.owner), operation):
                pass
        except Raised:
            pass

    # Bodies

    def body_of_task(self, actor, body):
        actor.depth = 1
        yield from self.run_body(actor, Frame({}), body)

    def body_of_main(self, actor, main):
        actor.depth = 1
        for call in main.calls:
            if call:
                operation = self.names[call[1][0]]
                yield from self.run_frame(actor, operation, Frame({}))

    def run_body(self, actor, frame, body):
        """Declarations, then statements with their handlers."""
        self.declare_locals(actor, frame, body.declarations)
        try:
            yield from self.handled(actor, frame, body)
        except Returns:
            pass

    def declare_locals(self, actor, frame, declarations):
        for item in declarations:
            subtype = self.names[item.subtype.name]
            value = subtype.first_value() if item.initial is None else subtype.checked(self.value(actor, frame, item.initial))
            frame.names[item.name] = Cell(subtype, value)

    def handled(self, actor, frame, body):
        try:
            yield from self.statements(actor, frame, body.statements)
        except Raised as raised:
            handler = self.handler_for(body.handlers, raised.name)
            if handler is None:
                raise
            frame.handled.append(raised)
        else:
            return
        try:
            yield from self.statements(actor, frame, handler.statements)
        finally:
            frame.handled.pop()

    @staticmethod
    def handler_for(handlers, name):
        for handler in handlers:
            if any(choice in (name, "others") for choice, _ in handler.choices):
                return handler
        return None

    def statements(self, actor, frame, statements):
        for statement in statements:
            self.left -= 1
            if self.left < 0:
                raise TooLong
            yield from EXECUTE[type(statement)](self, actor, frame, statement)

    # Statements

    def null(self, actor, frame, statement):
        return
        yield

    def assignment(self, actor, frame, statement):
        target = self.target(actor, frame, statement.target)
        target.store(self.value(actor, frame, statement.value))
        return
        yield

    def if_statement(self, actor, frame, statement):
        for condition, statements in statement.branches:
            if self.value(actor, frame, condition):
                yield from self.statements(actor, frame, statements)
                return
        yield from self.statements(actor, frame, statement.otherwise)

    def case(self, actor, frame, statement):
        value = self.value(actor, frame, statement.value)
        for alternative in statement.alternatives:
            if alternative.choices is None or value in [self.static_in(frame, choice) for choice in alternative.choices]:
                yield from self.statements(actor, frame, alternative.statements)
                return

    def static_in(self, frame, expression):
        return self.value(Actor("", 0), frame, expression)

    def turns(self, actor, frame, statements):
        """One turn of a loop; whether it goes on."""
        try:
            yield from self.statements(actor, frame, statements)
        except Exits:
            return False
        return True

    def loop(self, actor, frame, statement):
        while (yield from self.turns(actor, frame, statement.statements)):
            self.count()

    def while_loop(self, actor, frame, statement):
        while self.value(actor, frame, statement.condition):
            self.count()
            if not (yield from self.turns(actor, frame, statement.statements)):
                return

    def count(self):
        self.left -= 1
        if self.left < 0:
            raise TooLong

    def for_loop(self, actor, frame, statement):
        low = self.value(actor, frame, statement.low)
        high = self.value(actor, frame, statement.high)
        values = range(low, high + 1)
        for value in reversed(values) if statement.is_reverse else values:
            self.count()
            frame.names[statement.name] = Cell(INTEGER, value)
            try:
                if not (yield from self.turns(actor, frame, statement.statements)):
                    return
            finally:
                del frame.names[statement.name]

    def block(self, actor, frame, statement):
        names = set(frame.names)
        try:
            self.declare_locals(actor, frame, statement.body.declarations)
            yield from self.handled(actor, frame, statement.body)
        finally:
            for name in set(frame.names) - names:
                del frame.names[name]

    def exit_statement(self, actor, frame, statement):
        if statement.condition is None or self.value(actor, frame, statement.condition):
            raise Exits
        return
        yield

    def return_statement(self, actor, frame, statement):
        raise Returns
        yield

    def raise_statement(self, actor, frame, statement):
        raise Raised(statement.name.name if statement.name else frame.handled[-1].name)
        yield

    def delay(self, actor, frame, statement):
        if actor.actions:
            raise Raised("PROGRAM_ERROR")
        yield self.value(actor, frame, statement.value)

    # Calls

    def call(self, actor, frame, statement):
        name = statement.name
        if name.name == "PUT" and not frame.names.get("PUT"):
            self.put(actor, frame, name.parts[0].arguments)
            return
        operation, arguments, is_outer = self.called(frame, name)
        if operation.profile.kind == "entry":
            yield from self.entry_call(actor, frame, operation, arguments)
            return
        inner, copies = self.passed(actor, frame, operation, arguments)
        if is_outer:
            self.admit(actor, operation.owner)
            yield from self.within_action(actor, operation.owner, inner, operation)
            yield None
        else:
            yield from self.run_frame(actor, operation, inner)
        self.copy_back(inner, copies)

    def put(self, actor, frame, arguments):
        value = self.value(actor, frame, arguments[1])
        self.lines.append(f"{self.now} {actor.name} {arguments[0].text} {value}")

    def called(self, frame, name):
        """What a name calls, the arguments, and whether it is called through its object's name."""
        parts = list(name.parts)
        arguments = parts.pop().arguments if parts and parts[-1].kind == "arguments" else []
        if parts:
            return self.names[name.name].operations[parts[0].name], arguments, True
        return self.denoted(frame, name.name), arguments, False

    def denoted(self, frame, name):
        if name in frame.names:
            return frame.names[name]
        if frame.owner:
            if name in frame.owner.operations:
                return frame.owner.operations[name]
            if name in frame.owner.components:
                return frame.owner.components[name]
        return self.names[name]

    def passed(self, actor, frame, operation, arguments):
        """The frame of a call with the values of its formals, and where they are copied back."""
        names, copies = {}, []
        for formal, argument in zip(operation.profile.formals, arguments):
            subtype = self.names[formal.subtype.name]
            if formal.mode == "in":
                names[formal.name] = Cell(subtype, subtype.checked(self.value(actor, frame, argument)))
                continue
            target = self.target(actor, frame, argument)
            value = subtype.first_value() if formal.mode == "out" else subtype.checked(target.value())
            names[formal.name] = Cell(subtype, value)
            copies.append((formal.name, target))
        return Frame(names, operation.owner), copies

    @staticmethod
    def copy_back(inner, copies):
        for name, target in copies:
            target.store(inner.names[name].value)

    def admit(self, actor, protected):
        """What an action of the object needs: none of it is open, and a ceiling at or above the active priority."""
        if protected in actor.actions or actor.active > protected.ceiling:
            raise Raised("PROGRAM_ERROR")

    @staticmethod
    def room(actor):
        if actor.depth == MOST_FRAMES:
            raise Raised("STORAGE_ERROR")

    def run_frame(self, actor, operation, inner):
        """The body of a procedure or an entry, in a frame of its own."""
        self.room(actor)
        actor.depth += 1
        try:
            yield from self.run_body(actor, inner, operation.body)
        finally:
            actor.depth -= 1

    def within_action(self, actor, protected, inner, operation):
        """An operation in an action of its object, and the service of the call that waits, if the barrier is open then."""
        self.room(actor)
        actor.actions.append(protected)
        raised = None
        try:
            yield from self.run_frame(actor, operation, inner)
        except Raised as propagated:
            raised = propagated
        waiting = protected.waiting
        if waiting and self.is_open(protected):
            protected.waiting = None
            try:
                yield from self.run_frame(actor, protected.entry, waiting.frame)
            except Raised as propagated:
                waiting.raised = propagated
            self.ready[waiting.caller.active].append(waiting.caller)
        actor.actions.pop()
        if raised:
            yield None
            raise raised

    def is_open(self, protected):
        return self.value(Actor("", 0), Frame({}, protected), protected.entry.barrier)

    def entry_call(self, actor, frame, operation, arguments):
        if actor.actions:
            raise Raised("PROGRAM_ERROR")
        inner, copies = self.passed(actor, frame, operation, arguments)
        protected = operation.owner
        if actor.active > protected.ceiling:
            raise Raised("PROGRAM_ERROR")
        self.room(actor)
        if self.is_open(protected):
            yield from self.within_action(actor, protected, inner, operation)
            yield None
        else:
            if protected.waiting:
                raise Raised("PROGRAM_ERROR")
            protected.waiting = waiting = Waiting(actor, inner)
            yield "queued"
            if waiting.raised:
                raise waiting.raised
        self.copy_back(inner, copies)

    # Names and expressions

    def target(self, actor, frame, name):
        cell = self.denoted(frame, name.name)
        target = Target(cell, None, cell.subtype)
        for part in name.parts:
            container = target.value()
            if part.kind == "select":
                target = Target(container, part.name, target.subtype.subtype_of(part.name))
            else:
                index = self.value(actor, frame, part.arguments[0])
                target = Target(container, target.subtype.place(index), target.subtype.component)
        return target

    def value(self, actor, frame, expression):
        return EVALUATE[type(expression)](self, actor, frame, expression)

    def number(self, actor, frame, expression):
        return expression.value

    def parenthesized(self, actor, frame, expression):
        return self.value(actor, frame, expression.inner)

    def unary(self, actor, frame, expression):
        if expression.operator == "-" and isinstance(expression.operand, tree.Number):
            return -expression.operand.value
        return SIGNS[expression.operator](self.value(actor, frame, expression.operand))

    def binary(self, actor, frame, expression):
        left = self.value(actor, frame, expression.left)
        if expression.operator == "and then":
            return left and self.value(actor, frame, expression.right)
        if expression.operator == "or else":
            return left or self.value(actor, frame, expression.right)
        return OPERATORS[expression.operator](left, self.value(actor, frame, expression.right))

    def if_expression(self, actor, frame, expression):
        for condition, value in expression.branches:
            if self.value(actor, frame, condition):
                return self.value(actor, frame, value)
        return self.value(actor, frame, expression.otherwise)

    def name(self, actor, frame, expression):
        name, parts = expression.name, expression.parts
        if parts and parts[-1].kind == "attribute":
            return self.attribute(frame, expression)
        if name in ("CLOCK", "READ", *MICROSECONDS) and name not in frame.names and name not in self.names:
            return self.predefined(actor, frame, name, parts)
        denoted = self.denoted(frame, name)
        if isinstance(denoted, Cell):
            return self.target(actor, frame, expression).value()
        if isinstance(denoted, Scalar):
            return denoted.checked(self.value(actor, frame, parts[0].arguments[0]))
        return self.function_call(actor, frame, expression)

    def predefined(self, actor, frame, name, parts):
        if name == "CLOCK":
            return self.now
        argument = self.value(actor, frame, parts[0].arguments[0])
        if name in MICROSECONDS:
            return in_base(argument * MICROSECONDS[name])
        if argument not in CHANNELS:
            raise constraint_error()
        return self.schedule.value(argument, self.now)

    def attribute(self, frame, expression):
        denoted = self.denoted(frame, expression.name)
        subtype = denoted.subtype if isinstance(denoted, Cell) else denoted
        for part in expression.parts[:-1]:
            subtype = subtype.subtype_of(part.name) if part.kind == "select" else subtype.component
        which = expression.parts[-1].name
        return {"FIRST": subtype.low, "LAST": subtype.high, "LENGTH": subtype.high - subtype.low + 1}[which]

    def function_call(self, actor, frame, expression):
        operation, arguments, is_outer = self.called(frame, expression)
        inner, _ = self.passed(actor, frame, operation, arguments)
        if is_outer:
            self.admit(actor, operation.owner)
        self.room(actor)
        actor.depth += 1
        actor.actions.extend([operation.owner] if is_outer else [])
        try:
            value = self.value(actor, inner, operation.body.statements[0].value)
            return self.names[operation.profile.result.name].checked(value)
        finally:
            actor.depth -= 1
            if is_outer:
                actor.actions.pop()


EXECUTE = {
    tree.Null: Run.null,
    tree.Assignment: Run.assignment,
    tree.Call: Run.call,
    tree.If: Run.if_statement,
    tree.Case: Run.case,
    tree.Loop: Run.loop,
    tree.While: Run.while_loop,
    tree.For: Run.for_loop,
    tree.Block: Run.block,
    tree.Exit: Run.exit_statement,
    tree.Return: Run.return_statement,
    tree.Raise: Run.raise_statement,
    tree.Delay: Run.delay,
}
EVALUATE = {
    tree.Number: Run.number,
    tree.Name: Run.name,
    tree.Parenthesized: Run.parenthesized,
    tree.Unary: Run.unary,
    tree.Binary: Run.binary,
    tree.IfExpression: Run.if_expression,
}


class Schedule:
    """The lines of a schedule: time, channel and value of each."""

    def __init__(self, text):
        self.lines = [tuple(map(int, line.split())) for line in text.splitlines()]

    def value(self, channel, now):
        """What is read of a channel at a time."""
        values = [value for time, number, value in self.lines if number == channel and time <= now]
        return values[-1] if values else 0

    def handled_line(self, channels, number):
        """Time and channel of the line with this number among those of channels that have handlers; None after the last one."""
        lines = [line[:2] for line in self.lines if line[1] in channels]
        return lines[number] if number < len(lines) else None


def run(program, schedule, most_statements=200_000):
    """The lines of a legal program's run on a schedule, with its last line. Raises TooLong where it takes too many statements."""
    running = Run(program, schedule, most_statements)
    last = running.outcome()
    return "".join(f"{line}\n" for line in running.lines + [last])
