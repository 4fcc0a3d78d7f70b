"""The restrictions of the profile (30 to 39, 70 to 73) and the limits of programs (23), as docs/LANGUAGE.md has them."""
import tree

PROFILE = (("PROFILE", "RAVENSCAR"), ("PARTITION_ELABORATION_POLICY", "SEQUENTIAL"))
LEFT = {"accept": 32, "select": 35, "abort": 36, "requeue": 37}
MOST_PRIORITY, MOST_CEILING, CHANNELS = 30, 31, range(1, 9)


def statements_of(statements):
    """All statements among these, with those within them."""
    for statement in statements:
        yield statement
        if isinstance(statement, tree.If):
            for _, inner in statement.branches:
                yield from statements_of(inner)
            yield from statements_of(statement.otherwise)
        elif isinstance(statement, tree.Case):
            for alternative in statement.alternatives:
                yield from statements_of(alternative.statements)
        elif isinstance(statement, (tree.Loop, tree.While, tree.For)):
            yield from statements_of(statement.statements)
        elif isinstance(statement, tree.Block):
            yield from statements_of_body(statement.body)


def statements_of_body(body):
    yield from statements_of(body.statements)
    for handler in body.handlers:
        yield from statements_of(handler.statements)


def bodies_of(package):
    """The bodies of a package, those of operations too, each with its protected body or None."""
    for item in package.body_items:
        if isinstance(item, (tree.SubprogramBody, tree.TaskBody)):
            yield item.body, None
        elif isinstance(item, tree.ProtectedBody):
            for body in item.bodies:
                yield body.body, item


class Restrictions:
    """Notes the restrictions that a legal program breaks, by (place, number)."""

    def __init__(self, program, value_of):
        self.program, self.value_of, self.faults = program, value_of, set()
        self.interrupts = set()

    def fault(self, number, at):
        self.faults.add((at, number))

    def broken(self):
        self.pragmas()
        package = self.program.package
        if package:
            for item in package.items + package.body_items:
                self.item(item)
            for body, _ in bodies_of(package):
                self.body(body)
        self.aspect(self.program.main.aspect, MOST_PRIORITY)
        return sorted(self.faults)

    def pragmas(self):
        pragmas = self.program.pragmas
        if not pragmas:
            self.fault(39, self.program.first_at)
        for number, it in enumerate(pragmas):
            if number >= len(PROFILE):
                self.fault(39, it.at)
            elif it.name != PROFILE[number][0]:
                self.fault(39, it.name_at)
            elif it.argument != PROFILE[number][1]:
                self.fault(39, it.argument_at)
            else:
                continue
            return

    def aspect(self, aspect, most):
        """The value of an item's priority, where that is one."""
        if aspect is None:
            return None
        value = self.value_of(aspect.value) if aspect.name == "PRIORITY" else None
        if value is None or not 0 <= value <= most:
            self.fault(38, aspect.at)
            return None
        return value

    def item(self, item):
        if isinstance(item, tree.TaskDeclaration):
            self.aspect(item.aspect, MOST_PRIORITY)
            for at, _, _ in item.entries:
                self.fault(32, at)
        elif isinstance(item, tree.ProtectedDeclaration):
            self.protected(item)
        elif isinstance(item, tree.ProtectedBody):
            self.barriers(item)

    def protected(self, item):
        ceiling = self.aspect(item.aspect, MOST_CEILING)
        entries = [operation for operation in item.operations if operation.kind == "entry"]
        for entry in entries[1:]:
            self.fault(31, entry.at)
        has_handler = False
        for operation in item.operations:
            if operation.aspect:
                has_handler |= self.handler(operation)
        if has_handler and ceiling is not None and ceiling != MOST_CEILING:
            self.fault(73, item.aspect.at)

    def handler(self, operation):
        """Whether an operation with an aspect is a handler."""
        aspect = operation.aspect
        if aspect.name != "ATTACH_HANDLER":
            self.fault(38, aspect.at)
            return False
        if operation.kind != "procedure" or operation.formals:
            self.fault(70, aspect.at)
        value = self.value_of(aspect.value)
        if value is None or value not in CHANNELS:
            self.fault(71, aspect.value.at)
        elif value in self.interrupts:
            self.fault(72, aspect.at)
        self.interrupts.add(value)
        return True

    def barriers(self, item):
        items = self.program.package.items + self.program.package.body_items
        declared = [it for it in items if isinstance(it, tree.ProtectedDeclaration) and it.name == item.name]
        components = {part.name for part in declared[0].components} if declared else set()
        for body in item.bodies:
            if body.profile.kind == "entry" and not self.is_barrier(body.barrier, components):
                self.fault(33, body.barrier.at)

    @staticmethod
    def is_barrier(barrier, components):
        return isinstance(barrier, tree.Name) and not barrier.parts and barrier.name in components | {"TRUE", "FALSE"}

    def body(self, body):
        self.locals(body.declarations)
        for statement in statements_of_body(body):
            if isinstance(statement, tree.Left):
                self.fault(LEFT[statement.word], statement.at)
            elif isinstance(statement, tree.Delay) and not statement.is_until:
                self.fault(34, statement.at)
            elif isinstance(statement, tree.Block):
                self.locals(statement.body.declarations)

    def locals(self, declarations):
        for item in declarations:
            if not isinstance(item, tree.ObjectDeclaration):
                self.fault(30, item.at)
