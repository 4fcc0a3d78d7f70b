"""Runs of one program on many schedules, by the interpreter of sources: what asks its schedule the same and gets the same answers is one run."""
from dataclasses import dataclass, field

import interpreter


class Asked(interpreter.Schedule):
    """A schedule that keeps what a run asks it, with its answers."""

    def __init__(self, text):
        super().__init__(text)
        self.asked = []

    def answer(self, question):
        name, *given = question
        return getattr(interpreter.Schedule, name)(self, *given)

    def kept(self, *question):
        answer = self.answer(question)
        self.asked.append((question, answer))
        return answer

    def value(self, channel, now):
        return self.kept("value", channel, now)

    def handled_line(self, channels, number):
        return self.kept("handled_line", channels, number)


@dataclass
class Question:
    """What runs that have begun alike ask next, and what they come to by the answer: another question, or their lines."""

    question: tuple
    answers: dict = field(default_factory=dict)


class Runs:
    """The runs of a program that were taken, in a tree of what they have asked."""

    def __init__(self, program, most_statements):
        self.program, self.most_statements, self.begun = program, most_statements, Question(())

    def lines(self, text):
        """The lines of the run on a schedule, with its last line. Raises interpreter.TooLong where it takes too many statements."""
        schedule = Asked(text)
        known = self.known(schedule)
        return self.taken(schedule) if known is None else known

    def known(self, schedule):
        """The lines of a run that has asked what one on this schedule asks, and got the same answers; None where none was taken."""
        known = self.begun.answers.get(None)
        while isinstance(known, Question):
            known = known.answers.get(schedule.answer(known.question))
        return known

    def taken(self, schedule):
        lines = interpreter.run(self.program, schedule, self.most_statements)
        last, answer = self.begun, None
        for question, next_answer in schedule.asked:
            last, answer = last.answers.setdefault(answer, Question(question)), next_answer
        last.answers[answer] = lines
        return lines
