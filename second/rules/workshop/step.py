"""A step of the workshop: a line and its answer, and what came before it."""

from functools import cached_property
from typing import NamedTuple

from lines.words import is_skipped, without_return
from rules.line import LineStep
from rules.workshop.blocks import area_of, walk_of
from workshop.player import Player
from workshop.reading import TABLE


class Written(NamedTuple):
    """What a `reading` line wrote, and where."""

    seconds: int
    watts: int
    found: bytes                # the area as it was lent
    area: bytes                 # as it was answered


class Before(NamedTuple):
    """What a rule may ask about the lines before, of which the program must keep
    nothing."""

    word: str = None            # of the line before, if it was a good one
    outcome: str = None         # of its answer
    arguments: tuple = ()
    written: Written = None     # by the last `reading` line that wasn't refused

    @staticmethod
    def of(step):
        return Before(step.word, step.outcome, tuple(step.arguments), step.written or step.before.written)


class Step(LineStep):
    """What the observers look at."""

    def __init__(self, line, answer, before):
        super().__init__(line, answer, TABLE)
        self.before = before
        self.present, self.image = self.arguments if self.word == "screen" else (None, None)
        self.seconds, self.watts, self.lent = self.arguments if self.word == "reading" else (None, None, None)

    @cached_property
    def outcome(self):
        """A word for the answer: live, old, ahead, area, the number of a refusal,
        help, error."""
        first, _, rest = self.answer.decode("ascii").partition(" ")
        return {"refused": rest, "commands:": "help", "error:": "error"}.get(first, first)

    @cached_property
    def area(self):
        """The user pages of a `screen` line's image; None where it has none."""
        return area_of(self.image) if self.word == "screen" else None

    @cached_property
    def walk(self):
        return walk_of(self.area)

    @property
    def size(self):
        """N."""
        return len(self.image) // 4 - 1

    @cached_property
    def written(self):
        """What a `reading` line wrote; None where it wrote nothing."""
        if self.outcome != "area":
            return None
        return Written(self.seconds, self.watts, self.lent, bytes.fromhex(self.answer[5:].decode("ascii")))


class Watched:
    """A player whose every step is looked at."""

    def __init__(self):
        self.player, self.memory = Player(), Before()

    def play(self, line):
        """The answer to a line, and the step; no step for a line that is skipped."""
        if is_skipped(without_return(line)):
            return None, None
        answer = self.player.answer(line)
        step = Step(line, answer, self.memory)
        self.memory = Before.of(step)
        return answer, step
