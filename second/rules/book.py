"""A book of rules: those of one program, and which of them a step meets."""

from typing import Callable, NamedTuple

from lines.words import lines_of
from rules import returns, skipped


class Group(NamedTuple):
    """Rules that belong together, and `met(step)`, which finds those that a step
    meets. Groups may share it."""

    heading: str
    rules: dict
    met: Callable


class RuleBook:
    """The rules of a program, which takes the lines of `table`. `watched` makes a
    player whose every step is looked at."""

    def __init__(self, groups, watched, table):
        self.groups, self.watched, self.lines = groups, watched, table
        self.rules = {key: sentence for group in groups for key, sentence in group.rules.items()}
        self.observers = list(dict.fromkeys(group.met for group in groups))

    def observers_of(self, key):
        """Those that can find this rule."""
        return list(dict.fromkeys(group.met for group in self.groups if key in group.rules))

    def met(self, step, line, observers=None):
        """The keys of the rules that a step meets; `step` is None for a skipped line."""
        if step is None:
            return [*skipped.of_skipped(line, self.lines), *returns.of_skipped(line, self.lines)]
        return [key for observer in observers or self.observers for key in observer(step)]

    def play_and_count(self, text):
        """The lines of an input, the answer to each, and how often each rule was met.

        A key that the book doesn't have is a KeyError.
        """
        counts = dict.fromkeys(self.rules, 0)
        watched = self.watched()
        answers = []
        for line in lines_of(text):
            answer, step = watched.play(line)
            answers.append(answer)
            for key in self.met(step, line):
                counts[key] += 1
        for key in (*skipped.of_text(text), *returns.of_text(text)):
            counts[key] += 1
        return lines_of(text), answers, counts

    def never_reached(self, counts):
        return [key for key in self.rules if counts[key] == 0]

    def table(self, counts, width=100):
        """The counts as text: a heading for each group, a paragraph for each stem."""
        text = []
        for group in self.groups:
            text += ["", group.heading]
            stems = {}
            for key in group.rules:
                stem, leaf = key.split("/")
                stems.setdefault(stem, []).append(f"{leaf} {counts[key]}")
            for stem, entries in stems.items():
                text += paragraph(f"  {stem}:", entries, width)
        return "\n".join(text[1:])


def paragraph(line, entries, width):
    """A line with entries behind it, and further ones where they don't fit."""
    for entry in entries:
        if len(line) + 3 + len(entry) > width:
            yield line
            line = "     "
        line += "  " + entry
    yield line
