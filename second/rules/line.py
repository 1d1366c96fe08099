"""A line that was answered: what it says, and its answer."""

from lines.words import BadLine, command_of, without_return
from rules.errors import error_of


class LineStep:
    """What the observers look at, in both programs."""

    def __init__(self, line, answer, table):
        self.line, self.answer, self.table = line, answer, table
        self.text = without_return(line)
        self.word, self.arguments = words_and_arguments(self.text, table)
        self.error = error_of(self.text, table) if self.word is None else None
        self.refused = int(answer[8:]) if answer.startswith(b"refused ") else None


def words_and_arguments(text, table):
    """The command word and its arguments; None for a bad line."""
    try:
        return command_of(text, table)
    except BadLine:
        return None, []
