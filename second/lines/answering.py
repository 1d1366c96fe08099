"""How both programs answer a line."""

from lines.words import BadLine, command_of, is_skipped, without_return
from tag.refusal import Refused


class Answering:
    """One answer for each line. Who inherits it has a `table` of lines, and a
    method for each command word."""

    def answer(self, line):
        """Takes one line, as bytes and without its newline, and gives the answering
        line, or None for a line that is skipped."""
        text = without_return(line)
        if is_skipped(text):
            return None
        try:
            word, arguments = command_of(text, self.table)
            return getattr(self, f"play_{word}")(*arguments).encode("ascii")
        except BadLine as bad:
            return f"error: {bad}".encode("ascii")
        except Refused as refused:
            return f"refused {refused.number}".encode("ascii")
