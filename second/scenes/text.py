"""The text of a script: its lines, one after the other."""

from scenes.dice import Dice


class Text:
    """Lines, and the dice that they are thrown with."""

    def __init__(self, seed):
        self.dice = Dice(seed)
        self.lines = []
        self.length = 0             # of the text so far, with its newlines
        self.returns = False        # lines end with CRLF

    def say(self, line):
        line = line if isinstance(line, bytes) else line.encode("ascii")
        line += b"\r" if self.returns else b""
        self.lines.append(line)
        self.length += len(line) + 1

    def comment_up_to(self, place):
        """A comment behind which the next line begins at this place of a chunk."""
        missing = (place - self.length - 2 - self.returns) % 4096
        self.say("#" + "." * missing)

    def text(self):
        """The script as it is sent; its last line has no newline."""
        return b"\n".join(self.lines)
