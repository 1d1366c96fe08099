"""Does the workshop's work on lines: the program `workshop`."""

from lines.answering import Answering
from workshop.reading import TABLE
from workshop.screen import screen
from workshop.writer import write

HELP = "commands: screen SECONDS IMAGE, reading SECONDS WATTS AREA, help"


class Player(Answering):
    """A method for each command word; it "keeps nothing from one line to the
    next"."""

    table = TABLE

    def play_screen(self, present, image):
        """"`live WATTS`, `old WATTS`, `ahead WATTS`, or `refused K`" """
        word, watts = screen(present, image)
        return f"{word} {watts}"

    def play_reading(self, seconds, watts, area):
        """"the area with the reading written into it: `area HEX`, or `refused K`".
        An area that is written into has bytes, so that `-` is never answered."""
        lent = bytearray(area)
        write(seconds, watts, lent)
        return f"area {lent.hex().upper()}"

    def play_help(self):
        return HELP
