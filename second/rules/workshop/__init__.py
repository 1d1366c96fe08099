"""The rules of `workshop`.

    step        a line and its answer, and what came before it
    blocks      the user pages of an image as blocks

The others are groups of rules.
"""

from rules import returns
from rules.book import Group, RuleBook
from rules.workshop import (back, bad_lines, edges, image, kept, lent, lines, reading_lines, readings, walk,
                            written)
from rules.workshop.step import Watched
from workshop.reading import TABLE

GROUPS = [
    Group("LINES.md: the lines of `workshop`", lines.RULES, lines.met),
    Group("LINES.md: the lines `reading`", reading_lines.RULES, reading_lines.met),
    Group("LINES.md: carriage returns", returns.rules_of(TABLE), returns.met),
    Group("LINES.md: bad lines", bad_lines.RULES, bad_lines.met),
    Group("LINES.md: nothing is kept", kept.RULES, kept.met),
    Group("Q-6: the image", image.RULES, image.met),
    Group("Q-6: the blocks", walk.RULES, walk.met),
    Group("Q-6: the end of the user pages", edges.RULES, edges.met),
    Group("Q-6: the reading", readings.RULES, readings.met),
    Group("Q-7: the lent area", lent.RULES, lent.met),
    Group("Q-7: the reading", written.RULES, written.met),
    Group("Q-7: what is written, read back", back.RULES, back.met),
]

BOOK = RuleBook(GROUPS, Watched, TABLE)
