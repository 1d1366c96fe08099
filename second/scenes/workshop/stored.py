"""The scripts of `workshop`: the one that is stored, and fresh ones from a seed.

Each part gives what it has of these: `stored`, the scenes that are stored once;
`stored_of_size`, those that are stored for each size; and the scenes that a
fresh script draws from, `OF_ANY_KIND`, `OF_ANY_SIZE`, and `RARE`, which are long.
"""

from rules.naming import SIZES
from scenes.workshop import (back, chunks, edges, image, kept, lent, lines, plausible, reading_lines, readings,
                             returns, walk, written)
from scenes.workshop.chunks import many_turns
from scenes.workshop.examples import example_lines
from scenes.workshop.script import Script

PARTS = [lines, reading_lines, returns, image, walk, edges, readings, lent, written, back, kept, chunks,
         plausible]


def of_all_parts(name):
    """The scenes that the parts list under this name."""
    return [scene for part in PARTS for scene in getattr(part, name, [])]


OF_ANY_KIND, OF_ANY_SIZE, RARE = map(of_all_parts, ["OF_ANY_KIND", "OF_ANY_SIZE", "RARE"])


def nothing(*arguments):
    """Stands for what a part doesn't have."""


def stored_script():
    """The text that is kept: the examples, every scene, and empty lines up to more
    than sixteen bits count. Its last line has no newline, but a carriage return."""
    s = Script(seed=2)
    for line in example_lines():
        s.say(line)
    for part in PARTS:
        getattr(part, "stored", nothing)(s)
    for size in SIZES:
        for part in PARTS:
            getattr(part, "stored_of_size", nothing)(s, size)
    many_turns(s)
    s.say("help\r")
    return s.text()


def fresh_script(seed, lines_wished):
    """A text of this many lines, and a few more, from a seed. Some scenes have
    lines that end with CRLF; the last line has one of four ends."""
    s = Script(seed)
    dice = s.dice
    while len(s.lines) < lines_wished:
        s.returns = dice.one_in(8)
        if dice.one_in(8):
            dice.one_of(RARE)(s)
        elif dice.one_in(3):
            dice.one_of(OF_ANY_SIZE)(s, dice.size())
        else:
            dice.one_of(OF_ANY_KIND)(s)
    s.returns = False
    s.say("screen 5 -")
    return s.text() + dice.one_of([b"", b"\n", b"\r", b"\r\n"])
