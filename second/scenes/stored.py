"""The scripts: the one that is stored, and fresh ones from a seed.

Each part gives what it has of these: `stored`, the scenes that are stored once;
`stored_of_size`, those that are stored for each size; and the scenes that a
fresh script draws from, `OF_ANY_KIND`, `OF_ANY_SIZE`, and `RARE`, which are long.
"""

from rules.naming import SIZES
from scenes import (active, both_sides, bus, chunks, crc_answers, crc_frames, crc_ready, entered_by_read, lines,
                    locks, memory, memory_lines, mirror_places, mirror_reads, mirror_stored, mirror_text, password,
                    reads, reads_at_once, ready_commands, records, refusals, returns, selection, waiting, writes)
from scenes.chunks import many_turns
from scenes.examples import example_lines
from scenes.refusals import before_any_image
from scenes.script import Script
from scenes.walks import any_walk

# The check sum comes first, for a program that has it wrong is wrong everywhere.
PARTS = [crc_frames, crc_answers, crc_ready, lines, refusals, waiting, selection, active, reads, writes, locks,
         password, bus, both_sides, memory, memory_lines, chunks, records, returns, reads_at_once, ready_commands,
         entered_by_read, mirror_places, mirror_reads, mirror_text, mirror_stored]
STORED_WALKS = 30


def of_all_parts(name):
    """The scenes that the parts list under this name."""
    return [scene for part in PARTS for scene in getattr(part, name, [])]


OF_ANY_KIND, OF_ANY_SIZE, RARE = map(of_all_parts, ["OF_ANY_KIND", "OF_ANY_SIZE", "RARE"])


def nothing(*arguments):
    """Stands for what a part doesn't have."""


def any_scene(s):
    """A walk, as often as not; else a scene."""
    dice = s.dice
    if dice.one_in(2):
        any_walk(s)
    elif dice.one_in(2):
        dice.one_of(OF_ANY_SIZE)(s, dice.size())
    else:
        dice.one_of(OF_ANY_KIND)(s)


def stored_script():
    """The text that is kept: lines before any image, the examples, every scene,
    some walks, and more lines than sixteen bits count. Its last line has no
    newline, but a carriage return."""
    s = Script(seed=14443)
    before_any_image(s)
    for line in example_lines():
        s.say(line)
    for part in PARTS:
        getattr(part, "stored", nothing)(s)
    for size in SIZES:
        for part in PARTS:
            getattr(part, "stored_of_size", nothing)(s, size)
    for _ in range(STORED_WALKS):
        any_walk(s)
    many_turns(s)
    s.say("show\r")
    return s.text()


def fresh_script(seed, lines_wished):
    """A text of this many lines, and a few more, from a seed. Some scenes have
    lines that end with CRLF; the last line has one of four ends."""
    s = Script(seed)
    while len(s.lines) < lines_wished:
        s.returns = s.dice.one_in(8)
        if s.dice.one_in(60):
            s.dice.one_of(RARE)(s)
        else:
            any_scene(s)
    s.returns = False
    s.say("show")
    return s.text() + s.dice.one_of([b"", b"\n", b"\r", b"\r\n"])
