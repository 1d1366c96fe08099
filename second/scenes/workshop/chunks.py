"""Input that is read by chunks: lines that lie across two reads or more, and more
lines than sixteen bits count."""

from scenes.chunks import across
from scenes.workshop.areas import USER_BYTES
from scenes.workshop.lines import IMAGE
from scenes.workshop.reading_lines import AREA
from scenes.workshop.returns import LONGEST

TURNS = 2 ** 16 + 100


def split_lines(s):
    """A line that begins in one chunk and ends in the next, or whose newline or
    carriage return stands at the edge."""
    line = b"screen 100 " + IMAGE
    for front in (6, 10, 200, len(line) - 1, len(line), len(line) + 1):
        across(s, line, front)
    for line, front in [(b"help\r", 4), (b"help\r", 5), (b"help\r\r", 5), (b"he\rlp", 3), (b"help", 4),
                        (b"help", 5)]:
        across(s, line, front)
        s.say("screen 5 -")
    line = b"reading 4000000001 777 " + AREA
    for front in (1, 7, 8, 12, 18, 19, 21, 23, 40, 51, 60, len(line) - 1, len(line), len(line) + 1):
        across(s, line, front)


def long_across_chunks(s):
    """Long lines over several chunks: without a part of them they get another answer."""
    too_long = LONGEST + b"A"
    for front in (12, len(too_long) % 4096):
        across(s, too_long, front)
        s.say("help")
    for size in USER_BYTES:
        s.show_behind([], size)
    for length in (504, 888, 1100, 1100, 1100):
        s.write_into(s.dice.many_bytes(length))


def many_turns(s):
    """Empty lines, up to more lines than sixteen bits count."""
    while len(s.lines) < TURNS:
        s.say("")


def stored(s):
    split_lines(s)
    long_across_chunks(s)


RARE = [split_lines, long_across_chunks]
