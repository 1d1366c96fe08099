"""Carriage returns, and lines that are as long as a line may be."""

from scenes.workshop.lines import IMAGE
from scenes.workshop.reading_lines import AREA
from workshop.reading import LONGEST_LINE

SKIPPED = [b"\r", b"#\r", b"# \r inside\r", b"# two\r\r"]

# Each has one carriage return that is dropped, or none, and one that stays.
WRONG = [
    b"\r\r", b"\r\r\r", b"\rhelp", b"\r help", b"\rhelp\r", b"\r#", b"\r# no comment\r", b"\r ", b" \r",
    b"he\rlp", b"he\rlp\r", b"screen\r100 -", b"help\r\r", b"help\r ", b"help\r 0", b"help \r\r", b"screen 100 -\r\r",
    b"screen 100\r-", b"screen 100 \r-", b"screen 100 \r", b"screen 100 \r\r", b"screen 100\r\r",
    b"screen 1\r00 -", b"screen 100\r -", b"screen \r100 -", b"screen\r 100 -", b"screen 100 0\r0",
    b"screen 100 00\r\r", b"screen\r\r", b"reading\r1 2 -", b"reading 1\r2 -", b"reading 1 2\r-",
    b"reading \r1 2 -", b"reading 1\r 2 -", b"reading 1 \r2 -", b"reading 1 2\r -", b"reading 1 2 \r-",
    b"reading 1 2 -\r\r", b"reading 1 2 " + AREA + b"\r\r", b"reading 1 2 " + AREA[:30] + b"\r" + AREA[30:],
    b"reading\r\r", b"reading 1 2 \r\r"]

# Wrong, and with a carriage return at the end that is dropped.
WRONG_BEFORE_IT = [
    b"hello\r", b"HELP\r", b"help 00\r", b"help \r", b"screen \r", b"screen\r", b"screen 100\r",
    b"screen 100 0\r", b"screen 4294967296 -\r", b" \r", b"screen 00000000100 -\r", b"reading\r", b"reading \r",
    b"reading 1\r", b"reading 1 2\r", b"reading 1 2 \r", b"reading 1 2 0\r", b"reading 1 4294967296 -\r",
    b"reading 1 2 - -\r"]

# 18,597 characters, and an image that is too long; and so with an area.
LONGEST = b"screen 100 " + b"A5" * ((LONGEST_LINE - 11) // 2)
LONGEST_READING = b"reading 100 5 " + b"A5" * ((LONGEST_LINE - 14) // 2) + b"A"

AT_THE_LIMIT = [
    LONGEST + b"\r",                        # the carriage return is none of them
    LONGEST + b"A",                         # 18,598
    LONGEST + b"\r0",                       # the carriage return isn't at the end
    LONGEST + b"\r\r",                      # one of two is left
    LONGEST_READING,
    LONGEST_READING + b"A",                 # 18,598
    b"x" * LONGEST_LINE + b"\r",            # 18,597 of a word that isn't known
    b"x" * (LONGEST_LINE + 1) + b"\r",
    b" " * (LONGEST_LINE + 1),
    b"help" + b" " * LONGEST_LINE,
    b"#" * (LONGEST_LINE + 2) + b"\r"]      # a comment


def returns(s):
    """Carriage returns at the end of lines, and elsewhere."""
    for line in [b"help\r", b"screen 100 -\r", b"screen 100 " + IMAGE + b"\r",
                 b"screen 1001 " + IMAGE.lower() + b"\r", b"reading 1 2 -\r", b"reading 1 2 " + AREA + b"\r",
                 b"reading 3 4 " + AREA.lower() + b"\r", *SKIPPED, *WRONG, *WRONG_BEFORE_IT]:
        s.say(line)


def limits(s):
    """Lines of 18,597 characters and of more: what is too long is called that,
    whatever else is wrong with it."""
    for line in AT_THE_LIMIT:
        s.say(line)
        s.say(b"screen 4 -")


def stored(s):
    returns(s)
    limits(s)


OF_ANY_KIND = [returns]
RARE = [limits]
