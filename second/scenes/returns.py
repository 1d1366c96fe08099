"""Carriage returns, and lines that are as long as a line may be."""

from lines.reading import LONGEST_LINE
from scenes.lines import LONGEST, changes_nothing
from scenes.walks import any_walk

SKIPPED = [b"\r", b"#\r", b"# \r inside\r", b"# two\r\r"]

# Each has one carriage return that is dropped, or none, and one that stays.
WRONG = [b"\r\r", b"\r\r\r", b"\rstop", b"\r stop", b"\rstop\r", b"\r#", b"\r# no comment\r", b"\r ", b" \r",
         b"st\rop", b"st\rop\r", b"read\rack", b"stop\r\r", b"stop\r ", b"stop\r 00", b"read ack\r\r",
         b"send A0\r\r", b"send \rA1", b"send \r\r", b"send A\r1", b"read \rack", b"read\r ack", b"event 1\r00",
         b"event 1\r 00", b"buffer 0\r\r", b"show\r\r", b"tag\r\r", b"bus \r\r"]

# Wrong, and with a carriage return at the end that is dropped.
WRONG_BEFORE_IT = [b"hello\r", b"STOP\r", b"stop 00\r", b"stop \r", b"send \r", b"image \r", b"send A\r",
                   b"buffer 1025\r", b"show 0\r"]

AT_THE_LIMIT = [
    LONGEST + b"\r",                        # 16,397 characters: taken
    LONGEST + b"0\r",                       # 16,398: too long
    LONGEST + b"\r0",                       # the carriage return isn't at the end
    LONGEST + b"\r\r",                      # one of two is left
    LONGEST[:-1] + b"\r\r",                 # 16,397, and the last of them is wrong
    b"x" * LONGEST_LINE + b"\r",            # 16,397 of a word that isn't known
    b"x" * (LONGEST_LINE + 1),
    b" " * (LONGEST_LINE + 1),
    b"#" * (LONGEST_LINE + 2) + b"\r"]      # a comment


def each_command(s):
    """Each command with a carriage return at its end: it is followed."""
    s.image(45)
    for line in ("start", "send A0", "event 2 40", "send 1f", "send 5A", "read ack", "stop", "start", "send A1",
                 "read ack", "read nak", "event 00001 00", "frame 7 52", "frame 0", "parity 16 9320", "field",
                 "parity 7 26", "field", "buffer 1000", "frame 7 52", "buffer 1024", "show", "show 04", "tag",
                 "bus", "recall 0000 4", "memory 99", "recall 0062 1", "memory 16384", "help",
                 "image 0102030405", "show", "show 01", "image", "show"):
        s.say(line + "\r")
        s.ask()


def skipped_lines(s):
    """Empty lines and comments with carriage returns at their end are skipped."""
    s.image(45)
    for line in SKIPPED:
        changes_nothing(s, line)


def wrong_lines(s):
    """A second carriage return, one that stands elsewhere, and wrong lines that end
    with one: each is an error, and nothing changes, in the middle of things and
    while nothing is going on."""
    s.image(45)
    for way, phase in ((s.authenticate, "write"), (lambda: s.reach("HALT"), "deaf")):
        way()
        s.to_phase(phase)
        s.send(*s.dice.bytes(2))
        for line in WRONG + WRONG_BEFORE_IT:
            s.say(line)
            s.ask()
        s.look_at_radio()
        s.look_at_bus()


def limits(s):
    """Lines of 16,397 characters and of more, with carriage returns and without;
    what is too long is called that, whatever else is wrong with it."""
    s.image(45)
    s.reach("ACTIVE", "HALT")
    s.authenticate()
    s.address(0x4020)
    s.send(*s.dice.bytes(2))
    for line in AT_THE_LIMIT:
        s.say(line)
        s.ask()
    s.look_at_radio()
    s.look_at_bus()


def walk_with_returns(s):
    """A walk whose every line ends with CRLF."""
    s.returns = True
    any_walk(s)
    s.returns = False


def stored(s):
    each_command(s)
    skipped_lines(s)
    wrong_lines(s)
    limits(s)
    for _ in range(4):
        walk_with_returns(s)


OF_ANY_KIND = [each_command, wrong_lines, walk_with_returns]
RARE = [skipped_lines, limits]
