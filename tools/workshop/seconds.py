"""Seconds and watts as they are written, and how long seconds are."""
import re
import time

from failures import WrongUse

LAST = 2**32 - 1
MINUTE, HOUR, DAY = 60, 3600, 86400


def number_in(word, what="seconds"):
    """The number of seconds or watts that a word is, as the program's lines have it: one to ten digits, at most 4294967295."""
    if not re.fullmatch("[0-9]{1,10}", word) or int(word) > LAST:
        raise WrongUse(f"not a number of {what}, from 0 to {LAST}: '{word}'")
    return int(word)


def now():
    """The seconds since 1970, UTC."""
    return int(time.time())


def span(count):
    """So many seconds in words, rounded down: 40 s, 4 min, 2 h 10 min, 3 d 4 h."""
    if count < MINUTE:
        return f"{count} s"
    if count < HOUR:
        return f"{count // MINUTE} min"
    if count < DAY:
        return both(count // HOUR, "h", count % HOUR // MINUTE, "min")
    return both(count // DAY, "d", count % DAY // HOUR, "h")


def both(many, unit, few, smaller):
    """Two numbers with their units, the smaller only where there is something of it."""
    return f"{many} {unit} {few} {smaller}" if few else f"{many} {unit}"
