"""Plays a wrong tag against the record, to the first difference."""

import signal
from typing import NamedTuple

from wrong.record import next_place

SECONDS_FOR_A_LINE = 5


class Difference(NamedTuple):
    """The first line that a wrong tag answers otherwise."""

    place: int
    given: bytes


class TooLong(Exception):
    """A line that takes a wrong tag longer than any line can."""


def play_until_noticed(record, places, tag):
    """The first Difference, or None where the wrong tag gives the right answers.

    `places` are the lines at which the wrong tag may do what the right one
    doesn't, as long as it stands as the right one does. All other lines are
    left out while it does; so this comes to the same as a play of all lines.
    `tag` has the methods stand(place), play(line) and stands_as(place).
    """
    place = next_place(places, 0)
    while place is not None and place < len(record.lines):
        tag.stand(place)
        alike = False
        while not alike and place < len(record.lines):
            given = answer_in_time(tag, record.lines[place])
            if given != record.answers[place]:
                return Difference(place, given)
            place += 1
            alike = tag.stands_as(place)
        place = next_place(places, place)
    return None


def answer_in_time(tag, line):
    """The answer of a wrong tag; a crash and an endless loop are answers too."""
    signal.setitimer(signal.ITIMER_PROF, SECONDS_FOR_A_LINE)
    try:
        return tag.play(line)
    except TooLong:
        return b"(no answer in %d seconds)" % SECONDS_FOR_A_LINE
    except Exception as crash:
        return f"(crash: {type(crash).__name__}: {crash})".encode("ascii", "replace")
    finally:
        signal.setitimer(signal.ITIMER_PROF, 0)


def too_long(number, frame):
    raise TooLong


def watch_the_time():
    """To be called once in each process that plays wrong tags."""
    signal.signal(signal.SIGPROF, too_long)
