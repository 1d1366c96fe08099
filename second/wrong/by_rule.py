"""Wrong by rule: in each step that meets a rule, a wrong tag does something else."""

from array import array

from rules.both_sides import RULES as BOTH_SIDES
from rules.corridor import BOOK
from rules.crc_answers import RULES as CRC_OF_ANSWERS
from rules.crc_frames import RIGHT_RULES as CRC_OF_FRAMES
from rules.lines import RULES as LINE_RULES
from rules.step import Watched
from state import put_state, state_of
from wrong.trial import play_until_noticed
from wrong.twists import BUS, LINES, RADIO, READING

ANOTHER_ANSWER = "another answer"
RECORDS = {**RADIO, **BUS, **LINES}
TWISTS = {**RECORDS, **READING}


class SkippedStep:
    """The step of a line that is skipped: no word, no frame, no event."""

    word = event = None
    command = None, ()

    def __init__(self, player):
        self.after = player


def twists_of(step, key):
    """The twists that are sensible for a step and a rule: those of its side.

    Where the rule is one of how lines are written, the line can only be left
    out as a whole. Where it is one of the bytes that a check sum is taken of, nothing
    that is kept hangs on it, and the answer alone can be another.
    """
    if key in CRC_OF_FRAMES or key in CRC_OF_ANSWERS:
        return {}
    on_radio = step.word in ("frame", "parity")
    on_bus = step.word in ("start", "stop", "send", "read", "event")
    if key.startswith(("form.", "limit/", "return.at-end/")) or key in LINE_RULES and (on_radio or on_bus):
        return READING
    if key in BOTH_SIDES or not (on_radio or on_bus):
        return RECORDS
    return {**RADIO, **LINES} if on_radio else {**BUS, **LINES}


def another_answer(answer):
    """An answer that looks like one, but isn't this."""
    if answer is None or answer.startswith(b"error: line"):
        return b"error: no such command"
    if answer.startswith(b"error"):
        return b"error: line too long"
    if answer in (b"ack", b"nak"):
        return b"nak" if answer == b"ack" else b"ack"
    if answer == b"silence":
        return b"answer 4 00"
    return answer[:-1] + (b"1" if answer.endswith(b"0") else b"0")


class Catalogue:
    """At which lines each wrong tag goes wrong: (key, twist) to places."""

    def __init__(self):
        self.places = {}

    def look(self, place, step, keys, before, after, player):
        """Called for each line of the right tag's play."""
        step = step or SkippedStep(player)
        effective = [name for name, twist in TWISTS.items() if twist(step, before, after)]
        for key in dict.fromkeys(keys):
            self.note(key, ANOTHER_ANSWER, place)
            sensible = twists_of(step, key)
            for name in effective:
                if name in sensible:
                    self.note(key, name, place)

    def note(self, key, name, place):
        self.places.setdefault(f"{key} {name}", array("I")).append(place)


class TwistedTag:
    """The right tag, but for one twist in each step that meets one rule."""

    def __init__(self, record, key, name):
        self.record, self.key, self.name = record, key, name
        self.watched, self.observers = Watched(), BOOK.observers_of(key)

    def stand(self, place):
        put_state(self.watched.player, self.record.states[place])
        self.watched.memory = self.record.memories[place]

    def stands_as(self, place):
        return (self.watched.memory == self.record.memories[place]
                and state_of(self.watched.player) == self.record.states[place])

    def play(self, line):
        answer, step = self.watched.play(line)
        if self.key not in BOOK.met(step, line, self.observers):
            return answer
        if self.name == ANOTHER_ANSWER:
            return another_answer(answer)
        after = state_of(self.watched.player)
        before = state_of(self.watched.before) if step else after
        self.twist(step or SkippedStep(self.watched.player), before, after)
        return answer

    def twist(self, step, before, after):
        if self.name in twists_of(step, self.key):
            twisted = TWISTS[self.name](step, before, after)
            if twisted:
                put_state(self.watched.player, twisted)


def try_rule(record, places, name):
    """The first Difference of a wrong tag by its name, `key twist`; or None."""
    key, twist = name.split(" ", 1)
    return play_until_noticed(record, places, TwistedTag(record, key, twist))
