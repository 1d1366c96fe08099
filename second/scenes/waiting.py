"""IDLE and HALT."""

from rules.naming import PHASES, STATES
from tag.bits import bits_of, with_crc
from tag.frames import REQA, WUPA


def waiting(s, size):
    """Every form of frame in IDLE and HALT, with either parity; the state that is
    kept or entered shows by what is then answered."""
    dice = s.dice
    s.image(size)
    for state in ("IDLE", "HALT"):
        for parity_good in (True, False):
            other_short = dice.one_of([0x27, 0x25, 0x53, 0x12, 0x00, 0x7F, 0x35])
            for bits in dice.shuffled([
                    REQA, WUPA, bits_of([other_short])[:7], REQA + [0], WUPA + [0, 0, 1],
                    bits_of([0x93, 0x20]), with_crc([0x60]), REQA[:6]]):
                s.reach(state)
                s.frame(bits, parity_good)
                s.look_at_radio()


def field_losses(s, size):
    """Field loss in every state and in every phase, authenticated where it can be,
    before and after the first READ of a field: the next READ counts, the tag
    is in IDLE and not authenticated, and the two wires go on."""
    s.image(size)
    for phase in s.dice.shuffled(PHASES):
        looked_at = s.dice.some(3, STATES)
        for state in s.dice.shuffled(STATES):
            s.reads_on_entry = s.dice.one_in(2)
            s.say("field")
            s.reach(state)
            if state == "ACTIVE":
                s.authenticate()
            s.to_phase(phase)
            if phase == "write":
                s.send(s.dice.byte())
            s.say("field")
            if phase == "write" or state in looked_at:
                s.look_at_bus()
            s.look_at_counter()
            s.reads_on_entry = True
            s.look_at_radio()


def stored_of_size(s, size):
    waiting(s, size)
    field_losses(s, size)


OF_ANY_SIZE = [waiting, field_losses]
