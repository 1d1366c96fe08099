"""SELECT and READ 00h in READY1 and READY2 with a check that isn't their CRC_A."""

from rules.crc_checks import WRONG_BITS
from rules.crc_ready import TAKEN
from rules.reads_at_once import READY
from scenes.crc_frames import other_checks, wrong_in_bit


def wrong_checks(s, state, taken):
    """Each wrong bit and each other check, in this state: silence, wait state."""
    s.reach(state)
    code, five = s.level()
    data = [code, 0x70, *five] if taken == "SELECT" else [0x30, 0x00]
    for bits in [*(wrong_in_bit(data, bit) for bit in WRONG_BITS), *other_checks(data)]:
        s.reach(state)
        s.frame(bits)
    s.look_at_radio()


def any_wrong_checks(s):
    s.image(s.dice.size())
    wrong_checks(s, s.dice.one_of(READY), s.dice.one_of(TAKEN))


def stored(s):
    s.image(45)
    for state in READY:
        for taken in TAKEN:
            wrong_checks(s, state, taken)


OF_ANY_KIND = [any_wrong_checks]
