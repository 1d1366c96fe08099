"""Q-4: SELECT and READ 00h in READY1 and READY2 with a check that isn't their CRC_A."""

from rules.crc_checks import OTHER_CHECKS, WRONG_BITS, faults_of
from rules.naming import each
from rules.reads_at_once import READY
from tag.bits import bytes_of

TAKEN = ["SELECT", "READ-00h"]

RULES = {}
for _ready in READY:
    for _taken in TAKEN:
        RULES.update(each(f"crc.{_ready}.{_taken}.wrong-bit", WRONG_BITS,
                          "Anything else [...]: silence, wait state (bit {} of the check)"))
        RULES.update(each(f"crc.{_ready}.{_taken}.other-check", OTHER_CHECKS,
                          "Anything else [...]: silence, wait state (check: {})"))


def met(step):
    if not step.frame or step.state not in READY or not step.frame.parity_good:
        return
    frame = bytes_of(step.frame.bits)
    data, check = list(frame[:-2]), int.from_bytes(frame[-2:], "little")
    taken = taken_with_crc(step)
    if len(step.frame.bits) == 8 * len(frame) and data in taken:
        for fault in faults_of(data, check):
            yield f"crc.{step.state}.{TAKEN[taken.index(data)]}.{fault}"


def taken_with_crc(step):
    """The bytes that are taken in this state where their CRC_A is behind them."""
    image = step.image
    if step.state == "READY1":
        return [[0x93, 0x70, *image.first_five()], [0x30, 0x00]]
    return [[0x95, 0x70, *image.second_five()], [0x30, 0x00]]
