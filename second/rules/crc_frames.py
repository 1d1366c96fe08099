"""Q-4: frames in ACTIVE, with their own CRC_A behind them and with another."""

from rules.crc import check_of, of_steps, rules_of_steps
from rules.crc_checks import OTHER_CHECKS, WRONG_BITS, faults_of
from rules.naming import each
from tag.bits import bytes_of
from tag.frames import COMMANDS

LENGTHS = range(1, 63)          # "bit count [...] over 512" is refused: 64 bytes with the check
NAMES = [name for name, length in COMMANDS.values()]
REMAINDERS = range(4)           # of the length by 4

RIGHT_RULES = {
    **each("crc.frame.length", LENGTHS, "Bad [...] CRC: NAK 1h, and no other ({} bytes before a right check)"),
    **rules_of_steps("crc.frame", "a frame"),
}

WRONG_RULES = {
    **each("crc.frame.wrong.length", LENGTHS, "Bad [...] CRC: NAK 1h ({} bytes before a wrong check)"),
    **each("crc.frame.no-data", ["63h", "63h-63h", "two-others"], "under 3 bytes: silence, wait state ({})"),
}
for _kind in [*NAMES, *(f"unknown.remainder-{_remainder}" for _remainder in REMAINDERS)]:
    WRONG_RULES.update(each(f"crc.{_kind}.wrong-bit", WRONG_BITS, "Bad [...] CRC: NAK 1h (bit {} of the check)"))
    WRONG_RULES.update(each(f"crc.{_kind}.other-check", OTHER_CHECKS, "Bad [...] CRC: NAK 1h ({})"))


def met(step):
    if not step.frame or step.state != "ACTIVE" or len(step.frame.bits) % 8 or not step.frame.parity_good:
        return
    frame = bytes_of(step.frame.bits)
    if len(frame) < 3:
        yield from of_no_data(frame)
        return
    data, check = frame[:-2], int.from_bytes(frame[-2:], "little")
    if check == check_of(data):
        yield f"crc.frame.length/{len(data)}"
        yield from of_steps("crc.frame", data)
    else:
        yield f"crc.frame.wrong.length/{len(data)}"
        for fault in faults_of(data, check):
            yield f"crc.{kind_of(data)}.{fault}"


def of_no_data(frame):
    """A frame that is too short for data and a check; 6363h is the check of no data."""
    if frame in (b"\x63", b"\x63\x63"):
        yield "crc.frame.no-data/" + frame.hex("-").replace("63", "63h")
    elif len(frame) == 2:
        yield "crc.frame.no-data/two-others"


def kind_of(data):
    """A command as it should be, or something else of so many bytes."""
    name, length = COMMANDS.get(data[0], (None, None))
    return name if len(data) == length else f"unknown.remainder-{len(data) % 4}"
