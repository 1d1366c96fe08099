"""Wrong by hand: how the check of a frame is judged, document 02, Q-4."""

from rules.crc import check_of, with_check
from rules.crc_checks import OTHER_CHECKS, WRONG_BITS
from tag.frames import COMMANDS
from wrong.by_hand_crc import JUDGED, indented
from wrong.by_hand_ready import taken_as_read

SELECT = "    return bits == with_crc([code, 0x70] + five)"
TOO_SHORT = "    if len(bits) % 8 or len(bits) < 24:\n"
READ_00H = [0x30, 0x00]

DUE, GIVEN = "with_crc(data)[-16:]", "bits[-16:]"
NUMBER = "sum(bit << place % 8 for place, bit in enumerate({}))"


def wrong_if(condition):
    """Frames in ACTIVE have a bad CRC_A on another condition."""
    return "tag.active", JUDGED, f"    if not frame.parity_good or {condition}:\n"


def good_too_if(condition):
    """Other frames are taken in ACTIVE, too."""
    return wrong_if(f"bits != with_crc(data) and not ({condition})")


def without_bit(bits, bit):
    return f"{bits}[:{bit}] + {bits}[{bit + 1}:]"


def taken_with_other(name):
    """In ACTIVE a check is taken that is another sum."""
    module, right, wrong = good_too_if("bits == with_check(data, OTHER_CHECKS[name](data))")
    return module, right, indented(["from rules.crc import with_check", "from rules.crc_checks import OTHER_CHECKS",
                                    f"name = {name!r}"]) + wrong


def select_taken_with(check):
    """SELECT is taken with another check."""
    return "tag.selection", SELECT, indented([
        "from rules.crc import check_of, with_check", "from rules.crc_checks import OTHER_CHECKS",
        "data = [code, 0x70] + five",
        f"return bits in (with_crc(data), with_check(data, {check}))"])


def read_taken_with(check):
    """READ 00h in READY1 and READY2 is taken with another check."""
    return taken_as_read(f"frame.parity_good and frame.bits == {with_check(READ_00H, check)}")


COMPARED = {
    "a check is judged by its low byte": wrong_if(f"{GIVEN}[:8] != {DUE}[:8]"),
    "a check is judged by its high byte": wrong_if(f"{GIVEN}[8:] != {DUE}[8:]"),
    "a check is bad where both bytes are": wrong_if(f"{GIVEN}[:8] != {DUE}[:8] and {GIVEN}[8:] != {DUE}[8:]"),
    "a check is judged by the sum of its bytes": wrong_if(f"{NUMBER.format(GIVEN)} != {NUMBER.format(DUE)}"),
    "a check is judged by the exclusive-or of its bytes": wrong_if(
        f"[{GIVEN}[at] ^ {GIVEN}[at + 8] for at in range(8)] != [{DUE}[at] ^ {DUE}[at + 8] for at in range(8)]"),
    "a check is judged by how many bits it has": wrong_if(f"sum({GIVEN}) != sum({DUE})"),
    "a check isn't judged": wrong_if("False"),
    "all checks are bad": wrong_if("True"),
    "a check is bad with bad parity alone": (
        "tag.active", JUDGED, "    if not frame.parity_good and bits != with_crc(data):\n"),
    **{f"bit {bit} of a check isn't judged": wrong_if(f"{without_bit(GIVEN, bit)} != {without_bit(DUE, bit)}")
       for bit in WRONG_BITS},
}

UNCHECKED = {
    **{f"frames of over {length} bytes are not checked": good_too_if(f"len(data) > {length}")
       for length in [*range(1, 10), 15, 16, 31, 32, 60, 61]},
    **{f"frames of {length} bytes or less are not checked": good_too_if(f"len(data) <= {length}")
       for length in [1, 2, 3, 4]},
    **{f"frames whose length by {group} leaves {remainder} are not checked": good_too_if(
        f"len(data) % {group} == {remainder}") for group in (2, 4, 8, 16) for remainder in range(group)},
    **{f"{name} is not checked": good_too_if(f"data[0] == {code} and len(data) == {length}")
       for code, (name, length) in COMMANDS.items()},
    "a frame that is no command is not checked": good_too_if(
        "data[0] not in COMMANDS or COMMANDS[data[0]][1] != len(data)"),
    "a code that is unknown is told before the check": good_too_if("data[0] not in COMMANDS"),
    "a length that is wrong is told before the check": good_too_if(
        "data[0] in COMMANDS and COMMANDS[data[0]][1] != len(data)"),
    "a check anywhere in the frame will do": good_too_if(
        "any(bits[:8 * end + 16] == with_crc(data[:end]) for end in range(1, len(data)))"),
    "63h 63h is a frame with its check": (
        "tag.active", TOO_SHORT, "    if bits == with_crc([]):\n        return radio.nak(0)\n" + TOO_SHORT),
    "two bytes that aren't 63h 63h get NAK 1h": (
        "tag.active", TOO_SHORT,
        "    if len(bits) == 16 and bits != with_crc([]):\n        return radio.nak(1)\n" + TOO_SHORT),
}

OTHERS = {
    **{f"ACTIVE takes another check: {name}": taken_with_other(name) for name in OTHER_CHECKS},
    **{f"SELECT is taken with another check: {name}": select_taken_with(f"OTHER_CHECKS[{name!r}](data)")
       for name in OTHER_CHECKS},
    **{f"SELECT is taken with bit {bit} of its check wrong": select_taken_with(f"check_of(data) ^ {1 << bit}")
       for bit in WRONG_BITS},
    **{f"READY takes READ 00h with another check: {name}": read_taken_with(other(READ_00H))
       for name, other in OTHER_CHECKS.items()},
    **{f"READY takes READ 00h with bit {bit} of its check wrong": read_taken_with(check_of(READ_00H) ^ 1 << bit)
       for bit in WRONG_BITS},
}

OF_CRC_JUDGED = {**COMPARED, **UNCHECKED, **OTHERS}
