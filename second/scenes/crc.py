"""What the scenes of the check sum have in common."""

from rules.crc import REFLECTED, check_of
from tag.frames import COMMANDS, READ_00H, REQA, WUPA

UNKNOWN = [code for code in range(256) if code not in COMMANDS]


def unknown(s, length):
    """So many bytes that are no command, of whatever length."""
    return [s.dice.one_of(UNKNOWN), *s.dice.bytes(length - 1)]


def to_active(s):
    """To ACTIVE by the shortest way, for READ 00h skips the selection. REQA shows that
    the tag is in IDLE, where it is."""
    if s.radio.state != "ACTIVE":
        s.frame(WUPA if s.radio.state == "HALT" else REQA)
        s.frame(READ_00H)


def in_active(s, frames):
    """Frames to a tag in ACTIVE, which may leave it at each; now and then the record,
    and the counter."""
    for number, bits in enumerate(frames, 1):
        to_active(s)
        s.frame(bits)
        if number % 16 == 0:
            s.say("tag")
            s.say(f"show {s.layout.size:02X}")


def leading_to(data, register):
    """These bytes, and two more that make the register this: its sixteen last shifts
    are undone."""
    for _ in range(16):
        fed_back = register >> 15
        register = (register ^ REFLECTED * fed_back) << 1 | fed_back
    return [*data, *(check_of(data) ^ register).to_bytes(2, "little")]


def ending_at(data, low_half):
    """These bytes, and one more whose step finds this low half of register xor byte."""
    return [*data, check_of(data) % 256 ^ low_half]
