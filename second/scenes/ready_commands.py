"""Any other READ in READY1 and READY2, and commands that belong to ACTIVE."""

from rules.reads_at_once import READY, WAITS
from rules.ready_commands import OTHER_COMMANDS, OTHER_READS
from scenes.selection import flipped
from tag.bits import bits_of, with_crc
from tag.frames import READ_00H

OTHERS = OTHER_READS + OTHER_COMMANDS


def other_frame(s, what):
    """A frame that isn't READ 00h, by what it is called, and its parity."""
    if what in ("bad-parity", "bad-parity-and-crc"):
        return (READ_00H if what == "bad-parity" else bad_crc(s)), False
    made = {**parts_and_more(s), **other_crcs(s), **other_addresses(s), **own_crcs(s)}
    return made[what], True


def bad_crc(s):
    return flipped(READ_00H, s.dice.between(16, 31))


def parts_and_more(s):
    return {"code-alone": READ_00H[:8], "without-crc": READ_00H[:16], "cut-by-a-byte": READ_00H[:24],
            "cut-by-a-bit": READ_00H[:31], "and-a-bit": READ_00H + [s.dice.below(2)],
            # READ 00h and 00h have a right CRC once more.
            "and-a-byte": READ_00H + bits_of([s.dice.one_of([0x00, s.dice.byte()])])}


def other_crcs(s):
    crc = READ_00H[16:]
    turned = [1 - bit for bit in crc]
    return {"crc-wrong-in-a-bit": bad_crc(s), "crc-bytes-exchanged": READ_00H[:16] + crc[8:] + crc[:8],
            "crc-other": READ_00H[:16] + s.dice.one_of([turned, [0] * 16]),
            "code-with-crc-of-READ": flipped(READ_00H, s.dice.below(8))}


def other_addresses(s):
    dice, size = s.dice, s.layout.size
    other = dice.one_of([0x02, 0x03, 0x08, 0x10, 0x20, size - 1])
    read_other = with_crc([0x30, other])
    return {"address-01h": with_crc([0x30, 0x01]), "address-04h": with_crc([0x30, 0x04]),
            "address-80h": with_crc([0x30, 0x80]), "address-other": read_other,
            "address-N-and-above": with_crc([0x30, dice.one_of([size, 0xFF, dice.between(size, 0xFF)])]),
            "address-with-crc-of-00h": read_other[:16] + READ_00H[16:],
            "address-bad-crc": flipped(read_other, dice.between(16, 31))}


def own_crcs(s):
    """READs of another length, and other commands, each with its own CRC."""
    dice = s.dice
    data = {"3-bytes": [0x30], "5-bytes": [0x30, 0x00, dice.one_of([0x00, 0x04, 0xFF])],
            "longer": [0x30, 0x00] + dice.bytes(dice.one_of([2, 3, 60])),
            "FAST_READ-00h-00h": [0x3A, 0x00, 0x00], "FAST_READ-00h-03h": [0x3A, 0x00, 0x03],
            "FAST_READ-other": [0x3A, *dice.one_of([[0x00, 0x01], [0x04, 0x04], [0x01, 0x00], [0x00, 0xFF]])],
            "WRITE": [0xA2, dice.between(4, 15), *dice.four()], "GET_VERSION": [0x60],
            "READ_CNT": [0x39, 0x02], "PWD_AUTH": [0x1B, *s.password()], "HLTA": [0x50, 0x00]}
    return {what: with_crc(one) for what, one in data.items()}


def other_frames(s, size, state, wait):
    """Every frame that isn't READ 00h, then a look at where it led."""
    s.image(size)
    for what in s.dice.shuffled(OTHERS):
        s.reach(state, wait)
        s.frame(*other_frame(s, what))
        s.look_at_radio()


def first_in_field(s, size):
    """The same, where no READ was answered in the field: none of them counts."""
    s.image(size)
    s.reads_on_entry = False
    for what in s.dice.shuffled(OTHERS):
        s.say("field")
        s.reach(s.dice.one_of(READY), s.dice.one_of(WAITS))
        s.frame(*other_frame(s, what))
        s.say("tag")
        s.say(f"show {size:02X}")
    s.reads_on_entry = True


def any_other_frames(s, size):
    other_frames(s, size, s.dice.one_of(READY), s.dice.one_of(WAITS))


def stored_of_size(s, size):
    for state in READY:
        for wait in WAITS:
            other_frames(s, size, state, wait)
    first_in_field(s, size)


OF_ANY_SIZE = [any_other_frames, first_in_field]
