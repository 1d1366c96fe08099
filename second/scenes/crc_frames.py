"""Frames in ACTIVE, with their own CRC_A behind them and with another."""

from rules.crc import BEFORE_A_BYTE, CHECKS, START, check_of, with_check
from rules.crc_checks import OTHER_CHECKS, WRONG_BITS
from rules.crc_frames import LENGTHS
from scenes.crc import ending_at, in_active, leading_to, unknown
from tag.bits import bits_of, with_crc

LENGTHS_OF_OTHERS = [4, 7, 16, 31, 61, 62]


def each_low_half(s):
    """Each low half at the first byte and at the last, in frames of each length from
    two bytes on. No command has its right length, so all get NAK 0h."""
    s.image(45)
    lasts = s.dice.shuffled(range(256))
    data = [[first ^ START % 256, *s.dice.bytes(first % (len(LENGTHS) - 1))] for first in range(256)]
    in_active(s, [with_crc(ending_at(some, last)) for some, last in zip(data, lasts)])


def alike(s):
    """All bytes 00h, all bytes FFh: neither is a command. And one byte alone."""
    s.image(45)
    lengths = [1, 2, 3, 4, 5, 6, 7, 8, 9, 15, 16, 17, 31, 32, 33, 61, 62]
    in_active(s, [with_crc([byte] * length) for byte in (0x00, 0xFF) for length in lengths])
    in_active(s, [with_crc(unknown(s, 1)) for _ in range(4)])


def rare_registers(s):
    """A byte that finds the register at 0000h, at FFFFh and so on; and checks that are.

    At 0000h the bytes before have their own CRC_A behind them, and two bytes 00h are
    the right check once more.
    """
    dice = s.dice
    s.image(45)
    for register in BEFORE_A_BYTE:
        led = [leading_to(unknown(s, dice.between(1, 9)), register) for _ in range(4)]
        behind = [[0x00], [0xFF], [dice.byte()], dice.bytes(7)]
        in_active(s, [with_crc(data + more) for data, more in zip(led, behind)])
    in_active(s, [with_crc(leading_to(unknown(s, dice.between(1, 9)), check)) for check in CHECKS])


def wrong_at_each_length(s):
    """A wrong bit in the check, four of them at each length; all sixteen at the
    lengths that have the same remainder by 16."""
    s.image(45)
    for length in LENGTHS:
        bits = [(length // 4 + length // 16 + 4 * turn) % len(WRONG_BITS) for turn in range(4)]
        in_active(s, [wrong_in_bit(unknown(s, length), bit) for bit in bits])
    s.look_at_radio()


def wrong_in_bit(data, bit):
    return with_check(data, check_of(data) ^ 1 << bit)


def good_commands(s):
    """A command of each kind, which is followed where its check is right."""
    return [[0x50, 0x00], [0x30, 0x04], [0x3A, 0x04, 0x06], [0xA2, 0x05, *s.dice.four()], [0x60], [0x39, 0x02],
            [0x1B, *s.password()]]


def wrong_commands(s):
    """Commands, each with a wrong bit in the check, and with checks of other kinds."""
    s.image(45)
    for data in good_commands(s):
        in_active(s, [wrong_in_bit(data, bit) for bit in WRONG_BITS])
        in_active(s, other_checks(data))
    s.look_at_radio()


def less_and_more(s):
    """Commands with their check cut, and with bytes behind it."""
    s.image(45)
    for data in good_commands(s):
        frame = with_crc(data)
        behind = [bits_of([s.dice.byte()]), bits_of([0x00]), bits_of(s.dice.bytes(2)), bits_of([0x00, 0x00])]
        in_active(s, [frame[:-8], *(frame + more for more in behind)])
    s.look_at_radio()


def other_checks(data):
    """A frame for each other check, but those that happen to be right."""
    return [with_check(data, other(data)) for other in OTHER_CHECKS.values() if other(data) != check_of(data)]


def wrong_others(s):
    """Frames that are no command, with checks of other kinds."""
    s.image(45)
    for length in LENGTHS_OF_OTHERS:
        in_active(s, other_checks(unknown(s, length)))
    s.look_at_radio()


def no_data(s):
    """Frames that are too short for data, among them the check of none."""
    s.image(45)
    in_active(s, [bits_of([0x63]), bits_of([0x63, 0x63]), bits_of([0x00, 0x00]), bits_of(s.dice.bytes(2))])
    s.look_at_radio()


def any_frames(s):
    """Right frames and wrong ones, of any length."""
    dice = s.dice
    s.image(dice.size())
    for _ in range(dice.between(2, 8)):
        data = dice.one_of([unknown(s, dice.one_of(LENGTHS)), dice.one_of(good_commands(s))])
        wrong = wrong_in_bit(data, dice.one_of(WRONG_BITS))
        in_active(s, [dice.one_of([with_crc(data), wrong, dice.one_of(other_checks(data))])])
    s.look_at_radio()


def stored(s):
    each_low_half(s)
    alike(s)
    rare_registers(s)
    wrong_at_each_length(s)
    wrong_commands(s)
    less_and_more(s)
    wrong_others(s)
    no_data(s)


OF_ANY_KIND = [any_frames, any_frames, rare_registers, less_and_more, no_data]
