"""ACTIVE: frames that are no command."""

from scenes.plausible import arguments_of
from scenes.selection import flipped
from tag.bits import bits_of, crc_a, with_crc
from tag.frames import COMMANDS, REQA, WUPA


def active_silences(s, wait):
    """Frames that are no whole bytes, or under three of them: they lead to the
    wait state and end authentication."""
    dice = s.dice
    s.image(dice.size())
    whole = with_crc([0x60])
    for bits in dice.shuffled([REQA, WUPA, bits_of([0x35])[:7], bits_of([0x60]), whole[:16],
                               whole[:23], whole + [0], whole[8:], bits_of(dice.bytes(9))[:65]]):
        for authenticated in (False, True):
            s.reach("ACTIVE", wait)
            if authenticated:
                s.authenticate()
            s.frame(bits, parity_good=not dice.one_in(4))
            if authenticated:
                s.reach("ACTIVE")       # straight on: another silence would end it
            else:
                s.look_at_radio()


def bad_frames_in_active(s, wait):
    """NAK 1h by parity, CRC and both; NAK 0h by code and by length."""
    dice = s.dice
    s.image(dice.size())
    for code, (name, length) in dice.shuffled(COMMANDS.items()):
        data = [code] + arguments_of(s, name)
        shorter, longer = data[:-1], data + dice.bytes(dice.one_of([1, 1, 2, 56]))
        for bits, parity_good in dice.shuffled([
                (with_crc(data), False),
                (flipped(with_crc(data), dice.below(8 * length + 16)), True),
                (bits_of(data) + crc_a(bits_of(data))[8:] + crc_a(bits_of(data))[:8], True),
                (flipped(with_crc(data), dice.below(8 * length + 16)), False),
                (with_crc(longer), True), (flipped(with_crc(longer), dice.below(30)), True)]):
            s.reach("ACTIVE", wait)
            if dice.one_in(4):
                s.authenticate()
            s.frame(bits, parity_good)
        if shorter:
            s.reach("ACTIVE", wait)
            s.command(*shorter)
    for data in [[0xA0, 4], [0x3C, 0], [0x93, 0x70, *s.tag_image.first_five()],
                 [0x95, 0x70, *s.tag_image.second_five()], [0x00], [0x31, 0x00], [0xFF] * 62]:
        s.reach("ACTIVE", wait)
        s.command(*data)
    for second in dice.some(3, [1, 2, 0x80, 0xFF, dice.between(1, 255)]):
        s.reach("ACTIVE", wait)
        s.command(0x50, second)
    s.reach("ACTIVE", wait)
    s.command(0x50, 0x00)


def any_bad_frames(s):
    wait = s.dice.one_of(["IDLE", "HALT"])
    if s.dice.one_in(3):
        active_silences(s, wait)
    else:
        bad_frames_in_active(s, wait)


def stored(s):
    for wait in ("IDLE", "HALT"):
        active_silences(s, wait)
        active_silences(s, wait)
        bad_frames_in_active(s, wait)


OF_ANY_KIND = [any_bad_frames]
