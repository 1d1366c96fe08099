"""The end of the user pages: what ends with their last byte, and what passes it."""

from scenes.workshop.areas import (MESSAGE, NULL, TERMINATOR, USER_BYTES, counted, filler, image_of, message,
                                   passed_type, reading)


def any_kind(s, kind):
    return passed_type(s.dice) if kind is None else kind


def cut_lengths(s, size, kind):
    """A type, and a length that the user pages cut."""
    for tail in ([], [0xFF], [0xFF, 0x00], [0xFF, 0x0B], [0xFF, 0xFF]):
        s.show_at_end([any_kind(s, kind), *tail], size)


def tails(s, size, kind, amounts, overs):
    """Blocks with so many bytes up to the end, and a length that is larger by so
    much: by 0 it ends with the last byte."""
    for amount in amounts:
        for over in overs:
            for long_form in (False, True):
                head = counted(any_kind(s, kind), amount + over, long_form)
                s.show_at_end(head + begins_right(s, amount), size)


def begins_right(s, amount):
    """The bytes of a reading, so far as there are any."""
    return (reading(s.dice.below(1000), s.dice.below(2 ** 32)) + s.dice.bytes(amount))[:amount]


def last_readings(s, size):
    """A reading that ends with the last byte, and one that ends before it."""
    dice = s.dice
    for left in (0, 1, 4):
        for long_form in (False, True):
            seconds = dice.below(2 ** 31)
            block = message(seconds, dice.below(2 ** 32), long_form)
            front = filler(dice, USER_BYTES[size] - len(block) - left)
            s.show(front + block, size, seconds + dice.below(2000))


def readings_over_the_end(s, size, all_of_them):
    """A reading that begins in the user pages and ends behind them: its bytes are
    there, but it passes."""
    dice = s.dice
    for inside in range(1, 15) if all_of_them else (1, 4, 12, 14):
        for long_form in (False, True):
            block = message(dice.below(1000), dice.below(2 ** 32), long_form)
            if inside < len(block):
                area = filler(dice, USER_BYTES[size] - inside)
                image = image_of(size, area + block[:inside], **s.outside())
                end = 16 + USER_BYTES[size]
                outside = block[inside:]
                s.screen(1000 + dice.below(500), image[:end] + outside + image[end + len(outside):])


def last_bytes(s, size):
    """00h or FEh as the last bytes, and a block that is whole before them."""
    for tail in ([NULL], [TERMINATOR], [TERMINATOR, NULL], [TERMINATOR, MESSAGE], [NULL, NULL],
                 [0x01, 0x00, NULL], [0x01, 0x01, TERMINATOR], [0x01, 0x01, NULL], [MESSAGE, 0x01, TERMINATOR]):
        s.show_at_end(tail, size)


def whole_area(s, size):
    """One block that fills the user pages, and one that is a byte too long."""
    dice = s.dice
    room = USER_BYTES[size]
    for kind in (0x01, MESSAGE):
        for over in (0, 1):
            s.show(counted(kind, room - 4 + over, True) + dice.bytes(room - 4), size)
            if room - 2 + over < 255:
                s.show(counted(kind, room - 2 + over) + dice.bytes(room - 2), size)
        for length in (0x0B00, 0x8000, 0xFFFF):
            s.show(counted(kind, length, True) + begins_right(s, 11), size)


def edges(s, size):
    """The edges of each kind, once."""
    for kind in (MESSAGE, None):
        cut_lengths(s, size, kind)
        tails(s, size, kind, (0, 11, s.dice.between(12, 40)), (0, 1))
        tails(s, size, kind, [s.dice.below(12)], [s.dice.between(2, 30)])
        s.show_at_end([any_kind(s, kind), 0xFF, 0xFF, 0xFF, *s.dice.bytes(s.dice.below(9))], size)
    last_readings(s, size)
    readings_over_the_end(s, size, all_of_them=False)
    last_bytes(s, size)
    whole_area(s, size)


def all_edges(s):
    """Each number of bytes that may be left in the small tag."""
    for kind in (MESSAGE, None):
        tails(s, 45, kind, range(0, 16), (0, 1, 2))
    readings_over_the_end(s, 45, all_of_them=True)


def stored(s):
    all_edges(s)


def stored_of_size(s, size):
    edges(s, size)


OF_ANY_SIZE = [edges, last_readings, last_bytes, whole_area]
RARE = [all_edges]
