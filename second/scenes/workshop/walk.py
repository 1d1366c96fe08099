"""The blocks that the screen walks."""

from scenes.workshop.areas import (LONG_READING, MESSAGE, NULL, TERMINATOR, USER_BYTES, block, filler, message,
                                   passed_type, reading)


def every_type(s):
    """Each type there is before a reading: most are passed over."""
    for kind in range(256):
        s.show_behind(block(kind, s.dice.bytes(s.dice.between(0, 9))))
    for kind in [*range(0, 16), 0x10, 0x20, 0x40, 0x7F, 0x80, 0xC0, 0xD5, *range(0xF0, 0x100)]:
        s.show_behind(block(kind, s.dice.bytes(s.dice.between(0, 9)), long_form=True))


def any_types(s):
    for _ in range(10):
        s.show_behind(block(s.dice.byte(), s.dice.bytes(s.dice.between(0, 20)), s.dice.one_in(2)))


def lengths(s, size, some, long_form):
    """Blocks of these lengths before a reading."""
    for length in some:
        s.show_behind(block(passed_type(s.dice), s.dice.bytes(length), long_form), size)


def lengths_of_one_byte(s):
    """All that leave room for a reading in the small tag."""
    lengths(s, 45, range(USER_BYTES[45] - 2 - LONG_READING + 1), False)


def lengths_of_three_bytes(s):
    lengths(s, 45, range(0, 120, 3), True)
    lengths(s, 45, [10, 11, 12], True)


def long_lengths(s):
    """Lengths around a byte's end: one byte up to 254, then FFh and two."""
    lengths(s, 135, [250, 253, 254], False)
    lengths(s, 135, [0, 3, 11, 253, 254, 255, 256, 257, 259, 267, 300, 485], True)
    lengths(s, 231, [254], False)
    lengths(s, 231, [254, 255, 256, 257, 259, 510, 511, 512, 513, 767, 768, 771, 869], True)


def any_lengths(s):
    size = s.dice.size()
    most = USER_BYTES[size] - 4 - LONG_READING
    lengths(s, size, [s.dice.between(0, most) for _ in range(4)], True)
    lengths(s, size, [s.dice.between(0, min(most, 254)) for _ in range(4)], False)


def nulls(s):
    """Rows of 00h before a reading, before and behind blocks, and nothing else."""
    dice = s.dice
    for amount in (1, 2, 3, 4, 5, 7, 8, 9, 10, 12, 16, 31, 64, 100, 128):
        s.show_behind([NULL] * amount)
    for _ in range(12):
        s.show_behind([NULL] * dice.between(0, 3) + block(passed_type(dice), dice.bytes(dice.between(0, 6)))
                      + [NULL] * dice.between(1, 12) + block(passed_type(dice), dice.bytes(2)))
    s.show([NULL] * USER_BYTES[45])
    s.show(block(0x01, dice.bytes(5)) + [NULL] * (USER_BYTES[45] - 7))
    s.show([NULL] * 5 + [TERMINATOR])
    s.show([NULL] * (USER_BYTES[45] - 3) + [0x09, 0x02, 0x00])


def nulls_of_size(s, size):
    s.show([NULL] * USER_BYTES[size], size)
    s.show_behind([NULL] * (USER_BYTES[size] - LONG_READING - s.dice.below(9)), size)


def terminators(s):
    """FEh first, behind 00h, behind blocks; a reading behind it is not taken, and
    what passes the user pages there isn't looked at."""
    dice = s.dice
    for front in ([], [NULL], [NULL] * dice.between(2, 30), block(0x01, dice.bytes(4)),
                  filler(dice, dice.between(1, 90)), filler(dice, dice.between(1, 90))):
        left = USER_BYTES[45] - len(front) - 1
        for behind in (message(dice.below(1000), dice.below(2 ** 32)), block(MESSAGE, dice.bytes(4)),
                       [0x01, 0xFF, 0xFF, 0xFF], [MESSAGE, 0xFE], [0xFF] * left, [NULL] * left,
                       [NULL] * dice.below(9) + message(dice.below(1000), 7)):
            s.show([*front, TERMINATOR, *behind], present=dice.below(2000))


def inside_of_blocks(s):
    """FEh, 03h, 00h, FFh and whole readings in the bytes of a block: they are
    passed over with it."""
    dice = s.dice
    for data in ([TERMINATOR], [MESSAGE], [NULL], [0xFF], [MESSAGE, 0x0B], [MESSAGE, 0xFF, 0x00, 0x0B],
                 message(0, 5), message(7, 2 ** 32 - 1, long_form=True), [TERMINATOR] + message(0, 9)):
        for front, back in ((0, 0), (1, 0), (0, 1), (dice.between(1, 20), dice.between(0, 9))):
            content = dice.bytes(front) + data + dice.bytes(back)
            s.show_behind(block(passed_type(dice), content, long_form=dice.one_in(3)))
            s.show_behind(filler(dice, dice.below(12)) + block(passed_type(dice), content))
    for size in (135, 231):
        s.show_behind(block(0x01, dice.bytes(120) + message(0, 1) + [TERMINATOR] * 140, True), size)


def lengths_like_types(s):
    """Length bytes that look like a type: 03h, FEh, FFh, and what follows them."""
    dice = s.dice
    for kind in (0x01, 0x03, 0xFD, 0xFF):
        for length in (0x03, 0x0B):
            s.show_behind(block(kind, dice.bytes(length)))
            s.show_behind(block(kind, dice.bytes(length), long_form=True))
    for size, length in ((135, 0xFE), (231, 0xFE), (135, 0x103), (231, 0x1FE), (231, 0x1FF), (231, 0x303),
                         (231, 0x300), (231, 0x2FE)):
        content = dice.one_of([[0x00] * length, [0xFE] * length, [0x03] * length, dice.bytes(length)])
        s.show_behind(block(0x01, content), size)
    s.show_behind(block(0x01, dice.bytes(0xFE), long_form=True), 135)


def two_messages(s):
    """The first of two counts, whichever is a reading."""
    dice = s.dice
    for between in ([], [NULL], block(0x01, dice.bytes(3)), filler(dice, 9), [TERMINATOR]):
        for _ in range(2):
            seconds = dice.below(2 ** 31)
            one, other = message(seconds, dice.below(2 ** 32)), message(seconds + 5, dice.below(2 ** 32))
            none, empty = block(MESSAGE, dice.bytes(dice.one_of([1, 10, 11, 12, 20]))), block(MESSAGE, [])
            for first, second in ((one, other), (one, none), (none, one), (none, empty), (empty, one),
                                  (one, empty), (one, one)):
                s.show([*filler(dice, dice.below(9)), *first, *between, *second], present=seconds + 10)


def behind_the_message(s):
    """Nothing behind the first message is looked at: blocks that pass the user
    pages, FEh, 00h, or any other bytes."""
    dice = s.dice
    for behind in ([0x01, 0xFF, 0xFF, 0xFF], [0x01, 0xFE], [MESSAGE, 0xFE], [TERMINATOR], [NULL] * 131,
                   [0xFF] * 131, [TERMINATOR] * 131, [NULL] * 130 + [0x44], block(0x01, dice.bytes(40)),
                   [0x55] * 131):
        s.show_behind([], behind=behind[:129])
        s.show_behind(filler(dice, dice.below(20)), behind=behind[:100])
        s.show([*filler(dice, 5), *block(MESSAGE, reading(1, 2)[:10]), *behind[:100]])


def stored(s):
    every_type(s)
    lengths_of_one_byte(s)
    lengths_of_three_bytes(s)
    long_lengths(s)
    nulls(s)
    terminators(s)
    inside_of_blocks(s)
    lengths_like_types(s)
    two_messages(s)
    behind_the_message(s)


def stored_of_size(s, size):
    nulls_of_size(s, size)


OF_ANY_KIND = [any_types, any_lengths, nulls, terminators, inside_of_blocks, two_messages, behind_the_message]
OF_ANY_SIZE = [nulls_of_size]
RARE = [every_type, long_lengths, lengths_like_types]
