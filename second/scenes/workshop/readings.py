"""What the first message holds, and how old its reading is."""

from scenes.workshop.areas import BEGINNING, MESSAGE, USER_BYTES, block, filler, message, reading

FULL = 2 ** 32 - 1
AGES = [0, 1, 2, 450, 898, 899, 900, 901, 902, 1000, 1023, 1024, 3600, 86400, 65535, 65536, 65537, 66436, 66437,
        2 ** 16 + 900, 2 ** 24, 2 ** 24 + 5, 2 ** 31 - 1, 2 ** 31, 2 ** 31 + 1, FULL - 1, FULL]
WATTS = [0, 1, 9, 10, 255, 256, 999, 1000, 65535, 65536, 99999, 100000, 2 ** 24 - 1, 2 ** 24, 16777217,
         2 ** 31 - 1, 2 ** 31, 2 ** 31 + 1, 4294967290, FULL, 0x000000A5, 0x0000A500, 0x00A50000, 0xA5000000,
         0x12345678, 0x78563412, 0xFEDCBA98]


def place(s, seconds, watts, present, long_form=False, size=45):
    """A reading somewhere in the user pages."""
    dice = s.dice
    front = filler(dice, dice.one_of([0, dice.below(40)]))
    s.show(front + message(seconds, watts, long_form), size, present)


def ages(s):
    """Each age and its opposite, from seconds at which it is possible: the first,
    the last, and between."""
    dice = s.dice
    for age in AGES:
        for seconds in (0, FULL - age, dice.between(0, FULL - age)):
            place(s, seconds, dice.below(2 ** 32), seconds + age)
            if age:
                place(s, seconds + age, dice.below(2 ** 32), seconds)


def ends_of_time(s):
    """Present second and reading at the two ends, and near them."""
    near = [0, 1, 899, 900, 901, FULL - 901, FULL - 900, FULL - 899, FULL - 1, FULL]
    for present in near:
        for seconds in near:
            place(s, seconds, s.dice.below(2 ** 32), present)


def watts_of_each(s):
    """The watts that come back, with each of the three."""
    for age in (0, 901, -1):
        for watts in WATTS:
            seconds = s.dice.between(1, FULL - 901)
            place(s, seconds, watts, seconds + age, long_form=s.dice.one_in(3))


def orders(s):
    """Seconds and watts whose bytes all differ, at ages at which the order shows."""
    dice = s.dice
    for age in (0, 1, 899, 900, 901, 902, -1, -2) * 5:
        seconds = sum(byte << 8 * at for at, byte in enumerate(dice.some(4, range(1, 255))))
        watts = sum(byte << 8 * at for at, byte in enumerate(dice.some(4, range(1, 255))))
        place(s, seconds, watts, seconds + age)
        place(s, seconds, seconds - dice.one_of([5000, -5000]), seconds + age)


def message_lengths(s):
    """Messages of each length about eleven, that begin as a reading or end as one,
    in both forms of length."""
    dice = s.dice
    for length in [*range(0, 24), 32, 64, 100, 128]:
        whole = reading(dice.below(1000), dice.below(2 ** 32))
        other = dice.bytes(length)
        for content in ((whole + other)[:length], (other + whole)[len(whole):], (whole * 12)[:length]):
            for long_form in (False, True):
                s.show(block(MESSAGE, content, long_form), present=dice.between(1000, 1500))


def records_of_other_lengths(s):
    """Messages as long as their third byte says, as a record of another payload is."""
    for length in [*range(0, 20), 40, 100]:
        content = [*BEGINNING[:2], length, *s.dice.bytes(length)]
        s.show(block(MESSAGE, content, s.dice.one_in(4)), present=s.dice.below(2 ** 32))


def long_messages(s):
    """Messages of lengths that no byte holds, or only just: 267 is 11 and 256."""
    dice = s.dice
    for size, length, long_form in [
            (135, 253, False), (135, 254, False), (135, 254, True), (135, 255, True), (135, 256, True),
            (135, 257, True), (135, 266, True), (135, 267, True), (135, 268, True), (231, 254, False),
            (231, 255, True), (231, 256, True), (231, 267, True), (231, 523, True), (231, 779, True)]:
        content = reading(5, dice.below(2 ** 32)) + dice.bytes(length - 11)
        s.show(block(MESSAGE, content, long_form), size, 5)


def wrong_beginnings(s):
    """Each bit of D5 00 08 turned, bytes exchanged, and others."""
    dice = s.dice
    for bit in range(24):
        beginning = list(BEGINNING)
        beginning[bit // 8] ^= 1 << bit % 8
        show_beginning(s, beginning)
    for beginning in ([0x00, 0xD5, 0x08], [0xD5, 0x08, 0x00], [0x08, 0x00, 0xD5], [0xD5, 0x00, 0x00],
                      [0x00, 0x00, 0x08], [0xD5, 0xD5, 0xD5], [0xD1, 0x01, 0x08], [0, 0, 0], [0xFF] * 3,
                      [0xD5, 0x01, 0x09], [0xD4, 0x00, 0x09], [0xD5, 0x00, 0x0B]):
        show_beginning(s, beginning)
    for _ in range(8):
        show_beginning(s, dice.bytes(3))


def show_beginning(s, beginning):
    dice = s.dice
    content = beginning + reading(dice.below(1000), dice.below(2 ** 32))[3:]
    s.show(filler(dice, dice.below(9)) + block(MESSAGE, content, dice.one_in(4)),
           present=dice.between(1000, 1500))


def places(s, size):
    """Readings in both forms at each byte of a page, first, early and late; and
    messages that are none."""
    dice = s.dice
    room = USER_BYTES[size]
    for start in [0, 1, 2, 3, dice.between(4, 90), room - 15, room - 60] + (
            [254, 255, 256, 257, room - 100] if size > 45 else []):
        for long_form, age in ((False, 5), (True, dice.one_of([901, -1]))):
            seconds = dice.between(1, FULL - 901)
            s.show(filler(dice, start) + message(seconds, dice.below(2 ** 32), long_form), size, seconds + age)
    for content in ([], dice.bytes(10), dice.bytes(12), dice.bytes(11), reading(1, 2)[:10],
                    reading(1, 2) + [0]):
        s.show(filler(dice, dice.below(room - 20)) + block(MESSAGE, content), size, 1)
    for age in (0, 900, 901, -1):
        place(s, 10 ** 9, dice.below(2 ** 32), 10 ** 9 + age, size=size)


def stored(s):
    ages(s)
    ends_of_time(s)
    watts_of_each(s)
    orders(s)
    message_lengths(s)
    records_of_other_lengths(s)
    long_messages(s)
    wrong_beginnings(s)


def stored_of_size(s, size):
    places(s, size)


OF_ANY_KIND = [ages, ends_of_time, watts_of_each, orders, message_lengths, records_of_other_lengths,
               wrong_beginnings]
OF_ANY_SIZE = [places]
RARE = [long_messages]
