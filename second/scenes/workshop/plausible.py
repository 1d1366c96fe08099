"""User pages as they might be met, and damaged ones; readings written into them."""

from scenes.workshop.areas import (MESSAGE, NULL, TERMINATOR, USER_BYTES, block, counted, image_of, message,
                                   passed_type, reading, rest, written)

FULL = 2 ** 32 - 1
SPEAKING_BYTES = [0x00, 0x00, 0x01, 0x02, 0x03, 0x03, 0x08, 0x0A, 0x0B, 0x0B, 0x0C, 0xD5, 0xFD, 0xFE, 0xFF,
                  0xFF]


class Clock:
    """A present second, and readings from about it."""

    def __init__(self, dice):
        self.dice = dice
        self.present = dice.one_of([dice.between(15 * 10 ** 8, 2 * 10 ** 9), dice.below(2 ** 32),
                                    dice.below(2000)])

    def seconds(self):
        dice = self.dice
        age = dice.one_of([dice.below(901), dice.between(895, 905), dice.between(-5, 5),
                           dice.between(-3000, 3000), dice.below(2 ** 32) - 2 ** 31])
        return min(max(self.present - age, 0), FULL)

    def watts(self):
        return self.dice.one_of([self.dice.below(4000), self.dice.below(2 ** 32)])

    def reading(self):
        return reading(self.seconds(), self.watts())


def any_block(dice, clock):
    """00h, a block that is passed over, a message, or FEh; messages are readings
    more often than not."""
    kind = dice.below(12)
    if kind < 3:
        return [NULL] * dice.one_of([1, 1, 2, dice.between(1, 9)])
    if kind < 8:
        length = dice.one_of([dice.below(8), dice.below(30), 11])
        return block(passed_type(dice), dice.bytes(length), dice.one_in(4))
    if kind < 10:
        return block(MESSAGE, clock.reading(), dice.one_in(4))
    if kind < 11:
        content = clock.reading()
        return block(MESSAGE, dice.one_of([content[:dice.below(11)], content + dice.bytes(dice.between(1, 9)),
                                           dice.bytes(11), []]), dice.one_in(4))
    return [TERMINATOR]


def any_area(dice, size, clock):
    """Blocks that fill the user pages; the last is cut where they end."""
    room = USER_BYTES[size]
    area = []
    while len(area) < room:
        area += any_block(dice, clock) if not dice.one_in(15) else rest(dice, dice.below(20))
    return area[:room]


def late_message(dice, size, clock):
    """Blocks up to some place, and only then a message: near the end it passes."""
    room = USER_BYTES[size]
    area = []
    place = dice.one_of([dice.below(room), dice.between(room - 20, room)])
    while len(area) < place:
        area += dice.one_of([[NULL], block(passed_type(dice), dice.bytes(dice.below(24)), dice.one_in(4))])
    area += block(MESSAGE, clock.reading(), dice.one_in(3))
    return (area + rest(dice, room))[:room]


def speaking_area(dice, size, clock):
    """Bytes that mean something as a type, a length, or the beginning of a reading."""
    return [dice.one_of(SPEAKING_BYTES) for _ in range(USER_BYTES[size])]


def damaged(dice, area):
    """A byte changed, left out or put in, in the first bytes more often."""
    place = dice.one_of([dice.below(len(area)), dice.below(20), dice.below(8)])
    byte = dice.one_of([dice.byte(), dice.one_of(SPEAKING_BYTES), area[place] ^ 1 << dice.below(8)])
    mishap = dice.below(4)
    if mishap == 0:
        return area[:place] + area[place + 1:] + [byte]
    if mishap == 1:
        return (area[:place] + [byte] + area[place:])[:len(area)]
    return area[:place] + [byte] + area[place + 1:]


def shifted_end(dice, size, clock):
    """A block whose length is wrong by little, before a reading."""
    length = dice.below(30)
    told = max(0, length + dice.between(-3, 3))
    return counted(passed_type(dice), told, dice.one_in(3)) + dice.bytes(length) + message(
        clock.seconds(), dice.below(2 ** 32))


def any_screen(s, size=None):
    """One `screen` line."""
    dice = s.dice
    size = size or dice.one_of([45] * 30 + [135, 231])
    clock = Clock(dice)
    area = dice.one_of([any_area, any_area, late_message, speaking_area, shifted_end])(dice, size, clock)
    area = (area + rest(dice, USER_BYTES[size]))[:USER_BYTES[size]]
    s.show(damaged(dice, area) if dice.one_in(3) else area, size, clock.present)


def any_reading(s, size=None):
    """One `reading` line on user pages, or on the first of their bytes, and now and
    then what the screen says of them then."""
    dice = s.dice
    size = size or dice.one_of([45] * 30 + [135, 231])
    clock = Clock(dice)
    area = dice.one_of([any_area, late_message, speaking_area])(dice, size, clock)
    if dice.one_in(2):
        area = (written(clock.seconds(), clock.watts()) + area)[:USER_BYTES[size]]
    area = damaged(dice, area) if dice.one_in(3) else area
    seconds, watts = clock.seconds(), clock.watts()
    s.reading(seconds, watts, area[:dice.one_of([len(area), len(area), dice.below(60), dice.between(12, 18)])])
    if dice.one_in(2):
        s.screen(clock.present, image_of(size, written(seconds, watts, area), **s.outside()))


def readings(s):
    for _ in range(30):
        any_reading(s)


def readings_of_size(s, size):
    for _ in range(8):
        any_reading(s, size)


def screens(s):
    for _ in range(60):
        any_screen(s)


def screens_of_size(s, size):
    for _ in range(12):
        any_screen(s, size)


def stored(s):
    for _ in range(1500):
        any_screen(s, 45)
    for _ in range(250):
        any_reading(s, 45)


def stored_of_size(s, size):
    screens_of_size(s, size)
    readings_of_size(s, size)


OF_ANY_KIND = [screens] * 12 + [readings] * 8
OF_ANY_SIZE = [screens_of_size, readings_of_size]
