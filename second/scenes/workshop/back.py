"""What is written, read back by the screen."""

from scenes.workshop.areas import (FACTORY, MESSAGE, NULL, TERMINATOR, USER_BYTES, WRITTEN, block, filled_up,
                                   filler, image_of, message, written)

FULL = 2 ** 32 - 1
EDGES = (0, 900, 901, -1)


def back(s, size, area, seconds, watts, ages, lent=None):
    """A reading written into the user pages, or into the first of their bytes, and
    what the screen says of it then."""
    area = (list(area) + [NULL] * USER_BYTES[size])[:USER_BYTES[size]]
    lent = USER_BYTES[size] if lent is None else lent
    s.reading(seconds, watts, area[:lent])
    outside = s.outside()
    for age in ages:
        if 0 <= seconds + age <= FULL:
            s.screen(seconds + age, image_of(size, written(seconds, watts, area), **outside))


def any_second(dice):
    return dice.between(1, FULL - 901)


def edges(s, size):
    """Live, old and ahead, at the edges, and at the two ends of the numbers."""
    dice = s.dice
    for lent in (None, WRITTEN, dice.between(15, 40)):
        back(s, size, dice.many_bytes(USER_BYTES[size]), any_second(dice), dice.below(2 ** 32), EDGES, lent)
    for seconds, watts in ((0, 0), (FULL, FULL), (0, FULL), (FULL, 0)):
        back(s, size, dice.many_bytes(USER_BYTES[size]), seconds, watts, EDGES)


def other_ages(s, size):
    dice = s.dice
    for _ in range(2):
        seconds = dice.between(10000, FULL - 10000)
        back(s, size, dice.many_bytes(USER_BYTES[size]), seconds, dice.below(2 ** 32),
             (dice.between(1, 899), dice.between(902, 9999), -dice.between(2, 9999)))


def over_what_was_there(s, size):
    """User pages that held something: it is the new reading that is read back."""
    dice = s.dice
    room = USER_BYTES[size]
    for front in ([], [0xFF] * room, FACTORY, message(any_second(dice), 1) + [TERMINATOR], message(5, 5, True),
                  block(MESSAGE, dice.bytes(60)), block(MESSAGE, []), filler(dice, room), [TERMINATOR],
                  [TERMINATOR] + message(7, 7), [MESSAGE, 0xFF, 0xFF, 0xFF], [0x01, 0xFF, 0xFF, 0xFF],
                  [NULL] * 20 + message(3, 3)):
        area = front if not front or dice.one_in(3) else filled_up(dice, front, room)
        back(s, size, area, any_second(dice), dice.below(2 ** 32), [dice.one_of(EDGES)])


def over_what_is_behind(s, size):
    """What stands behind FEh isn't looked at."""
    dice = s.dice
    room = USER_BYTES[size]
    for behind in ([], message(any_second(dice), 9), [NULL] * 5 + message(8, 8), block(MESSAGE, dice.bytes(12)),
                   [MESSAGE, 0xFF, 0xFF, 0xFF], [0x01, 0xFF, 0xFF, 0xFF], [TERMINATOR],
                   [NULL] * 9 + [TERMINATOR], filler(dice, room - WRITTEN)):
        back(s, size, dice.bytes(WRITTEN) + behind, any_second(dice), dice.below(2 ** 32), [dice.one_of(EDGES)])


def stored_of_size(s, size):
    edges(s, size)
    other_ages(s, size)
    over_what_was_there(s, size)
    over_what_is_behind(s, size)


OF_ANY_SIZE = [edges, other_ages, over_what_was_there, over_what_is_behind]
