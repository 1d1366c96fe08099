"""The lent area: its length, what it held, and the rest as found."""

from scenes.workshop.areas import (FACTORY, MESSAGE, NULL, TERMINATOR, USER_BYTES, WRITTEN, block, filled_up,
                                   filler, message, written)

FULL = 2 ** 32 - 1

# Around fourteen, user pages, images, and what a byte counts.
LENGTHS = [*range(WRITTEN, 36), 48, 64, 127, 128, 129, 143, 144, 145, 160, 184, 254, 255, 256, 257, 258, 269,
           270, 271, 503, 504, 505, 511, 512, 513, 526, 544, 887, 888, 889, 928, 1000, 1023, 1024, 1025, 1038,
           1098, 1099, 1100]


def too_short(s, lengths):
    """23, whatever the area holds, and whatever the reading is."""
    dice = s.dice
    for length in lengths:
        seconds, watts = dice.below(2 ** 32), dice.below(2 ** 32)
        for held in ([0x00] * 13, [0xFF] * 13, dice.bytes(13), written(seconds, watts),
                     written(dice.below(2 ** 32), dice.below(2 ** 32))):
            s.reading(seconds, watts, held[:length])
        s.reading(0, 0, dice.bytes(length))
        s.reading(FULL, FULL, dice.bytes(length))


def any_too_short(s):
    too_short(s, [s.dice.below(WRITTEN), 13])


def thirteen_and_fourteen(s):
    """The same area a byte too short, just long enough, and a byte longer."""
    for _ in range(4):
        area = s.dice.bytes(15)
        for length in (13, 14, 15, 14, 13, 0, 14):
            s.write_into(area[:length])


def lengths(s):
    for length in LENGTHS:
        s.write_into(s.dice.many_bytes(length))


def any_lengths(s):
    dice = s.dice
    for length in [*dice.some(4, LENGTHS), dice.between(WRITTEN, 60), dice.between(WRITTEN, 1100)]:
        s.write_into(dice.many_bytes(length))


def held(s, seconds, watts):
    """Areas that held something where the reading comes: it doesn't matter, and
    what is behind it stays."""
    dice = s.dice
    older, newer = dice.below(max(seconds, 1)), dice.between(min(seconds + 1, FULL), FULL)
    for front in ([NULL] * 14, [0xFF] * 14, [TERMINATOR] * 14, written(seconds, watts), written(older, watts),
                  written(newer, watts), written(seconds, dice.below(2 ** 32)), written(watts, seconds),
                  message(seconds, watts) + [NULL], message(older, watts) + [0x01],
                  message(newer, dice.below(2 ** 32)) + [0xFF], message(seconds, watts, True),
                  block(MESSAGE, dice.bytes(40)), block(MESSAGE, dice.bytes(20), True),
                  block(MESSAGE, dice.bytes(12)), block(MESSAGE, dice.bytes(5)), block(MESSAGE, []), FACTORY,
                  FACTORY[:5] + message(older, watts) + [TERMINATOR], [NULL] * 3 + message(newer, watts),
                  [TERMINATOR] + message(older, watts), filler(dice, 30), [MESSAGE, 0xFE],
                  [0x01, 0xFF, 0xFF, 0xFF], dice.bytes(14)):
        for length in (dice.between(max(14, len(front)), 60), dice.one_of([16, 20, 144])):
            s.reading(seconds, watts, filled_up(dice, front, length))


def held_at_some_second(s):
    held(s, s.dice.between(1000, FULL - 1000), s.dice.below(2 ** 32))


def single_bytes(s):
    """Areas in which a single byte of the fourteen changes, or a single one stays."""
    dice = s.dice
    for place in range(WRITTEN):
        seconds, watts = dice.below(2 ** 32), dice.below(2 ** 32)
        due = written(seconds, watts)
        for turned in (1 << dice.below(8), dice.between(1, 255)):
            area = due[:place] + [due[place] ^ turned] + due[place + 1:]
            s.reading(seconds, watts, area + dice.bytes(dice.below(9)))
        area = [byte ^ dice.between(1, 255) for byte in due]
        area[place] = due[place]
        s.reading(seconds, watts, area + dice.bytes(dice.below(9)))


def rests(s, length):
    """What stays behind the fourteen bytes."""
    dice = s.dice
    seconds, watts = dice.below(2 ** 32), dice.below(2 ** 32)
    room = length - WRITTEN
    again, another = written(seconds, watts), written(dice.below(2 ** 32), watts)
    for rest in ([NULL] * room, [0xFF] * room, [TERMINATOR] * room,
                 [NULL] * (room - 1) + [dice.between(1, 255)], filled_up(dice, [0x5A], room - 1) + [NULL],
                 filled_up(dice, again, room), (again * 99)[:room],
                 filled_up(dice, another, room), filled_up(dice, [NULL], room), filled_up(dice, [0xFF], room),
                 filled_up(dice, [TERMINATOR], room), filled_up(dice, [MESSAGE], room),
                 (list(range(256)) * 5)[:room], dice.many_bytes(room)):
        s.reading(seconds, watts, dice.bytes(WRITTEN) + rest)


def short_rests(s):
    """A rest of one byte, of each kind, and of two."""
    dice = s.dice
    for rest in ([0x00], [0x03], [0xFE], [0xFF], [0x00, 0x00], [0xFE, 0x00], [0x00, 0xFE], [0xFF, 0xFF],
                 [0xA5, 0x5A], [0x03, 0x0B]):
        s.write_into(dice.bytes(WRITTEN) + rest)
        s.write_into([NULL] * WRITTEN + rest)


def longest_rests(s):
    rests(s, 1100)


def any_rests(s):
    rests(s, s.dice.between(17, 200))


def stored(s):
    too_short(s, range(WRITTEN))
    thirteen_and_fourteen(s)
    lengths(s)
    held(s, 0, 0)
    held(s, FULL, FULL)
    held_at_some_second(s)
    single_bytes(s)
    short_rests(s)
    rests(s, 30)
    longest_rests(s)


def stored_of_size(s, size):
    rests(s, USER_BYTES[size])


OF_ANY_KIND = [any_too_short, thirteen_and_fourteen, any_lengths, held_at_some_second, single_bytes,
               short_rests, any_rests]
OF_ANY_SIZE = [stored_of_size]
RARE = [lengths, longest_rests]
