"""Nothing is kept from one line to the next."""

from rules.workshop.kept import OUTCOMES
from scenes.workshop.areas import (FACTORY, MESSAGE, NULL, TERMINATOR, USER_BYTES, block, filled, image_of,
                                   message, written)


BAD_LINES = [b"screen", b"help me", b"screen 5", b"hello", b"Screen 5 -", b"screen 5 0", b"screen - -",
             b"help ", b"reading", b"reading 5 5", b"reading 5 5 0", b"read 5 5 -"]


def reading_image(s, seconds, size=45):
    """An image whose user pages begin with a reading of that second."""
    return image_of(size, filled(message(seconds, s.dice.below(2 ** 32)), size))


def line_with(s, outcome, seconds):
    """A line with this outcome, at about this second."""
    dice = s.dice
    lines = {
        "live": lambda: s.screen(seconds + dice.below(901), reading_image(s, seconds)),
        "old": lambda: s.screen(seconds + dice.between(901, 9999), reading_image(s, seconds)),
        "ahead": lambda: s.screen(seconds - 1, reading_image(s, seconds)),
        "1": lambda: s.screen(seconds, dice.bytes(dice.below(20))),
        "20": lambda: s.show([TERMINATOR], present=seconds),
        "21": lambda: s.show([0x01, 0xFF, 0xFF], present=seconds),
        "22": lambda: s.show(block(MESSAGE, dice.bytes(dice.below(11))), present=seconds),
        "area": lambda: s.reading(seconds, dice.below(2 ** 32), dice.bytes(dice.between(14, 40))),
        "23": lambda: s.reading(seconds, dice.below(2 ** 32), dice.bytes(dice.below(14))),
        "help": lambda: s.say("help"),
        "error": lambda: s.say(dice.one_of(BAD_LINES))}
    lines[outcome]()


def each_after_each(s):
    """Each outcome behind each, at such seconds that those of the first line would
    give the second another answer."""
    for first in OUTCOMES:
        for second in OUTCOMES:
            early, late = s.dice.between(1, 2 ** 31), s.dice.between(2 ** 31 + 10000, 2 ** 32 - 10000)
            line_with(s, first, late if second == "ahead" else early)
            line_with(s, second, early if second == "ahead" else late)


def the_same_again(s):
    """The same line twice, the same image at other seconds, other images at the
    same second, and images that are longer, shorter, or none."""
    dice = s.dice
    for size in (45, 135):
        seconds = dice.between(1000, 2 ** 31)
        one, other = reading_image(s, seconds, size), reading_image(s, seconds, size)
        for present in (seconds, seconds, seconds + 901, seconds - 1, seconds + 900):
            s.screen(present, one)
        for image in (one, other, [], other[:-1], other, one + [0], one, one[:20], one):
            s.screen(seconds, image)


def the_same_area_again(s):
    """The same `reading` line twice, other numbers, one of them or both, other areas,
    and areas that are longer, shorter, too short, or none; and one reading over the
    other."""
    dice = s.dice
    one, other = dice.bytes(20), dice.bytes(20)
    first, second = dice.below(2 ** 32), dice.below(2 ** 32)
    for seconds, watts, area in (
            (first, second, one), (first, second, one), (first, second, other), (first, first, other),
            (second, first, other), (second, second, one), (first, second, dice.bytes(40)),
            (first, second, one), (second, first, one[:14]), (first, first, one), (second, first, one[:13]),
            (second, second, []), (first, first, dice.bytes(14)), (first, second, [])):
        s.reading(seconds, watts, area)
    area = dice.bytes(30)
    for _ in range(3):
        seconds, watts = dice.below(2 ** 32), dice.below(2 ** 32)
        s.reading(seconds, watts, area)
        area = written(seconds, watts, area)
    s.write_into(area)


def written_and_shown(s, size):
    """`reading` lines between `screen` lines on the same image: it is shown as the
    line has it, and written into as the line has it."""
    dice = s.dice
    for front in ([TERMINATOR], FACTORY, message(700, dice.below(2 ** 32)), [0x01, 0xFF, 0xFF, 0xFF]):
        area = filled(front, size)
        seconds, watts = dice.between(1000, 2 ** 31), dice.between(2 ** 31, 2 ** 32 - 1)
        old, new = image_of(size, area), image_of(size, written(seconds, watts, area))
        s.screen(seconds, old)
        s.reading(seconds, watts, area)
        s.screen(seconds, old)
        s.reading(seconds, watts, area)
        s.screen(seconds, new)
        s.reading(seconds, watts - 1, written(seconds, watts, area))
        s.screen(watts - 1, new)
        s.reading(watts, seconds, new)
        s.screen(seconds + 901, new)
        s.reading(1, 2, area[:14])
        s.reading(seconds, watts, [])
        s.screen(seconds, old)


def images_for_areas(s):
    """An image lent as an area: it is written into from its first byte on, and an
    image behind it is its own."""
    for size in USER_BYTES:
        image = reading_image(s, s.dice.below(2 ** 31), size)
        s.screen(s.dice.below(2 ** 32), image)
        s.write_into(image)
        s.screen(s.dice.below(2 ** 32), image)


def sizes_in_turn(s):
    """Images of all sizes, one after the other: each with a reading of its own."""
    dice = s.dice
    for size in (231, 45, 135, 45, 231, 135, 231):
        s.show_behind([NULL] * dice.below(9), size)
        s.show([NULL] * USER_BYTES[size], size)
        s.say(f"screen {dice.below(900)} -")


def stored(s):
    each_after_each(s)
    the_same_again(s)
    the_same_area_again(s)
    images_for_areas(s)
    sizes_in_turn(s)


def stored_of_size(s, size):
    written_and_shown(s, size)


OF_ANY_KIND = [each_after_each, the_same_again, the_same_area_again]
OF_ANY_SIZE = [written_and_shown]
RARE = [sizes_in_turn, images_for_areas]
