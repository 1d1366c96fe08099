"""The image: its length, what lies outside the user pages, and what doesn't matter."""

from scenes.images import LAYOUT_OF_SIZE, access_byte
from scenes.workshop.areas import (MESSAGE, NULL, TERMINATOR, USER_BYTES, block, filled, filler, image_of,
                                   message)

# Around the right ones, and those that are 184 in a byte.
WRONG_LENGTHS = [0, 1, 2, 15, 16, 17, 29, 100, 159, 160, 161, 180, 182, 183, 185, 186, 187, 188, 192, 368, 440,
                 540, 542, 543, 545, 546, 548, 696, 924, 926, 927, 929, 930, 932, 952, 1024, 1099, 1100]


def wrong_lengths(s, some, ways):
    """1, for images that would be right but for their length: with a reading, with
    none, with what passes, with another message."""
    dice = s.dice
    for length in some:
        size = max((size for size in USER_BYTES if 4 * size + 4 <= length + 1), default=45)
        fronts = [message(100, dice.below(2 ** 32)), [TERMINATOR], [0x01, 0xFF, 0xFF, 0xFF], block(MESSAGE, [])]
        for front in fronts[:ways]:
            image = image_of(size, filled(front, size), **s.outside()) + dice.bytes(1100)
            s.screen(dice.between(100, 1000), image[:length])


def right_and_wrong_lengths(s):
    """The same image a byte shorter, whole, and a byte longer."""
    for size in USER_BYTES:
        image = image_of(size, filled(message(100, s.dice.below(2 ** 32)), size), **s.outside())
        for cut in (image[:-1], image, image + [0], image + [0] * 4, image[:-4], image):
            s.screen(s.dice.between(0, 1500), cut)


def any_lengths(s):
    wrong_lengths(s, [*s.dice.some(6, WRONG_LENGTHS), s.dice.below(1101)], s.dice.between(1, 4))


def put(image, place, data):
    """The image with these bytes at a place, so far as it reaches."""
    return (image[:place] + list(data) + image[place + len(data):])[:len(image)]


def readings_outside(s, size, starts):
    """A reading that begins before the user pages, or behind them: it isn't seen.
    The user pages hold blocks and 00h, with FEh and without."""
    room = USER_BYTES[size]
    for start in starts:
        for area in ([NULL] * room, filler(s.dice, room),
                     (filler(s.dice, s.dice.below(room)) + [TERMINATOR] * room)[:room]):
            image = image_of(size, area, **s.outside())
            s.screen(s.dice.below(900), put(image, start, message(0, s.dice.one_of([0, 0x11000000]))))


def all_readings_outside(s):
    end = 16 + USER_BYTES[45]
    readings_outside(s, 45, [*range(16), *range(end, end + 12)])


def some_readings_outside(s, size):
    end = 16 + USER_BYTES[size]
    readings_outside(s, size, [0, 3, 12, 14, end, end + 11])


def before_the_user_pages(s):
    """Page 3 as a block, as 00h, as FEh: the walk begins behind it."""
    dice = s.dice
    for page_3 in ([0x01, 0x02, 0, 0], [0x01, 0x03, 0, 0], [0x01, 0x0F, 0, 0], [0x00] * 4, [TERMINATOR] * 4,
                   [0x00, 0x00, 0x00, TERMINATOR], [0, 0, MESSAGE, 0x0B], [0, 0, 0, MESSAGE],
                   [MESSAGE, 0x02, 0, 0], [MESSAGE, 0x0F, 0xD5, 0x00], [0xFF] * 4, [0x01, 0xFF, 0x00, 0x00]):
        s.show_behind([], page_3=page_3)
        s.show_behind(filler(dice, dice.below(30)), page_3=page_3)
        s.show([TERMINATOR], page_3=page_3)


def behind_the_user_pages(s, size):
    """FEh, a block, 00h or a message first behind the user pages, which end
    without FEh: 20."""
    for lock_page in ([TERMINATOR, 0, 0, 0], [0x01, 0x01, 0, 0], [0, 0, 0, 0], [MESSAGE, 0x00, 0, 0],
                      [MESSAGE, 0xFF, 0, 0], [0xFF, 0xFF, 0xFF, 0xFF]):
        s.show([NULL] * USER_BYTES[size], size, lock_page=lock_page)
        s.show(filler(s.dice, USER_BYTES[size]), size, lock_page=lock_page)


def settings_that_dont_matter(s, size, pages):
    """Locks, password and a mirror over a reading, and what page 3 says: the
    stored bytes are walked."""
    dice = s.dice
    for page in pages:
        front = filler(dice, 4 * (page - 4))
        for wishes in ({"page_2": [0, 0, 0xFF, 0xFF]}, {"lock_page": [0xFF, 0xFF, 0xFF, 0]},
                       {"auth0": 0, "access": access_byte(prot=1)},
                       {"auth0": page, "access": access_byte(prot=1)},
                       {"page_3": (0, 0, 0, 0)}, {"page_3": (0xE1, 0x10, 0x00, 0x0F)},
                       {"page_3": (0xE1, 0x10, 0x01, 0)}, {"page_3": (0xE1, 0x10, 0xFF, 0)}):
            s.show_behind(front, size, **wishes)
        for mode in (0x40, 0x50, 0x80, 0xC0, 0xF0):
            mirrored(s, size, front, mode, page)


def any_settings(s, size):
    last = LAYOUT_OF_SIZE[size].lock_page - 5
    settings_that_dont_matter(s, size, [s.dice.between(4, last), s.dice.between(4, min(last, 20))])


def mirrored(s, size, front, mode, page):
    """A reading on whose page the first settings page puts a mirror."""
    dice = s.dice
    seconds = dice.below(2 ** 31)
    area = filled(front + message(seconds, dice.below(2 ** 32)), size)
    image = image_of(size, area, **{**s.outside(), "access": access_byte(counter_on=1)})
    settings = 4 * LAYOUT_OF_SIZE[size].settings[0]
    s.screen(seconds + dice.below(2000), put(image, settings, [mode, 0, page, 0xFF]))


def stored(s):
    wrong_lengths(s, [length for length in WRONG_LENGTHS if length < 200], 4)
    wrong_lengths(s, [length for length in WRONG_LENGTHS if length >= 200], 1)
    wrong_lengths(s, [543, 545, 927, 929], 4)
    right_and_wrong_lengths(s)
    all_readings_outside(s)
    before_the_user_pages(s)
    settings_that_dont_matter(s, 45, [4, 8, 14, 20, 0x22])
    settings_that_dont_matter(s, 231, [0xC1])


def stored_of_size(s, size):
    if size > 45:
        some_readings_outside(s, size)
    behind_the_user_pages(s, size)


OF_ANY_KIND = [any_lengths, before_the_user_pages]
OF_ANY_SIZE = [behind_the_user_pages, any_settings, some_readings_outside]
RARE = [right_and_wrong_lengths, all_readings_outside]
