"""Where the mirror may begin, and where it may not."""

from rules.mirror import MODES
from scenes.images import LAYOUT_OF_SIZE, access_byte
from scenes.mirror import any_mode, any_start, choose, into_new_field, read, read_around
from scenes.plausible import last_start


def starts_at_edges(s, size, mode):
    """Image bytes around the first and the last from which the characters fit, and
    one in each page behind the user pages."""
    dice, last = s.dice, last_start(size, mode)
    layout = LAYOUT_OF_SIZE[size]
    pages_behind = [*range(layout.lock_page - 1, size + 1), dice.between(size + 1, 0xFE), 0xFF]
    return [0, 4 * 1 + dice.below(4), 4 * 2 + dice.below(4), 12, 14, 15, *range(16, 20),
            *range(last - 3, last + 5), *[4 * page + dice.below(4) for page in pages_behind]]


def edges(s, size, mode):
    """A mirror from each of these starts, chosen by WRITE and read in a field of its own."""
    s.image(size, auth0=0xFF, access=access_byte(counter_on=1))
    s.active()
    for start in s.dice.shuffled(starts_at_edges(s, size, mode)):
        choose(s, mode, start)
        into_new_field(s)
        read_around(s)


def each_byte(s, size, mode):
    """A mirror from each byte of a page."""
    page = any_start(s, size, mode) // 4
    s.image(size, auth0=0xFF, access=access_byte(counter_on=1))
    s.active()
    for byte in s.dice.shuffled(range(4)):
        choose(s, mode, 4 * page + byte)
        read_around(s)


def none_chosen(s, size):
    """No mirror, with a start from which any would fit."""
    s.image(size, auth0=0xFF, access=access_byte(counter_on=1))
    s.active()
    for byte in range(4):
        start = 4 * (any_start(s, size, "both") // 4) + byte
        choose(s, None, start, low_bits=s.dice.one_of([0xF, s.dice.below(16)]))
        read(s, 0x3A, start // 4, start // 4 + 5)


def any_edges(s, size):
    edges(s, size, any_mode(s))


def any_byte(s, size):
    each_byte(s, size, any_mode(s))


def stored_of_size(s, size):
    for mode in MODES:
        edges(s, size, mode)
        each_byte(s, size, mode)
    none_chosen(s, size)


OF_ANY_SIZE = [any_edges, any_byte, none_chosen]
