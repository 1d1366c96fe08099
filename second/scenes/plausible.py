"""Images and commands as they might be met: settings, data and page numbers at
which some rule changes.
"""

from rules.mirror import LENGTHS, MODES
from scenes.images import LAYOUT_OF_SIZE, access_byte, mirror_bytes
from tag.bits import with_crc
from tag.frames import COMMANDS
from tag.layout import LAYOUTS


def plausible_image(s, size=None):
    """An image whose settings let many rules be seen."""
    dice = s.dice
    size = size or dice.size()
    authlim = dice.one_of([0, 0, dice.below(8)])
    locks = dice.one_of([lambda: 0, dice.sparse_byte, dice.byte])
    s.image(size,
            page_2=[dice.byte(), dice.byte(), locks(), locks()],
            page_3=dice.one_of([[0xE1, 0x10, 0x12, 0x00], [0, 0, 0, 0], dice.four()]),
            lock_page=[locks(), locks(), locks(), locks()],
            mirror=plausible_mirror(s, size), auth0=plausible_auth0(s, size),
            access=access_byte(prot=dice.below(2), settings_lock=int(dice.one_in(6)),
                               counter_on=int(not dice.one_in(3)),
                               counter_under_password=int(dice.one_in(3)), authlim=authlim),
            counter=plausible_counter(s),
            failed=dice.one_of([0, 0, 0, max(authlim - 1, 0), authlim, dice.byte()]))


def plausible_auth0(s, size):
    edges = [0, 1, 2, 3, 4, 5, 15, 16] + list(range(size - 6, size + 1))
    return s.dice.one_of([0xFF, 0xFF, s.dice.one_of(edges), s.dice.one_of(edges), s.dice.byte()])


def plausible_mirror(s, size):
    """The first three bytes of the settings: now and then no mirror, often one at an
    edge of the user pages."""
    dice = s.dice
    mode = dice.one_of([None, *MODES])
    last = last_start(size, mode or "both")
    start = dice.one_of([dice.between(16, last), dice.between(16, last), dice.between(0, 20),
                         last + dice.between(-4, 4), dice.below(4 * 256)])
    return mirror_bytes(mode, start, dice.below(16), dice.byte())


def last_start(size, mode):
    """The last image byte from which the characters of this mode fit."""
    return 4 * LAYOUT_OF_SIZE[size].lock_page - LENGTHS[mode]


def plausible_counter(s):
    return s.dice.one_of([0, 0xFE, 0xFF, 0xFFFE, 0xFFFF, 0x1FFFF, 0xFFFFFD, 0xFFFFFE, 0xFFFFFF,
                          s.dice.below(2 ** 24)])


def random_image(s):
    """Nothing but dice."""
    s.usual_buffer()
    s.raw_image(s.dice.bytes(s.dice.one_of(list(LAYOUTS))))
    s.usual_memory()


def any_image(s):
    if s.dice.one_in(8):
        random_image(s)
    else:
        plausible_image(s)


def arguments_of(s, name):
    """Plausible bytes behind a command's code."""
    dice = s.dice
    size = s.layout.size
    page = dice.one_of(pages_at_edges(s))
    if name == "READ":
        return [page]
    if name == "FAST_READ":
        start = dice.below(size)
        return dice.one_of([[page, page], [start, min(start + dice.below(6), size)],
                            [start, dice.below(size + 2)], [page, page - 1 if page else 0]])
    if name == "WRITE":
        return [page] + plausible_data(s, page)
    if name == "PWD_AUTH":
        pwd = list(s.password())
        if dice.one_in(3):
            pwd[dice.below(4)] ^= 1 << dice.below(8)
        return pwd
    return {"HLTA": [0x00], "GET_VERSION": [], "READ_CNT": [0x02]}[name]


def pages_at_edges(s):
    """Page numbers at which some rule changes."""
    dice = s.dice
    size, auth0, mirror = s.layout.size, s.tag_image.auth0(), s.tag_image.mirror_start() // 4
    edges = [0, 1, 2, 3, 4, 9, 10, 15, 16, 17, 18, 0x81, 255, dice.below(size), dice.below(size)]
    edges += range(size - 8, size + 2)
    edges += [auth0 - 4, auth0 - 3, auth0 - 2, auth0 - 1, auth0, auth0 + 1]
    edges += [mirror - 4, mirror - 1, mirror, mirror, mirror + 1, mirror + 3, mirror + 5]
    return [page for page in edges if 0 <= page <= 255]


def plausible_data(s, page):
    """Four bytes to write: settings that leave the tag of use, locks a few at a time."""
    dice = s.dice
    if page == s.layout.settings[0]:
        return [*plausible_mirror(s, s.layout.size), plausible_auth0(s, s.layout.size)]
    if page == s.layout.settings[1]:
        return [dice.one_of([0x00, 0x10, 0x18, 0x80, 0x90, dice.byte()]), 0x05, 0, 0]
    if page in (2, s.layout.lock_page):
        return [dice.sparse_byte() & dice.byte() for _ in range(4)]
    return dice.four()


def any_command_bits(s):
    dice = s.dice
    code = dice.one_of([0x30, 0x30, 0x30, 0x3A, 0x3A, 0xA2, 0xA2, 0xA2, 0xA2, 0x60, 0x39, 0x39,
                        0x1B, 0x1B, 0x1B, 0x50])
    return with_crc([code] + arguments_of(s, COMMANDS[code][0]))
