"""The CRC_A behind answers."""

from rules.crc import BEFORE_A_BYTE, CHECKS, START
from rules.crc_answers import PAGES
from scenes.crc import ending_at, leading_to
from scenes.images import mirror_bytes

FIRST = 4                       # of the user pages
LARGEST = 231


def image_of(s, rows, **wishes):
    """An image of the largest size with these pages from the first user page on, and
    any behind them; nothing is mirrored. The tag is in ACTIVE."""
    dice = s.dice
    s.image(LARGEST, mirror=mirror_bytes(),
            user=lambda page: rows[page - FIRST] if page - FIRST < len(rows) else dice.four(), **wishes)
    s.active()


def fast_reads(s, size, counts):
    """FAST_READ of so many pages, some of which are under password: each shows that
    the tag is still authenticated. Now and then the record."""
    dice, auth0 = s.dice, size - size // 4
    s.image(size, auth0=auth0, mirror=mirror_bytes())
    s.active(authenticated=True)
    for count in counts:
        end = dice.between(max(count - 1, auth0), size - 1)
        s.command(0x3A, end - count + 1, end)
        if count % 8 == 0:
            s.say("tag")
    s.look_at_radio()


def single_pages(s, rows):
    """Pages, each read by itself."""
    image_of(s, rows)
    for page in range(FIRST, FIRST + len(rows)):
        s.command(0x3A, page, page)
        if page % 8 == 0:
            s.say("tag")


def each_low_half(s):
    """Each low half at the first byte of an answer and at the last."""
    lasts = s.dice.shuffled(range(256))
    rows = [ending_at([first ^ START % 256, *s.dice.bytes(2)], last) for first, last in enumerate(lasts)]
    single_pages(s, rows[:128])
    single_pages(s, rows[128:])


def one_bit_alone(s):
    """A page in which one bit is written, between pages of 00h: READs in which it is
    the first page, the second, the third and the last."""
    image_of(s, [[0x00] * 4] * 140)
    s.command(0x30, FIRST)
    for bit in range(32):
        page = 8 + 4 * bit
        s.command(0xA2, page, *(1 << bit).to_bytes(4, "little"))
        for first in range(page - 3, page + 1):
            s.command(0x30, first)
        s.say("tag")


def alike(s, byte):
    """Answers all of whose bytes are the same, by READ and by FAST_READ."""
    image_of(s, [[byte] * 4] * 222)
    s.command(0x30, FIRST)
    for count in (1, 2, 3, 4, 5, 8, 16, 31, 32, 33, 63, 64, 65, 127, 128, 129, 222):
        s.command(0x3A, FIRST, FIRST + count - 1)


def rare_registers(s):
    """A byte that finds the register at 0000h, at FFFFh and so on, in the middle of an
    answer; and checks that are."""
    dice = s.dice
    answers = [leading_to(dice.bytes(2), register) + [behind, *dice.bytes(3)]
               for register in BEFORE_A_BYTE for behind in (0x00, 0xFF, dice.byte())]
    answers += [leading_to(dice.bytes(6), check) for check in CHECKS]
    image_of(s, [answer[at:at + 4] for answer in answers for at in (0, 4)])
    for place in range(len(answers)):
        first = FIRST + 2 * place
        s.command(0x3A, first, first + 1)
    s.look_at_radio()


def some_fast_reads(s, size):
    fast_reads(s, size, s.dice.some(4, range(1, size + 1)))


def stored(s):
    each_low_half(s)
    one_bit_alone(s)
    alike(s, 0x00)
    alike(s, 0xFF)
    rare_registers(s)
    for size, counts in PAGES.items():
        fast_reads(s, size, counts)


OF_ANY_SIZE = [some_fast_reads]
RARE = [rare_registers, one_bit_alone]
