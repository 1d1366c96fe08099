"""The reading that is written: seconds and watts, byte for byte."""

FULL = 2 ** 32 - 1
NUMBERS = [0, 1, 9, 10, 127, 128, 255, 256, 257, 999, 1000, 32767, 32768, 65535, 65536, 65537, 99999,
           2 ** 24 - 1, 2 ** 24, 2 ** 24 + 1, 2 ** 31 - 1, 2 ** 31, 2 ** 31 + 1, FULL - 1, FULL, 0x000000A5,
           0x0000A500, 0x00A50000, 0xA5000000, 0x12345678, 0x78563412, 0xFEDCBA98]
ENDS = [0, 1, 2 ** 31 - 1, 2 ** 31, FULL - 1, FULL]

# Bytes that mean something as a type, a length, or the beginning of a reading.
SPEAKING_NUMBERS = [0xFEFEFEFE, 0x03030303, 0x0B030B03, 0x0800D50B, 0xD5000803, 0xFF0B00FF, 0x000000FE,
                    0xFE000000, 0x00FE0300, 0x08D500FE]


def area(s):
    """A short area: fourteen bytes, or a few more."""
    return s.dice.bytes(14 + s.dice.one_of([0, s.dice.below(12)]))


def number_of(parts):
    """Four bytes, low first, as a number."""
    return int.from_bytes(bytes(parts), "little")


def numbers(s):
    """Seconds of each kind, and watts; one with any of the other."""
    for number in NUMBERS + SPEAKING_NUMBERS:
        s.reading(number, s.dice.below(2 ** 32), area(s))
        s.reading(s.dice.below(2 ** 32), number, area(s))
        s.reading(number, number, area(s))


def ends(s):
    """Both numbers at the two ends, and near them."""
    for seconds in ENDS:
        for watts in ENDS:
            s.reading(seconds, watts, area(s))


def each_byte(s):
    """Each of the eight bytes as 00h, FEh, FFh and another, the others all different;
    alone, and alone 00h."""
    dice = s.dice
    for place in range(8):
        for byte in (0x00, 0xFE, 0xFF, dice.between(1, 253)):
            eight = dice.some(8, range(1, 254))
            eight[place] = byte
            s.reading(number_of(eight[:4]), number_of(eight[4:]), area(s))
        for alone in (0x01, 0x80, dice.between(1, 255)):
            eight = [0] * 8
            eight[place] = alone
            s.reading(number_of(eight[:4]), number_of(eight[4:]), area(s))


def all_different(s):
    """Eight bytes that all differ: any other order is another area."""
    for _ in range(12):
        eight = s.dice.some(8, range(1, 254))
        s.reading(number_of(eight[:4]), number_of(eight[4:]), area(s))


def bit_by_bit(s):
    """Readings of which each differs from the one before in a single bit, written
    into the same area."""
    lent = area(s)
    seconds, watts = s.dice.below(2 ** 32), s.dice.below(2 ** 32)
    s.reading(seconds, watts, lent)
    for bit in s.dice.shuffled(range(64)):
        seconds, watts = seconds ^ (1 << bit) % 2 ** 32, watts ^ (1 << bit) >> 32
        s.reading(seconds, watts, lent)


def pairs(s):
    """Two readings in the same area: equal ones, exchanged ones, and those that
    differ by one, so that more than a byte is another; and equal ones elsewhere."""
    dice = s.dice
    lent = area(s)
    one, other = dice.below(2 ** 32), dice.below(2 ** 32)
    for seconds, watts in ((one, other), (one, other), (other, one), (one, other), (one, one), (other, other)):
        s.reading(seconds, watts, lent)
    for edge in (2 ** 8, 2 ** 16, 2 ** 24):
        for seconds, watts in ((edge - 1, one), (edge, one), (edge, edge), (edge, edge - 1), (edge - 1, edge)):
            s.reading(seconds, watts, lent)
    for _ in range(3):
        s.reading(one, other, area(s))


def stored(s):
    numbers(s)
    ends(s)
    each_byte(s)
    all_different(s)
    bit_by_bit(s)
    pairs(s)


OF_ANY_KIND = [numbers, ends, each_byte, all_different, bit_by_bit, pairs]
