"""The lines `reading`, good and bad."""

from scenes.workshop.lines import BAD_IMAGES, BAD_NUMBERS, IMAGE, NUMBERS
from workshop.reading import LARGEST_IMAGE

# An area, as it is written: digits and letters, of which no two bytes behind the
# first fourteen are alike.
AREA = b"5A" * 14 + b"0123456789ABCDEFA0B1C2D3E4F5"

BAD_LINES = [
    b"readings", b"readin", b"rea", b"r", b"read", b"read ack", b"read nak", b"readings 1 2 -",
    b"Reading 1 2 -", b"READING 1 2 -", b"readinG 1 2 -", b"\treading 1 2 -", b"reading\t1 2 -", b"reading\t",
    b" reading 1 2 -", b"reading", b"reading ", b"reading  ", b"reading 1", b"reading 1 ", b"reading 1 2",
    b"reading 1 2 ", b"reading 1 2  ", b"reading 1 -", b"reading -", b"reading - -", b"reading - - -",
    b"reading - 2 -", b"reading 1 - -", b"reading 1 -  -", b"reading  1 2 -", b"reading 1  2 -",
    b"reading 1 2  -", b"reading 1 2 - ", b"reading 1  -", b"reading  1 -", b"reading 1 2 - -",
    b"reading 1 2 3 -", b"reading 1 2 00 00", b"reading 1 2 3 4 5", b"reading 1 2 - 3 4 5 6", b"reading1 2 -",
    b"reading-1 2 -", b"reading,1,2,-", b"reading 1,2 -", b"reading 1 2,-", b"reading 1:2 -",
    b"reading\x001 2 -", b"r\xe9ading 1 2 -", b"reading\x00", b"reading 1\t2 -", b"reading 1 2\t-",
    b"reading 1 2 -\t", b"reading \x00 2 -", b"reading 1 \x00 -", b"reading 1 2 \x00", b"reading \xb9 2 -",
    b"reading 1 \xb2 -", b"reading 1 2 \xb2\xb2", b"write 1 2 -", b"write 1 2 " + AREA, b"writer 1 2 -",
    b"area " + AREA, b"area 1 2 -", b"help reading", b"reading help", b"screen 1 2 -", b"screen 1 2 " + AREA,
    b"reading screen 1 -", b"screen reading 1 2 -", b"hello 1 2 " + AREA, b"hello 1 2 3 4", b"reading;1;2;-",
    b"reading\xa01 2 -", b"nreading 1 2 -", b"1 2 " + AREA, b"reading_1_2_-"]

GOOD_LINES = [
    b"reading 1 2 -", b"reading 0 0 -", b"reading 0000000000 0000000000 -", b"reading 4294967295 4294967295 -",
    b"reading 1 2 00", b"reading 1 2 " + AREA, b"reading 2 1 " + AREA, b"#reading 1 2 " + AREA,
    b"# reading", b"reading 1 2 " + AREA[:26], b"reading 1 2 " + AREA[:28], b"help"]


def numbers(s):
    """Seconds and watts in each way that they can be written, and others."""
    for number in NUMBERS + BAD_NUMBERS:
        s.say(b"reading " + number + b" 300 " + AREA)
        s.say(b"reading 70000 " + number + b" " + AREA)
    for number in NUMBERS:
        s.say(b"reading " + number + b" " + number + b" -")


def areas(s):
    """Areas in small letters, in mixed ones, and what is no area."""
    for area in (AREA, AREA.lower(), AREA.title(), AREA.swapcase(), AREA[:-1], AREA + b"0", AREA[:-2],
                 AREA[1:], b"-" + AREA, AREA + b"-", AREA + b" ", b" " + AREA, AREA + b" -", b"0x" + AREA,
                 AREA[:26], AREA[:27], AREA[:28], AREA[:29], AREA[:20] + b" " + AREA[20:],
                 AREA[:21] + b"g" + AREA[22:],
                 AREA[:33] + b"G" + AREA[34:], IMAGE, IMAGE.lower(), AREA + AREA.lower(), AREA.lower() + AREA):
        s.say(b"reading 100 200 " + area)
    for line in (b"reading " + AREA + b" 100 200", b"reading 100 " + AREA + b" 200", b"reading 100 " + AREA,
                 b"reading " + AREA, b"reading " + AREA + b" " + AREA + b" " + AREA):
        s.say(line)
    for area in BAD_IMAGES:
        s.say(b"reading 100 200 " + area)


def each_digit(s):
    """Each byte as a digit of an area, and of watts."""
    for byte in [byte for byte in range(256) if byte not in b"\n "]:
        s.say(b"reading 1 2" + bytes([byte]) + b" " + AREA[:30])
        s.say(b"reading 1 2 " + AREA[:33] + bytes([byte]))
    for digit in b"0123456789":
        s.say(b"reading 10" + bytes([digit]) + b"0 20" + bytes([digit]) + b"0 " + AREA[:30])


def long_areas(s):
    """Areas of 1,100 bytes and of more, in the longest line there is and in others."""
    for over in (-1, 0, 1, 2, s.dice.between(3, 1900)):
        s.say(b"reading 4294967295 1234567890 " + b"5a" * (LARGEST_IMAGE + over))
    s.say(b"reading 4000000000 3000000000 " + b"A5" * LARGEST_IMAGE)
    s.say(b"reading 1 2 " + b"5A" * LARGEST_IMAGE)
    s.say(b"reading 1 2 " + b"5A" * LARGEST_IMAGE + b"5")
    s.say(b"reading 04294967295 1 " + b"5A" * LARGEST_IMAGE)


def odd_lines(s):
    """All bad lines among good ones."""
    for line in s.dice.shuffled(BAD_LINES + GOOD_LINES):
        s.say(line)
    s.say(b"reading 100 200 " + AREA)


def spoiled_lines(s, amount):
    """Good lines with one character changed, left out, or put in."""
    dice = s.dice
    for _ in range(amount):
        line = dice.one_of([b"reading 100 200 -", b"reading 5 60 " + AREA[:28],
                            b"reading 4294967295 17 " + AREA, b"reading 12 3456789 " + AREA + b"\r",
                            b"reading 0000000007 0000000008 " + AREA[:36]])
        place = dice.one_of([dice.below(len(line) + 1), dice.below(20)])
        byte = bytes([dice.one_of([0x20, 0x09, 0x2D, 0x30, 0x35, 0x41, 0x61, 0x67, 0x0D, dice.byte()])])
        byte = b"" if byte == b"\n" else byte
        s.say(line[:place] + byte + line[place + dice.below(2):])


def any_spoiled_lines(s):
    spoiled_lines(s, s.dice.between(20, 60))


def stored(s):
    numbers(s)
    areas(s)
    each_digit(s)
    long_areas(s)
    odd_lines(s)
    spoiled_lines(s, 400)


OF_ANY_KIND = [any_spoiled_lines]
RARE = [numbers, areas, each_digit, long_areas, odd_lines]
