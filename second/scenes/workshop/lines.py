"""Lines, good and bad."""

from scenes.workshop.areas import filled, image_of, message
from workshop.reading import LARGEST_IMAGE


# An image with a reading of 5 watts at second 100, as it is written.
IMAGE = bytes(image_of(45, filled(message(100, 5), 45))).hex().upper().encode("ascii")

NUMBERS = [
    b"0", b"1", b"99", b"100", b"101", b"1000", b"1001", b"00100", b"0000000100", b"0000000000", b"00",
    b"12345", b"123456", b"1234567", b"12345678", b"123456789", b"1234567890", b"0123456789", b"4294967295",
    b"4294967294", b"3000000000", b"0000001000", b"0000001001", b"000000099"]

BAD_NUMBERS = [
    b"", b"-", b"-1", b"+1", b"+100", b"1.", b"1,000", b"0x64", b"1e2", b"64h", b"A", b"one", b" ", b"100 ",
    b"4294967296", b"4294967297", b"4294967395", b"4294967396", b"5000000000", b"9999999999", b"00000000100",
    b"00000000000", b"04294967295", b"10000000000", b"42949672960", b"18446744073709551716",
    b"000000000000000000100", b"1" * 40, b"1" * 300, b"--", b"10\t", b"1\x000", b"\xb2", b"\xb9\xb2", b"1_0",
    b"\xef\xbc\x91"]

BAD_IMAGES = [
    b"", b"--", b"-00", b"00-", b"-0", b"0-", b"- ", b"0", b"000", b"0G", b"G0", b"0x", b"0x00", b"00 00",
    b"00\t", b"\t", b"00\x00", b"\x00", b"\xff\xff", b"-\t", b"-\x00", b"+", b"none", b".", b"_", b"ab_c", b":;", b"@A",
    b"`a", b"/0", b"0:", b"fg", b"FG", b"00,00"]

BAD_LINES = [
    b"hello", b"screens", b"scree", b"s", b"helps", b"hel", b"Screen 100 -", b"SCREEN 100 -", b"screeN 100 -",
    b"Help", b"HELP", b"hElp", b"\tscreen 100 -", b"screen\t100 -", b"screen\t", b"help\t", b"\thelp", b" help",
    b"  help", b" ", b"  ", b" # x", b"\t# x", b"help ", b"help  ", b"help me", b"help help", b"help screen",
    b"help -", b"screen", b"screen ", b"screen  ", b"screen 100", b"screen 100 ", b"screen 100  ", b"screen -",
    b"screen - -", b"screen  100 -", b"screen 100  -", b"screen 100 - ", b"screen 100 - -", b"screen 100 - 00",
    b"screen 100 00 00", b"screen 100 00 -", b" screen 100 -", b"screen100 -", b"screen-100 -", b"screen,100,-",
    b"screen\x00100 -", b"scr\xebn 100 -", b"\xff", b"\x00", b"screen\x00", b"help\x00", b"h\xe9lp",
    b"image 00", b"show", b"buffer 5", b"frame 7 26", b"tag", b"bus", b"field", b"live 5", b"refused 1", b"error", b"- 100",
    b"100 -", b"-", b"00", b"?", b"hello ", b"hello  there", b"Screen  100 -", b"SCREEN ", b"x\t",
    b"hello 1 2 3", b"hello \x00", b"hello \xff", b"nscreen 100 -", b"quit", b"exit", b"screen screen 100 -", b"help;",
    b"screen;100;-", b"screen\xa0100 -"]

GOOD_LINES = [
    b"help", b"", b"#", b"##", b"# #", b"# a comment", b"#help", b"#screen 100 -", b"# \t\r\0 \xff odd bytes",
    b"screen 0 -", b"screen 0000000000 -", b"screen 4294967295 -", b"screen 7 00", b"screen 7 fE",
    b"screen 7 a5c3"]


def numbers(s):
    """The present second in each way that it can be written, and others."""
    for number in NUMBERS + BAD_NUMBERS:
        s.say(b"screen " + number + b" " + IMAGE)


def images(s):
    """Images in small letters, in mixed ones, and what is no image."""
    for image in (IMAGE, IMAGE.lower(), IMAGE.title(), IMAGE.swapcase(), IMAGE[:-1], IMAGE + b"0", IMAGE[:-2],
                  IMAGE[1:], b"-" + IMAGE, IMAGE + b"-", IMAGE + b" ", b" " + IMAGE, IMAGE + b" -",
                  b"0x" + IMAGE, IMAGE[:100] + b" " + IMAGE[100:], IMAGE[:101] + b"g" + IMAGE[102:],
                  IMAGE[:7] + b"G" + IMAGE[8:]):
        s.say(b"screen 100 " + image)
        s.say(b"screen 1001 " + image)
    s.say(b"screen " + IMAGE + b" 100")
    for image in BAD_IMAGES:
        s.say(b"screen 100 " + image)


def each_digit(s):
    """Each byte as a digit of an image, and of a number."""
    for byte in [byte for byte in range(256) if byte not in b"\n "]:
        s.say(b"screen 1" + bytes([byte]) + b" -")
        s.say(b"screen 1 0" + bytes([byte]))
    for digit in b"0123456789abcdefABCDEF":
        s.say(b"screen 100 " + IMAGE[:38] + bytes([digit]) + IMAGE[39:])


def long_images(s):
    """Images of 1,100 bytes and of more."""
    for over in (-1, 0, 1, 2, s.dice.between(3, 1900)):
        s.say(b"screen 4294967295 " + b"5a" * (LARGEST_IMAGE + over))
    s.say(b"screen 100 " + b"5A" * LARGEST_IMAGE + b"5")


def odd_lines(s):
    """All bad lines among good ones, and lines that are skipped."""
    for line in s.dice.shuffled(BAD_LINES + GOOD_LINES):
        s.say(line)
    s.say(b"screen 100 " + IMAGE)


def spoiled_lines(s, amount):
    """Good lines with one character changed, left out, or put in."""
    dice = s.dice
    for _ in range(amount):
        line = dice.one_of([b"help", b"screen 100 -", b"screen 5 00", b"screen 4294967295 -", b"help\r",
                            b"screen 100 a5A5\r", b"screen 0000000007 -"])
        place = dice.below(len(line) + 1)
        byte = bytes([dice.one_of([0x20, 0x09, 0x2D, 0x30, 0x41, 0x61, 0x67, 0x0D, dice.byte()])])
        byte = b"" if byte == b"\n" else byte
        s.say(line[:place] + byte + line[place + dice.below(2):])


def spoiled_screen_lines(s, amount):
    """The same with a whole image."""
    dice = s.dice
    for _ in range(amount):
        line = b"screen %d " % dice.between(90, 1100) + IMAGE
        place = dice.below(len(line) + 1)
        byte = bytes([dice.one_of([0x20, 0x2D, 0x30, 0x41, 0x61, 0x67, 0x0D, 0x32])])
        s.say(line[:place] + byte + line[place + dice.below(2):])


def any_spoiled_lines(s):
    spoiled_lines(s, s.dice.between(20, 60))
    spoiled_screen_lines(s, s.dice.between(5, 20))


def stored(s):
    numbers(s)
    images(s)
    each_digit(s)
    long_images(s)
    odd_lines(s)
    spoiled_lines(s, 850)
    spoiled_screen_lines(s, 80)


OF_ANY_KIND = [any_spoiled_lines]
RARE = [numbers, images, each_digit, long_images, odd_lines]
