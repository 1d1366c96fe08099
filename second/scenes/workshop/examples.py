"""Lines of `workshop` with the answers that the words of document 02 give.

Every example is preceded by a comment line that names it. Bytes and answers are
written out here; they are held against the second opinion whenever the examples
are made, and a difference stops the making.
"""

from scenes.images import build_image
from scenes.workshop.areas import USER_BYTES
from workshop.player import Player

# 500 watts at second 100, and how they are written.
READING = "D50008 64000000 F4010000"
WRITTEN = "030BD5000864000000F4010000FE"


class Examples:
    """Collects the lines, and holds each answer against the one that is due."""

    def __init__(self):
        self.player = Player()
        self.lines = []

    def named(self, name):
        self.lines.append(f"# {name}".encode("ascii"))

    def line(self, line, due):
        self.lines.append(line.encode("ascii"))
        given = self.player.answer(line.encode("ascii")).decode("ascii")
        if given != due:
            raise AssertionError(f"{line}: due {due}, given {given}")

    def shows(self, present, area, due, size=45):
        """A `screen` line on an image with these bytes from page 04h on, and FFh
        behind them."""
        data = list(bytes.fromhex(area))
        data += [0xFF] * (USER_BYTES[size] - len(data))
        image = build_image(size, user=lambda page: data[4 * page - 16:4 * page - 12])
        self.line(f"screen {present} {bytes(image).hex().upper()}", due)


def ages(e):
    e.named("live if the reading is 0 to 900 seconds old, old if more, ahead if it lies in the future")
    for size in (45, 135, 231):
        for present, word in ((100, "live"), (101, "live"), (999, "live"), (1000, "live"), (1001, "old"),
                              (99, "ahead"), (0, "ahead"), (4294967295, "old")):
            e.shows(present, "030B" + READING, f"{word} 500", size)


def bytes_low_first(e):
    e.named("seconds, then watts, each four bytes low first")
    e.shows(0x01020304, "030B D50008 04030201 08070605", f"live {0x05060708}")
    e.shows(0x04030201, "030B D50008 04030201 08070605", f"old {0x05060708}")
    e.shows(0x05060708, "030B D50008 04030201 08070605", f"old {0x05060708}")
    e.shows(0x01020303, "030B D50008 04030201 FFFFFFFF", "ahead 4294967295")
    e.shows(0xFFFFFFFF, "030B D50008 FFFFFFFF 00000000", "live 0")
    e.shows(0, "030B D50008 FFFFFFFF 00000000", "ahead 0")


def blocks(e):
    e.named("00h is one byte, FEh ends")
    e.shows(100, "000000 030B" + READING, "live 500")
    e.shows(100, "FE 030B" + READING, "refused 20")
    e.shows(100, "00 FE 00", "refused 20")
    e.named("Take the first block of type 03h")
    e.shows(100, "0103A00C34 030B" + READING, "live 500")
    e.shows(100, "0103FEFEFE FD00 0202030B 030B" + READING, "live 500")
    e.shows(100, "0300 030B" + READING, "refused 22")
    e.shows(100, "030B" + READING + "030B D50008 64000000 F5010000", "live 500")
    e.shows(100, "010D 030B" + READING + "FE", "refused 20")
    e.named("a factory-fresh tag holds an empty one")
    e.shows(100, "0103A00C34 0300 FE", "refused 22")


def lengths(e):
    e.named("lengths are one byte or FFh and two, high byte first")
    e.shows(100, "03FF000B" + READING, "live 500")
    e.shows(100, "03FF0B00" + READING, "refused 21")
    e.shows(100, "01FF0002AABB 030B" + READING, "live 500")
    e.shows(100, "01FF0100" + "AB" * 256 + "030B" + READING, "live 500", 135)
    e.shows(100, "01FF00FF" + "AB" * 255 + "030B" + READING, "live 500", 231)
    e.shows(100, "01FE" + "AB" * 254 + "030B" + READING, "live 500", 231)


def the_end(e):
    e.named("20 no such block, 21 a length, or the bytes it counts, passes the user pages")
    for size, room in ((45, 144), (135, 504), (231, 888)):
        e.shows(100, "00" * room, "refused 20", size)
        e.shows(100, "00" * (room - 1) + "FE", "refused 20", size)
        e.shows(100, "00" * (room - 2) + "0100", "refused 20", size)
        e.shows(100, "00" * (room - 3) + "0101AA", "refused 20", size)
        e.shows(100, "00" * (room - 1) + "01", "refused 21", size)
        e.shows(100, "00" * (room - 1) + "03", "refused 21", size)
        e.shows(100, "00" * (room - 2) + "0101", "refused 21", size)
        e.shows(100, "00" * (room - 2) + "01FF", "refused 21", size)
        e.shows(100, "00" * (room - 3) + "01FF00", "refused 21", size)
        e.shows(100, "00" * (room - 4) + "01FF0000", "refused 20", size)
        e.shows(100, "00" * (room - 4) + "01FF0001", "refused 21", size)
        e.shows(100, "00" * (room - 2) + "0300", "refused 22", size)
        e.shows(100, "00" * (room - 13) + "030B" + READING, "live 500", size)
        e.shows(100, "00" * (room - 12) + "030B" + READING[:-2], "refused 21", size)


def no_readings(e):
    e.named("22 not a reading: exactly D5 00 08 and eight bytes")
    for message in ("0300", "030AD50008 64000000 F40100", "030CD50008 64000000 F4010000 00",
                    "030BD40008 64000000 F4010000", "030BD50108 64000000 F4010000",
                    "030BD50009 64000000 F4010000", "03FF0000", "03FF000CD50008 64000000 F4010000 00",
                    "0303D50008", "030B" + "00" * 11):
        e.shows(100, message, "refused 22")


def wrong_images(e):
    e.named("a wrong image is 1, tested first")
    image = bytes(build_image(45, user=lambda page: [0xFE] * 4)).hex()
    e.line("screen 100 -", "refused 1")
    e.line("screen 100 00", "refused 1")
    e.line(f"screen 100 {image[:-2]}", "refused 1")
    e.line(f"screen 100 {image}", "refused 20")
    e.line(f"screen 100 {image}00", "refused 1")
    e.line("screen 100 " + "FE" * 1100, "refused 1")


def written(e):
    e.named("03h 0Bh, the eleven bytes, FEh, and the rest as found")
    e.line("reading 100 500 " + "00" * 14, "area 030BD5000864000000F4010000FE")
    e.line("reading 100 500 " + "FF" * 20, "area 030BD5000864000000F4010000FEFFFFFFFFFFFF")
    e.line("reading 100 500 " + "00" * 20, "area 030BD5000864000000F4010000FE000000000000")
    e.line("reading 100 500 000102030405060708090a0b0c0d0e0f1011", "area 030BD5000864000000F4010000FE0E0F1011")
    e.line("reading 99 1 030BD5000864000000F4010000FE030B", "area 030BD500086300000001000000FE030B")
    e.line("reading 5 6 0314" + "AB" * 20 + "FE", "area 030BD500080500000006000000FE" + "AB" * 8 + "FE")
    for room in (144, 184, 260, 504, 888):
        e.line("reading 100 500 " + "A5" * room, f"area {WRITTEN}" + "A5" * (room - 14))
    e.line("reading 100 500 " + "5a" * 1100, f"area {WRITTEN}" + "5A" * 1086)


def written_over(e):
    e.named("03h 0Bh, the eleven bytes, FEh, whatever was there")
    for held in ("00" * 14, "FF" * 14, "FE" * 14, WRITTEN, "030BD5000863000000F4010000FE",
                 "030BD5000865000000F4010000FE", "030BD5000864000000F5010000FE", "030BD5000864000000F401000000",
                 "030BD5000864000000F4010000FF", "03FF000BD5000864000000F40100", "0300FE" + "00" * 11,
                 "0103A00C340300FE" + "00" * 6, "0000" + WRITTEN[:24], "0312" + "AB" * 12):
        for rest in ("AB" * 17, "FE" + "CD" * 17, WRITTEN + "EF"):
            e.line(f"reading 100 500 {held}{rest}", f"area {WRITTEN}{rest}")
    for place in range(14):
        held = bytearray.fromhex(WRITTEN)
        held[place] ^= 0xFF
        e.line(f"reading 100 500 {held.hex()}", f"area {WRITTEN}")


def written_low_first(e):
    e.named("seconds, then watts, each four bytes low first")
    for seconds, watts, eight in ((0, 0, "0000000000000000"), (1, 256, "0100000000010000"),
                                  (0x01020304, 0x05060708, "0403020108070605"),
                                  (0xA1B2C3D4, 0xFEDCBA98, "D4C3B2A198BADCFE"),
                                  (4294967295, 0, "FFFFFFFF00000000"), (0, 4294967295, "00000000FFFFFFFF"),
                                  (4294967295, 4294967295, "FFFFFFFFFFFFFFFF"),
                                  (2147483648, 16777216, "0000008000000001")):
        e.line(f"reading {seconds} {watts} " + "33" * 15, f"area 030BD50008{eight}FE33")


def areas_too_short(e):
    e.named("23, area under 14 bytes")
    e.line("reading 100 500 -", "refused 23")
    e.line("reading 100 500 00", "refused 23")
    e.line("reading 100 500 " + "00" * 13, "refused 23")
    e.line("reading 100 500 030BD5000864000000F4010000", "refused 23")
    e.line("reading 100 500 " + "00" * 14, "area 030BD5000864000000F4010000FE")
    e.line("reading 100 500 " + "00" * 15, "area 030BD5000864000000F4010000FE00")


def written_and_read_back(e):
    e.named("Written at page 04h of any right-length image, it is read back by the screen")
    for size, room in ((45, 144), (135, 504), (231, 888)):
        e.shows(1000, "FF" * room, "refused 21", size)
        e.line("reading 1000 4321 " + "FF" * room, "area 030BD50008E8030000E1100000FE" + "FF" * (room - 14))
        for present, word in ((999, "ahead"), (1000, "live"), (1900, "live"), (1901, "old")):
            e.shows(present, "030BD50008E8030000E1100000FE", f"{word} 4321", size)
        e.shows(1000, "FF" * room, "refused 21", size)


def lines(e):
    e.named("the lines of the workshop program")
    e.line("help", "commands: screen SECONDS IMAGE, reading SECONDS WATTS AREA, help")
    e.line("screen 4294967295 -", "refused 1")
    e.line("screen 0000000000 -", "refused 1")
    e.line("screen 4294967296 -", "error: not how this command is written")
    e.line("screen 00000000000 -", "error: not how this command is written")
    e.line("screen 100", "error: not how this command is written")
    e.line("screen 100 " + "00" * 1101, "error: not how this command is written")
    e.line("Screen 100 -", "error: no such command")
    e.line("reading 4294967295 4294967295 -", "refused 23")
    e.line("reading 0000000000 0000000000 -", "refused 23")
    e.line("reading 4294967296 0 -", "error: not how this command is written")
    e.line("reading 0 4294967296 -", "error: not how this command is written")
    e.line("reading 0 00000000000 -", "error: not how this command is written")
    e.line("reading 100 " + "00" * 20, "error: not how this command is written")
    e.line("reading 100 500", "error: not how this command is written")
    e.line("reading 100 500 " + "00" * 1101, "error: not how this command is written")
    e.line("Reading 100 500 -", "error: no such command")
    e.line("read 100 500 -", "error: no such command")


EXAMPLES = [written, written_over, written_low_first, areas_too_short, ages, bytes_low_first, blocks, lengths,
            the_end, no_readings, wrong_images, written_and_read_back, lines]


def example_lines():
    examples = Examples()
    for example in EXAMPLES:
        example(examples)
    return examples.lines
