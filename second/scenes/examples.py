"""The examples of document 01, and such as document 02 has in words, as lines, with
the answers they give; among them source document 004's three of the mirror.

Every example is preceded by a comment line that names it. The answers written
out here come from the documents' words; they are held against the second tag
whenever the examples are made, and a difference stops the making.
"""

from scenes.images import access_byte, build_image, mirror_bytes
from lines.player import Player
from tag.bits import bits_of, bytes_of, crc_a, with_crc

NAK0 = "answer 4 00"
NAK1 = "answer 4 01"
ACK = "answer 4 0A"

# Pages 0, 1 and 2 of every image here.
UID_PAGES = "1DA23007 110967EC 93480000"
FIRST_PAGES = UID_PAGES + "E1101200"    # with page 3


class Examples:
    """Collects the lines, and holds each answer against the one that is due."""

    def __init__(self):
        self.player = Player()
        self.lines = []

    def named(self, name):
        self.lines.append(f"# {name}".encode("ascii"))

    def line(self, line, due):
        self.lines.append(line.encode("ascii"))
        given = self.player.answer(line.encode("ascii")).decode("ascii")
        if given != due:
            raise AssertionError(f"{line}: due {due}, given {given}")

    def image(self, image):
        self.line("image " + as_hex(image), f"image {len(image)}")

    def shows(self, image):
        self.line("show", "image " + as_hex(image))

    def frame(self, data, due):
        """A frame of the bytes written in hex, and their CRC."""
        bits = with_crc(bytes.fromhex(data))
        self.line(f"frame {len(bits)} {as_hex(bytes_of(bits))}", due)

    def wake(self):
        self.line("frame 7 52", "answer 16 4400")

    def select_1(self):
        self.frame("9370 88 1DA230 07", data_with_crc("04"))

    def select_2(self):
        self.frame("9570 110967EC 93", data_with_crc("00"))

    def to_ready_2(self):
        self.wake()
        self.select_1()

    def to_active(self):
        """"WUPA and the two right SELECT frames reach ACTIVE in three frames"."""
        self.to_ready_2()
        self.select_2()

    def active_on(self, image):
        self.image(image)
        self.to_active()

    def counted(self, counter):
        """A READ was answered, and the counter of N=45 stands so; its failed count is 0."""
        self.line("tag", "tag active idle answered")
        self.line("show 2D", f"page {counter}00")

    def address(self, high, low, low_answer="ack"):
        self.line("start", "done")
        self.line("send A0", "ack")
        self.line(f"send {high}", "ack")
        self.line(f"send {low}", low_answer)


def as_hex(data):
    return bytes(data).hex().upper()


def data_with_crc(data):
    """The answer that gives these bytes, written in hex, and their CRC."""
    bits = with_crc(bytes.fromhex(data))
    return f"answer {len(bits)} {as_hex(bytes_of(bits))}"


def changed(image, places):
    """The image with some bytes changed."""
    return [places.get(place, byte) for place, byte in enumerate(image)]


def ascii_hex(text):
    """The bytes of these characters, written in hex."""
    return as_hex(text.encode("ascii"))


def mirrored_image(mirror, pages, access=access_byte(counter_on=1)):
    """Source document 004's images for its examples of the mirror: user pages are
    zeros but for some, and the counter is one below 00-10-2F."""
    return build_image(45, mirror=mirror, access=access, counter=0x00102E,
                       user=lambda page: bytes.fromhex(pages.get(page, "00000000")))


def check_bytes(e):
    e.named("UID 1D A2 30 11 09 67 EC has BCC0 07h, BCC1 93h")
    e.image(build_image(45))
    e.wake()
    e.line("frame 16 9320", "answer 40 881DA23007")
    e.select_1()
    e.line("frame 16 9520", "answer 40 110967EC93")
    e.select_2()


def read_rolls_at_size(e):
    e.named("N=231, READ E4h: pages E4h, E5h, E6h, 00h; E7h: NAK 0h")
    e.active_on(build_image(231, pwd=[1, 2, 3, 4], pack=[5, 6, 0, 0]))
    e.frame("30E4", data_with_crc("00050000 00000000 00000000 1DA23007"))
    e.frame("30E7", NAK0)


def read_rolls_at_auth0(e):
    e.named("AUTH0 60h, PROT 1, N=135: READ 5Fh gives 5Fh, 00h, 01h, 02h; 60h NAK 0h; 59h gives 59h-5Ch")
    e.active_on(build_image(135, auth0=0x60, access=access_byte(prot=1)))
    e.frame("305F", data_with_crc("5F5F5F5F" + UID_PAGES))
    e.frame("3059", data_with_crc("59595959 5A5A5A5A 5B5B5B5B 5C5C5C5C"))
    e.frame("3060", NAK0)


def read_one_page(e):
    e.named("AUTH0 01h, PROT 1: READ 00h gives page 0 four times")
    for size in (45, 135, 231):
        e.active_on(build_image(size, auth0=0x01, access=access_byte(prot=1)))
        e.frame("3000", data_with_crc("1DA23007 1DA23007 1DA23007 1DA23007"))


def fast_read_one_page(e):
    e.named("FAST_READ 04h 04h: four bytes; 05h 04h: NAK 0h")
    e.active_on(build_image(45))
    e.frame("3A0404", data_with_crc("04040404"))
    e.frame("3A0504", NAK0)


def block_bit_holds(e):
    e.named("clear locks; WRITE 02h FF FF 01 00, then 00 00 08 00: both ACK, byte 10 is 01h")
    image = build_image(45)
    e.active_on(image)
    e.frame("A202 FFFF0100", ACK)
    e.frame("A202 00000800", ACK)
    e.shows(changed(image, {10: 0x01}))


def page_3_gains(e):
    e.named("page 3 E1 10 12 00 with 00 01 00 00 becomes E1 11 12 00")
    image = build_image(45)
    e.active_on(image)
    e.frame("A203 00010000", ACK)
    e.frame("3A0303", data_with_crc("E1111200"))
    e.shows(changed(image, {12: 0xE1, 13: 0x11, 14: 0x12, 15: 0x00}))


def lock_bit_0(e):
    e.named("N=45, lock bit 0 locks 10h and 11h, not 12h")
    image = build_image(45, lock_page=[0x01, 0, 0, 0])
    e.active_on(image)
    e.frame("A210 01020304", NAK0)
    e.to_active()
    e.frame("A211 01020304", NAK0)
    e.to_active()
    e.frame("A212 01020304", ACK)
    e.shows(changed(image, {0x48: 1, 0x49: 2, 0x4A: 3, 0x4B: 4}))


def counter_at_its_end(e):
    e.named("counter on: FFFFFEh counts to FFFFFFh, and stays in the next field")
    e.active_on(build_image(45, access=access_byte(counter_on=1), counter=0xFFFFFE))
    e.frame("3004", data_with_crc("04040404 05050505 06060606 07070707"))
    e.frame("3902", data_with_crc("FFFFFF"))
    e.line("field", "field")
    e.to_active()
    e.frame("3004", data_with_crc("04040404 05050505 06060606 07070707"))
    e.frame("3902", data_with_crc("FFFFFF"))


def password_limit(e):
    e.named("AUTHLIM 2: after two wrong passwords the right one gets NAK 0h")
    image = build_image(45, access=access_byte(authlim=2), pwd=[1, 2, 3, 4])
    e.active_on(image)
    e.frame("1B 01020305", NAK0)
    e.to_active()
    e.frame("1B 00020304", NAK0)
    e.to_active()
    e.frame("1B 01020304", NAK0)
    e.shows(changed(image, {183: 2}))


def anticollision_of_four_bits(e):
    e.named("READY1, 93h 24h and bits 8h: 36 bits answered; bits 9h: silence")
    e.image(build_image(45))
    e.wake()
    # The forty bits 88 1D A2 30 07 without their first four.
    e.line("frame 20 932408", "answer 36 D8210A7300")
    e.line("frame 20 932409", "silence")
    e.line("frame 16 9320", "silence")      # the silence led to the wait state


def bus_rolls_over(e):
    e.named("four bytes sent to 407Eh land at 407Eh, 407Fh, 4040h, 4041h")
    image = build_image(45)
    e.image(image)
    e.address("40", "7E")
    for byte in ("C1", "C2", "C3", "C4"):
        e.line(f"send {byte}", "ack")
    e.line("stop", "done")
    e.shows(changed(image, {0x7E: 0xC1, 0x7F: 0xC2, 0x40: 0xC3, 0x41: 0xC4}))


def window_end(e):
    e.named("N=45: 40B3h acknowledged, 40B4h not")
    e.image(build_image(45))
    e.address("40", "B3")
    e.address("40", "B4", "nak")
    e.line("stop", "done")


def start_drops(e):
    e.named("Start, A0h, address, data, start, stop: nothing stored")
    image = build_image(45)
    e.image(image)
    e.address("40", "20")
    e.line("send 55", "ack")
    e.line("start", "done")
    e.line("stop", "done")
    e.shows(image)


def three_frames(e):
    e.named("After a field loss, WUPA and the two right SELECT frames reach ACTIVE in three frames")
    for size in (45, 135, 231):
        e.active_on(build_image(size))
        e.frame("5000", "silence")
        e.line("field", "field")
        e.to_active()
        e.frame("60", data_with_crc({45: "001D040101000F03", 135: "001D040101001103",
                                     231: "001D040101001303"}[size]))


def crc_examples(e):
    """ISO/IEC 14443-3: 00 00 has the CRC_A A0 1E, 12 34 has 26 CF."""
    for data, crc, crc_off_by_a_bit in [("0000", "A01E", "A11E"), ("1234", "26CF", "264F")]:
        if as_hex(bytes_of(crc_a(bits_of(bytes.fromhex(data))))) != crc:
            raise AssertionError(f"CRC_A of {data} isn't {crc}")
        e.named(f"ISO/IEC 14443-3: CRC_A of {data} is {crc}: unknown code, NAK 0h; a bit off, NAK 1h")
        e.active_on(build_image(45))
        e.line(f"frame 32 {data}{crc}", NAK0)
        e.to_active()
        e.line(f"frame 32 {data}{crc_off_by_a_bit}", NAK1)


def memory_rolls_over(e):
    e.named("Q-1: four bytes sent to 3FFEh land at 3FFEh, 3FFFh, 3FC0h, 3FC1h")
    image = build_image(45)
    e.image(image)
    e.address("3F", "FE")
    for byte in ("C1", "C2", "C3", "C4"):
        e.line(f"send {byte}", "ack")
    e.line("recall 3FFE 2", "memory 0000")
    e.line("stop", "done")
    e.line("bus", "bus rest 3FC2")
    e.line("recall 3FFE 2", "memory C1C2")
    e.line("recall 3FBE 6", "memory 0000C3C40000")
    e.line("recall 0000 4", "memory 00000000")
    e.shows(image)


def memory_keeps_nothing_back(e):
    e.named("Q-1: none of its bytes is kept back; the window keeps bytes 0-9")
    image = build_image(45)
    e.image(image)
    for high in ("00", "40"):
        e.address(high, "00")
        for byte in range(0xD0, 0xDC):
            e.line(f"send {byte:02X}", "ack")
        e.line("stop", "done")
    e.line("recall 0000 12", "memory D0D1D2D3D4D5D6D7D8D9DADB")
    e.shows(changed(image, {10: 0xDA, 11: 0xDB}))


def memory_read_rolls(e):
    e.named("Q-1: a read stays in its own region: 3FFFh is followed by 0000h, 40B3h by 4000h")
    e.image(build_image(45, pack=[5, 6, 7, 8]))
    for high, low, first, second, then in [("3F", "FF", "C2", "D0", "0001"), ("40", "B3", "00", "1D", "4001")]:
        e.address(high, low)
        e.line("start", "done")
        e.line("send A1", "ack")
        e.line("read ack", f"byte {first}")
        e.line("read nak", f"byte {second}")
        e.line("bus", f"bus deaf {then}")
    e.address("3F", "FF")
    e.line("start", "done")
    e.line("send A1", "ack")
    e.line("read nak", "byte C2")
    e.line("bus", "bus deaf 0000")


def either_region(e):
    e.named("Q-1: 0000h and 3FFFh acknowledged, 40B4h, 8000h and FFFFh not; 40B4h as a counter counts as 4000h")
    e.image(build_image(45))
    e.address("40", "B3")
    e.line("send 00", "ack")
    e.line("stop", "done")
    for high, low in [("80", "00"), ("FF", "FF"), ("40", "B4")]:
        e.address(high, low, "nak")
        e.line("bus", "bus deaf 40B4")
    e.line("start", "done")
    e.line("send A1", "ack")
    e.line("read nak", "byte 1D")
    e.line("bus", "bus deaf 4001")
    e.address("00", "00")
    e.line("bus", "bus writing 0000 0")
    e.address("3F", "FF")
    e.line("bus", "bus writing 3FFF 0")


def refused_memory(e):
    e.named("Q-1: 5, a data memory that isn't 16,384 bytes, after 1 and before 4")
    e.line("memory 16383", "memory 16383")
    e.image(build_image(45))
    e.line("event 5 00", "refused 5")
    e.line("start", "refused 5")
    e.wake()
    e.image([0] * 183)
    e.line("event 5 00", "refused 1")
    e.line("stop", "refused 1")
    e.line("recall 3FFE 1", "memory 00")
    e.line("recall 3FFE 2", "error: not how this command is written")
    e.line("memory 16384", "memory 16384")
    e.line("stop", "refused 1")
    e.image(build_image(45))
    e.line("event 5 00", "refused 4")
    e.line("stop", "done")


def read_at_once(e):
    e.named("Q-2: READ 00h in READY1 or READY2 is answered and counts; the tag is in ACTIVE, not authenticated")
    e.image(build_image(45, auth0=0x2B, access=access_byte(counter_on=1), counter=0x41))
    e.wake()
    e.frame("3000", data_with_crc(FIRST_PAGES))
    e.line("tag", "tag active idle answered")
    e.frame("3902", data_with_crc("420000"))
    e.frame("A22B 01020304", NAK0)
    e.to_ready_2()
    e.frame("3000", data_with_crc(FIRST_PAGES))
    e.frame("3902", data_with_crc("420000"))
    e.frame("5000", "silence")
    e.wake()
    e.frame("3000", data_with_crc(FIRST_PAGES))
    e.line("tag", "tag active halt answered")
    e.frame("9570 110967EC 93", NAK0)
    e.line("tag", "tag halt answered")
    e.line("field", "field")
    e.to_ready_2()
    e.line("frame 32 300002A8", data_with_crc(FIRST_PAGES))
    e.frame("3902", data_with_crc("430000"))


def read_at_once_nak(e):
    e.named("Q-2: as ACTIVE would answer it, NAK and all: AUTH0 00h, PROT 1: NAK 0h, wait state; AUTH0 01h: page 0")
    e.image(build_image(45, auth0=0x00, access=access_byte(prot=1, counter_on=1)))
    e.wake()
    e.frame("3000", NAK0)
    e.line("tag", "tag idle")
    e.to_active()
    e.frame("5000", "silence")
    e.to_ready_2()
    e.frame("3000", NAK0)
    e.line("tag", "tag halt")
    e.line("show 2D", "page 00000000")
    e.image(build_image(45, auth0=0x01, access=access_byte(prot=1)))
    e.wake()
    e.frame("3000", data_with_crc("1DA23007 1DA23007 1DA23007 1DA23007"))
    e.line("show 2D", "page 00000000")


def other_read_stays_an_error(e):
    e.named("Q-2: any other READ there stays an error: silence, wait state")
    e.image(build_image(45, access=access_byte(counter_on=1)))
    for to_ready in (e.wake, e.to_ready_2):
        for line in ("frame 32 300002A9", "frame 32 3000A802", "parity 32 300002A8", "frame 31 30000228",
                     "frame 33 300002A800", "frame 40 300002A800", "frame 16 3000"):
            to_ready()
            e.line(line, "silence")
            e.line("tag", "tag idle")
        for data in ("3001", "3004", "30FF", "30", "300000", "3A0000", "3A0003"):
            to_ready()
            e.frame(data, "silence")
            e.line("tag", "tag idle")
    e.line("show 2D", "page 00000000")


def mirror_of_uid(e):
    e.named("Q-3: UID 1D A2 30 11 09 67 EC from byte 1 of page 0Ch reads 1DA230110967EC")
    e.active_on(mirrored_image(mirror_bytes("UID", 4 * 0x0C + 1), {0x0C: "3D303030", 0x0F: "303030FE"}))
    e.frame("300C", data_with_crc("3D" + ascii_hex("1DA230110967EC") + "FE"))
    e.counted("2F1000")
    e.line("show 0C", "page 3D303030")


def mirror_of_counter(e):
    e.named("Q-3: the counter, 00-10-2F after this READ has counted, from byte 1 of page 0Ch reads 00102F")
    e.active_on(mirrored_image(mirror_bytes("counter", 4 * 0x0C + 1), {0x0C: "3D303030", 0x0D: "303030FE"}))
    for _ in range(2):
        e.frame("300C", data_with_crc("3D" + ascii_hex("00102F") + "FE 00000000 00000000"))
        e.counted("2F1000")
    e.frame("3902", data_with_crc("2F1000"))


def mirror_of_both(e):
    e.named("Q-3: both from byte 1 of page 0Ch read 1DA230110967ECx00102F")
    e.active_on(mirrored_image(mirror_bytes("both", 4 * 0x0C + 1), {0x0C: "3D303030", 0x11: "3030FE00"}))
    e.frame("3A0C11", data_with_crc("3D" + ascii_hex("1DA230110967ECx00102F") + "FE00"))
    e.counted("2F1000")


def mirror_and_memory(e):
    e.named("Q-3: memory and bus reads don't change; a WRITE there is seen when the mirror is off")
    e.active_on(mirrored_image(mirror_bytes("UID", 4 * 0x0C + 1), {0x0C: "3D303030"}))
    e.frame("A20C 01020304", ACK)
    e.frame("3A0C0C", data_with_crc("01" + ascii_hex("1DA")))
    e.line("show 0C", "page 01020304")
    e.address("40", "31")
    e.line("start", "done")
    e.line("send A1", "ack")
    e.line("read nak", "byte 02")
    e.line("bus", "bus deaf 4032")
    e.frame("A229 04000CFF", ACK)
    e.frame("3A0C0C", data_with_crc("01020304"))


def mirror_that_does_not_fit(e):
    e.named("Q-3: a page below 04h, or any character past the user pages, means no mirror at all")
    for start, page, due in [(4 * 0x24 + 2, "24", "0000" + ascii_hex("1D")), (4 * 0x24 + 3, "24", "00000000"),
                             (4 * 0x04, "04", ascii_hex("1DA2")), (4 * 0x03 + 3, "04", "00000000")]:
        e.active_on(mirrored_image(mirror_bytes("UID", start), {}))
        e.frame(f"3A {page} {page}", data_with_crc(due))
        e.counted("2F1000")


def mirror_without_counter(e):
    e.named("Q-3: with the counter in it none when it is off, or under password and the tag not authenticated")
    for access, told in [(access_byte(), False), (access_byte(counter_on=1, counter_under_password=1), True)]:
        e.active_on(mirrored_image(mirror_bytes("both", 4 * 0x0C), {}, access))
        e.frame("3A0C0C", data_with_crc("00000000"))
        e.counted("2F1000" if access else "2E1000")
        e.frame("1B FFFFFFFF", data_with_crc("0000"))
        e.frame("3A0C0C", data_with_crc(ascii_hex("1DA2") if told else "00000000"))


EXAMPLES = [
    check_bytes, read_rolls_at_size, read_rolls_at_auth0, read_one_page, fast_read_one_page,
    block_bit_holds, page_3_gains, lock_bit_0, counter_at_its_end, password_limit,
    anticollision_of_four_bits, bus_rolls_over, window_end, start_drops, three_frames,
    crc_examples, memory_rolls_over, memory_keeps_nothing_back, memory_read_rolls, either_region,
    refused_memory, read_at_once, read_at_once_nak, other_read_stays_an_error, mirror_of_uid,
    mirror_of_counter, mirror_of_both, mirror_and_memory, mirror_that_does_not_fit, mirror_without_counter,
]


def example_lines():
    """All examples, one after the other, each on an image of its own."""
    examples = Examples()
    for example in EXAMPLES:
        example(examples)
    return examples.lines
