"""Wrong by hand: which bytes the check of an answer is taken of, document 02, Q-4."""

from wrong.by_hand_crc import PAGES_GIVEN, by_the_byte, of_reads

PAGES_CHECKED = f"with_crc({PAGES_GIVEN})"
COUNTER = "with_crc(radio.image.tail[:3])"
VERSION = "with_crc([0x00, 0x1D, 0x04, 0x01, 0x01, 0x00, radio.image.layout.size_code, 0x03])"
PACK = "with_crc(image.pages[image.layout.pack][:2])"
FIRST_SAK, SECOND_SAK = "with_crc([0x04])", "with_crc([0x00])"
OTHERS_BITS = "bits_of(five)[told_bits(frame.bits):]"
READ_ANSWERED = "    radio.read_answered = True\n"


def checked(module, right, wrong):
    """The right bytes, and behind them the check of others."""
    return module, right, f"{right}[:-16] + {wrong}[-16:]"


def pages_checked(wrong):
    return checked("tag.reads", PAGES_CHECKED, f"with_crc({wrong})")


def page_bytes(byte_source, pages="pages"):
    return f"[byte for page in {pages} for byte in {byte_source}]"


MIRRORED = "with_mirror(page, image.shown(page), characters)"

OF_PAGES = {
    "the check of a read is that of the stored bytes": pages_checked(page_bytes("image.pages[page]")),
    "the check of a read is that without the mirror": pages_checked(page_bytes("image.shown(page)")),
    "the check of a read is that with PWD and PACK": pages_checked(
        page_bytes("with_mirror(page, image.pages[page], characters)")),
    "the check of a read is that of its first page": pages_checked(page_bytes(MIRRORED, "list(pages)[:1]")),
    "the check of a read is that of its last page": pages_checked(page_bytes(MIRRORED, "list(pages)[-1:]")),
    "the check of a read leaves out its first page": pages_checked(page_bytes(MIRRORED, "list(pages)[1:]")),
    "the check of a read leaves out its last page": pages_checked(page_bytes(MIRRORED, "list(pages)[:-1]")),
    "the check of a read is that of four pages": pages_checked(page_bytes(MIRRORED, "list(pages)[:4]")),
    "the check of a read has the next page in it": pages_checked(
        page_bytes(MIRRORED, "[*pages, (list(pages)[-1] + 1) % image.layout.size]")),
    "the check of a read leaves out its last byte": pages_checked(f"{PAGES_GIVEN}[:-1]"),
    "the check of a read leaves out its first byte": pages_checked(f"{PAGES_GIVEN}[1:]"),
    "the check of a read has a byte 00h more": pages_checked(f"{PAGES_GIVEN} + [0x00]"),
    "the check of a read has a byte FFh more": pages_checked(f"{PAGES_GIVEN} + [0xFF]"),
    "the check of a read has its frame in it": pages_checked(f"[0x30, *{PAGES_GIVEN}]"),
    "the check of a read is that of the one before": of_reads(
        *by_the_byte(), "register, globals()['kept'] = globals().get('kept', 0x6363), register"),
    "the check of a read has its bytes exchanged": of_reads(
        *by_the_byte(), "register = register >> 8 | register % 256 << 8"),
    "the check of a read is left out": ("tag.reads", PAGES_CHECKED, f"{PAGES_CHECKED}[:-16]"),
    "the check of a read comes before its bytes": (
        "tag.reads", PAGES_CHECKED, f"(lambda bits: bits[-16:] + bits[:-16])({PAGES_CHECKED})"),
    "the check of a read that is all zeros is zero": of_reads(*by_the_byte(), "register *= any(data)"),
    "the check of a read is never 0000h": of_reads(*by_the_byte(), "register = register or 0xFFFF"),
    "the check of a read is never FFFFh": of_reads(*by_the_byte(), "register = register % 0xFFFF"),
    "the check of the first read in a field is that of the stored bytes": (
        "tag.reads", f"{READ_ANSWERED}    characters = mirror(radio)\n    return {PAGES_CHECKED}",
        f"    first = not radio.read_answered\n{READ_ANSWERED}    characters = mirror(radio)\n"
        f"    return {PAGES_CHECKED}[:-16] + with_crc("
        f"{page_bytes('image.pages[page]')} if first else {PAGES_GIVEN})[-16:]"),
}

OF_OTHERS = {
    "the check of READ_CNT has the failed count in it": checked(
        "tag.reads", COUNTER, "with_crc(radio.image.tail)"),
    "the check of READ_CNT is that of two bytes": checked("tag.reads", COUNTER, "with_crc(radio.image.tail[:2])"),
    "the check of READ_CNT is that high byte first": checked(
        "tag.reads", COUNTER, "with_crc(radio.image.tail[2::-1])"),
    "the check of GET_VERSION is that of s = 00": checked(
        "tag.active", VERSION, "with_crc([0x00, 0x1D, 0x04, 0x01, 0x01, 0x00, 0x00, 0x03])"),
    **{f"the check of GET_VERSION is that of s = {s:02X}": checked(
        "tag.active", VERSION, f"with_crc([0x00, 0x1D, 0x04, 0x01, 0x01, 0x00, {s}, 0x03])")
       for s in (0x0F, 0x11, 0x13)},
    "the check of GET_VERSION is that of seven bytes": checked(
        "tag.active", VERSION, "with_crc([0x00, 0x1D, 0x04, 0x01, 0x01, 0x00, radio.image.layout.size_code])"),
    "the check of PWD_AUTH is that of four bytes": checked(
        "tag.password", PACK, "with_crc(image.pages[image.layout.pack])"),
    "the check of PWD_AUTH is that of one byte": checked(
        "tag.password", PACK, "with_crc(image.pages[image.layout.pack][:1])"),
    "the check of PWD_AUTH is that of PWD": checked("tag.password", PACK, "with_crc(password)"),
    "the check of PWD_AUTH is that of zeros": checked("tag.password", PACK, "with_crc([0x00, 0x00])"),
    "the check of 04h is that of 00h": checked("tag.selection", FIRST_SAK, SECOND_SAK),
    "the check of 00h is that of 04h": checked("tag.selection", SECOND_SAK, FIRST_SAK),
    "the check of 04h is left out": ("tag.selection", FIRST_SAK, f"{FIRST_SAK}[:8]"),
    "the check of 00h is left out": ("tag.selection", SECOND_SAK, f"{SECOND_SAK}[:8]"),
    "the check of 04h is that of no bytes": checked("tag.selection", FIRST_SAK, "with_crc([])"),
    "the check of 00h is that of no bytes": checked("tag.selection", SECOND_SAK, "with_crc([])"),
    "the other 40-n bits have a check": (
        "tag.selection", OTHERS_BITS, f"{OTHERS_BITS} + with_crc(five)[-16:]"),
    "all forty bits have a check": (
        "tag.selection", OTHERS_BITS, f"{OTHERS_BITS} + with_crc(five)[-16:] * (len(frame.bits) == 16)"),
    "44h 00h has a check": ("tag.frames", "ATQA = bits_of([0x44, 0x00])", "ATQA = with_crc([0x44, 0x00])"),
}

OF_CRC_ANSWERS = {**OF_PAGES, **OF_OTHERS}
