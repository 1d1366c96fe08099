"""The lines of `corridor`, by LINES.md: what the words are behind each command word."""

from lines.words import NOT_HOW, BadLine, Table, bytes_in, number_in

LONGEST_LINE = 16397
LARGEST_NUMBER = 65535
LARGEST_IMAGE = 1024
LARGEST_BUFFER = 1024
LARGEST_FRAME = 8192
LARGEST_MEMORY = 16384
MOST_RECALLED = 1024


def number_of(word, largest=LARGEST_NUMBER):
    """"Numbers are decimal, of one to five digits, at most 65535; leading zeros
    are fine." """
    return number_in(word, 5, largest)


def image_of(word):
    """"takes this image, of 0 to 1,024 bytes" """
    return bytes_in(word, LARGEST_IMAGE)


def frame_of(word):
    """"HEX may hold up to 8,192 bytes for a frame" """
    return bytes_in(word, LARGEST_FRAME)


def buffer_of(word):
    """"an answer buffer of N bytes, 0 to 1,024" """
    return number_of(word, LARGEST_BUFFER)


def memory_of(word):
    """"a data memory of N bytes, 0 to 16,384" """
    return number_of(word, LARGEST_MEMORY)


def address_of(word):
    """"HHHH is exactly four hex digits, either case in" """
    if len(word) != 4:
        raise BadLine(NOT_HOW)
    return 256 * byte_of(word[:2]) + byte_of(word[2:])


def recalled_of(word):
    """"N bytes of the data memory, 1 to 1,024" """
    amount = number_of(word, MOST_RECALLED)
    if amount == 0:
        raise BadLine(NOT_HOW)
    return amount


def byte_of(word):
    """"HH is the byte sent", "page HH": a word is never empty, so these are two
    digits."""
    (byte,) = bytes_in(word, 1)
    return byte


def reader_bit_of(word):
    """"`read ack` `read nak`": True for ACK."""
    if word not in (b"ack", b"nak"):
        raise BadLine(NOT_HOW)
    return word == b"ack"


ARGUMENTS = {
    b"image": [image_of], b"buffer": [buffer_of], b"field": [], b"frame": [number_of, frame_of],
    b"parity": [number_of, frame_of], b"start": [], b"stop": [], b"send": [byte_of],
    b"read": [reader_bit_of], b"event": [number_of, byte_of], b"show": [byte_of], b"tag": [],
    b"bus": [], b"memory": [memory_of], b"recall": [address_of, recalled_of], b"help": [],
}

# "`image` alone: none", "`HEX` of a frame may be missing", "`show`" and "`show HH`".
LAST_MAY_BE_MISSING = (b"image", b"frame", b"parity", b"show")

TABLE = Table(LONGEST_LINE, ARGUMENTS, LAST_MAY_BE_MISSING)
