"""Lines that are answered by one of the three `error: ..` lines, and change nothing."""

from lines.reading import (LARGEST_BUFFER, LARGEST_FRAME, LARGEST_IMAGE, LARGEST_MEMORY, LARGEST_NUMBER,
                           MOST_RECALLED, TABLE)
from rules import errors
from rules.errors import longer_than, wrong_hex, wrong_number, wrong_words

RULES = {
    **errors.rules_of(TABLE),
    "error.too-long/good-if-cut": "a longer line, of which the first 16,397 characters are good",
    "error.not-how/neither-ack-nor-nak": "`read ack` `read nak`: an unknown word",
    "error.not-how/not-one-byte": "`send HH`, `event N HH`, `show HH`: one byte",
    "error.not-how/65536": "a number too large",
    "error.not-how/number-too-large": "a number too large",
    "error.not-how/number-too-long": "a number [...] too long, even of zeros",
    "error.not-how/image-1025": "an image of more than 1,024 bytes",
    "error.not-how/image-too-long": "an image of more than 1,024 bytes",
    "error.not-how/buffer-1025": "a buffer over 1,024",
    "error.not-how/buffer-too-large": "a buffer over 1,024",
    "error.not-how/hex-8193": "HEX may hold up to 8,192 bytes for a frame",
    "error.not-how/hex-too-long": "HEX may hold up to 8,192 bytes for a frame",
    "error.not-how/memory-16385": "a data memory of N bytes, 0 to 16,384",
    "error.not-how/memory-too-large": "a data memory of N bytes, 0 to 16,384",
    "error.not-how/address-short": "HHHH is exactly four hex digits",
    "error.not-how/address-long": "HHHH is exactly four hex digits",
    "error.not-how/recall-0": "N bytes of the data memory, 1 to 1,024",
    "error.not-how/recall-1025": "N bytes of the data memory, 1 to 1,024",
    "error.not-how/recall-too-many": "N bytes of the data memory, 1 to 1,024",
}


def met(step):
    if step.word is not None:
        return
    yield from errors.met(step, why_not_how)
    if step.error == "too-long":
        good = is_good_if_cut(step.text)
        yield "error.too-long/good-if-cut" if good else f"error.too-long.before/{errors.before_what(step)}"


def is_good_if_cut(text):
    """Whether a line that is too long would be good if it were cut."""
    word, *rest = text[:TABLE.longest].split(b" ")
    return word in (b"frame", b"parity") and why_not_how(word, rest) is None


def why_not_how(word, rest):
    """What is wrong behind a command word; of several faults, one."""
    return wrong_words(word, rest, TABLE) or wrong_arguments(word, [part.decode("ascii") for part in rest])


def wrong_arguments(word, rest):
    """The first fault in the words behind a command word."""
    if word == b"image":
        return wrong_hex(rest[0]) or longer_than(LARGEST_IMAGE, rest[0], "image-1025", "image-too-long")
    if word == b"buffer":
        return number_fault(rest[0]) or (
            "buffer-1025" if int(rest[0]) == LARGEST_BUFFER + 1 else "buffer-too-large")
    if word in (b"frame", b"parity"):
        return number_fault(rest[0]) or (wrong_hex(rest[1]) or longer_than(
            LARGEST_FRAME, rest[1], "hex-8193", "hex-too-long") if len(rest) > 1 else None)
    if word == b"memory":
        return number_fault(rest[0]) or (
            "memory-16385" if int(rest[0]) == LARGEST_MEMORY + 1 else "memory-too-large")
    if word == b"recall":
        return wrong_address(rest[0]) or number_fault(rest[1]) or wrong_amount(int(rest[1]))
    if word == b"read":
        return "neither-ack-nor-nak"
    if word == b"event":
        return number_fault(rest[0]) or wrong_hex(rest[1]) or "not-one-byte"
    return wrong_hex(rest[0]) or "not-one-byte"


def wrong_address(word):
    if wrong_hex(word) == "bad-digit":
        return "bad-digit"
    return None if len(word) == 4 else "address-short" if len(word) < 4 else "address-long"


def wrong_amount(amount):
    """"1 to 1,024" """
    named = {0: "recall-0", MOST_RECALLED + 1: "recall-1025"}
    return named.get(amount, "recall-too-many")


def number_fault(word):
    return wrong_number(word, 5, LARGEST_NUMBER)
