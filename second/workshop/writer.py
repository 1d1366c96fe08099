"""Q-7: the writer for the logger."""

from tag.refusal import Refused
from workshop.screen import BEGINNING, MESSAGE, TERMINATOR

LEAST_BYTES = 14


def write(seconds, watts, area):
    """"Write the reading of Q-6 into a lent user area: 03h 0Bh, the eleven bytes,
    FEh, and the rest as found." 23: "area under 14 bytes, nothing written".

    The area is a bytearray, which keeps its length. Exactly 14 bytes are enough.
    """
    if len(area) < LEAST_BYTES:
        raise Refused(23)
    area[:LEAST_BYTES] = bytes([MESSAGE, 0x0B]) + reading_of(seconds, watts) + bytes([TERMINATOR])


def reading_of(seconds, watts):
    """The eleven bytes: "D5 00 08 and eight bytes: seconds, then watts, each four
    bytes low first"."""
    return BEGINNING + seconds.to_bytes(4, "little") + watts.to_bytes(4, "little")
