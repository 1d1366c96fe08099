"""The user pages of an image as blocks, up to where the screen stops.

Places are counted from the first byte of page 04h.
"""

from typing import NamedTuple

from tag.layout import LAYOUTS

BEGINNING = bytes([0xD5, 0x00, 0x08])
READING_BLOCK = bytes([0x03, 0x0B]) + BEGINNING
READING_LENGTH = 11
WRITTEN_LENGTH = 14             # of a reading as Q-7 writes it, with FEh behind it


class Block(NamedTuple):
    """A block that has a length, or should have one.

    `form` is "one-byte" or "three-byte"; where the user pages end before the
    length does, it says what is the last byte: "type-last", "FFh-last", "FFh-one-left".
    Then there is no length, and no place behind it.
    """

    kind: int
    start: int
    form: str
    length: int = None
    behind: int = None          # its last byte

    @property
    def content(self):
        """Where the bytes are that its length counts."""
        return slice(self.behind - self.length, self.behind)


class Walk(NamedTuple):
    """What lies in the user pages. `stop` says what ended it: "FEh", "end",
    "message" or "passes"; the last two are the last block."""

    area: bytes
    blocks: list
    nulls: list                 # the places of one-byte blocks 00h
    stop: str
    at: int                     # the place of what ended it

    @property
    def passed(self):
        """The blocks that were passed over."""
        return self.blocks[:-1] if self.stop in ("message", "passes") else self.blocks

    @property
    def message(self):
        """The bytes that the first block of type 03h holds, or None."""
        return self.area[self.blocks[-1].content] if self.stop == "message" else None


def area_of(image):
    """The bytes of the user pages; None for an image of a wrong length."""
    layout = LAYOUTS.get(len(image))
    return image[16:4 * layout.lock_page] if layout else None


def walk_of(area, place=0):
    """The walk from a place on."""
    blocks, nulls = [], []
    while place < len(area):
        if area[place] == 0xFE:
            return Walk(area, blocks, nulls, "FEh", place)
        if area[place] == 0x00:
            nulls.append(place)
            place += 1
            continue
        block = block_at(area, place)
        blocks.append(block)
        if block.behind is None or block.behind > len(area):
            return Walk(area, blocks, nulls, "passes", place)
        if block.kind == 0x03:
            return Walk(area, blocks, nulls, "message", place)
        place = block.behind
    return Walk(area, blocks, nulls, "end", place)


def block_at(area, start):
    """The block whose type stands at this place."""
    kind, left = area[start], len(area) - start
    if left == 1:
        return Block(kind, start, "type-last")
    if area[start + 1] != 0xFF:
        return Block(kind, start, "one-byte", area[start + 1], start + 2 + area[start + 1])
    if left < 4:
        return Block(kind, start, "FFh-last" if left == 2 else "FFh-one-left")
    length = int.from_bytes(area[start + 2:start + 4], "big")
    return Block(kind, start, "three-byte", length, start + 4 + length)


def is_reading(content):
    return len(content) == READING_LENGTH and content[:3] == BEGINNING
