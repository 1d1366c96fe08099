"""Q-6: the blocks that the screen walks."""

from rules.naming import each
from rules.workshop.blocks import READING_BLOCK, is_reading, walk_of

SINGLE_TYPES = [0x01, 0x02, 0x04, 0xFD, 0xFF]
ROWS_OF_TYPES = ["05h-0Fh"] + [f"{high:X}0h-{high:X}Fh" for high in range(1, 15)] + ["F0h-FCh"]

RULES = {
    **each("first-byte", ["00h", "03h", "FEh", "other"], "It walks the TLV blocks from page 04h ({})"),
    **each("null.row", ["1", "2", "3-9", "10-and-more", "all"], "00h is one byte ({} of them)"),
    **each("null.before", ["message", "block", "FEh", "end", "passes"], "00h is one byte (before {})"),
    **each("passed", [f"{kind:02X}h" for kind in SINGLE_TYPES] + ROWS_OF_TYPES,
           "Take the first block of type 03h: others are passed over ({})"),
    **each("passed.one-byte", ["0", "1", "2-253", "254"], "lengths are one byte ({})"),
    **each("passed.three-byte", ["0", "1-10", "11", "12-253", "254", "255", "256", "257-and-more"],
           "lengths are [...] FFh and two, high byte first ({})"),
    **each("passed.before", ["message", "block", "null", "FEh", "end", "passes"],
           "others are passed over (before {})"),
    **each("inside", ["FEh", "00h", "03h", "FFh", "reading"],
           "what other blocks mean is passed over ({} in one)"),
    **each("length-byte", ["03h", "FEh", "FFh-00h", "high-03h", "low-03h", "low-FEh", "low-FFh"],
           "lengths are one byte or FFh and two: none of them is a type ({})"),
    **each("FEh", ["first", "behind-nulls", "behind-blocks"], "FEh ends ({})"),
    **each("behind-FEh", ["00h-alone", "reading", "other-message", "passes"], "FEh ends: behind it {}"),
    **each("two-messages", ["reading-reading", "reading-other", "other-reading", "other-other"],
           "Take the first block of type 03h ({})"),
    **each("behind-message", ["00h-alone", "FEh", "block", "passes", "nothing"],
           "The walk stops at the first 03h: nothing behind it is looked at ({})"),
    **each("blocks-before-message", ["0", "1", "2", "3-and-more"],
           "Take the first block of type 03h (behind {})"),
}


def met(step):
    if step.area is None:
        return
    walk = step.walk
    yield "first-byte/" + {0x00: "00h", 0x03: "03h", 0xFE: "FEh"}.get(walk.area[0], "other")
    yield from of_nulls(walk)
    for block in walk.passed:
        yield from of_passed(walk, block)
    if walk.stop == "FEh":
        yield from of_terminator(walk)
    if walk.stop == "message":
        yield from of_message(walk)


def of_nulls(walk):
    if len(walk.nulls) == len(walk.area):
        yield "null.row/all"
        return
    nulls, row = set(walk.nulls), 0
    for place in walk.nulls:
        row += 1
        if place + 1 not in nulls:
            yield "null.row/" + (str(row) if row < 3 else "3-9" if row < 10 else "10-and-more")
            yield f"null.before/{what_stands_at(walk, place + 1)}"
            row = 0


def what_stands_at(walk, place):
    """What the walk finds at a place behind a block."""
    if place in walk.nulls:
        return "null"
    if any(block.start == place for block in walk.passed):
        return "block"
    return walk.stop


def of_passed(walk, block):
    yield f"passed/{name_of_type(block.kind)}"
    yield f"passed.{block.form}/{name_of_length(block)}"
    yield f"passed.before/{what_stands_at(walk, block.behind)}"
    content = walk.area[block.content]
    for name, data in [("FEh", b"\xFE"), ("00h", b"\0"), ("03h", b"\3"), ("FFh", b"\xFF"),
                       ("reading", READING_BLOCK)]:
        if data in content:
            yield f"inside/{name}"
    yield from of_length_bytes(block)


def name_of_type(kind):
    if kind in SINGLE_TYPES:
        return f"{kind:02X}h"
    return ROWS_OF_TYPES[kind // 16]


def name_of_length(block):
    length = block.length
    if block.form == "one-byte":
        return "2-253" if 2 <= length <= 253 else str(length)
    if length in (0, 11, 254, 255, 256):
        return str(length)
    return "1-10" if length < 11 else "12-253" if length < 254 else "257-and-more"


def of_length_bytes(block):
    """Bytes of a length that look like a type."""
    high, low = divmod(block.length, 256)
    if block.form == "one-byte":
        names = {0x03: "03h", 0xFE: "FEh"}
        if low in names:
            yield f"length-byte/{names[low]}"
        return
    if high in (0x00, 0x03):
        yield "length-byte/" + ("FFh-00h" if high == 0 else "high-03h")
    if low in (0x03, 0xFE, 0xFF):
        yield f"length-byte/low-{low:02X}h"


def of_terminator(walk):
    yield "FEh/" + ("behind-blocks" if walk.blocks else "behind-nulls" if walk.nulls else "first")
    behind = walk_of(walk.area, walk.at + 1)
    if not any(walk.area[walk.at + 1:]):
        yield "behind-FEh/00h-alone"
    elif behind.stop == "message":
        yield "behind-FEh/" + ("reading" if is_reading(behind.message) else "other-message")
    elif behind.stop == "passes":
        yield "behind-FEh/passes"


def of_message(walk):
    before = len(walk.passed)
    yield "blocks-before-message/" + (str(before) if before < 3 else "3-and-more")
    place = walk.blocks[-1].behind
    behind = walk_of(walk.area, place)
    if behind.stop == "message":
        yield "two-messages/" + "-".join("reading" if is_reading(content) else "other"
                                         for content in (walk.message, behind.message))
    if place == len(walk.area):
        yield "behind-message/nothing"
    elif not any(walk.area[place:]):
        yield "behind-message/00h-alone"
    elif walk.area[place] == 0xFE:
        yield "behind-message/FEh"
    elif behind.stop == "passes":
        yield "behind-message/passes"
    elif behind.blocks:
        yield "behind-message/block"
