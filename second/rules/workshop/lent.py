"""Q-7: the lent area: its length, what it held, and the rest as found."""

from rules.naming import each
from rules.workshop.blocks import READING_BLOCK, WRITTEN_LENGTH, walk_of

USER_AREAS = [144, 504, 888]
IMAGE_LENGTHS = [184, 544, 928]
LENGTHS = [14, 15, 16, 255, 256, 257, 512, 1024, 1099, 1100]
PLACES = [f"byte-{place}" for place in range(WRITTEN_LENGTH)]
LONG_READING_BLOCK = bytes([0x03, 0xFF, 0x00, 0x0B, 0xD5, 0x00, 0x08])
FIRST_BYTES = {0x00: "00h-first", 0x03: "03h-first", 0xFE: "FEh-first", 0xFF: "FFh-first"}

RULES = {
    **each("lent23.length", ["0", "1", "2-12", "13"], "23, area under 14 bytes ({})"),
    **each("lent23.held", ["zeros", "FFh", "begins-as-written", "another-reading-cut", "other"],
           "23, area under 14 bytes, whatever is in it ({})"),
    **each("lent23.numbers", ["0-and-0", "4294967295-and-4294967295", "other"],
           "23, area under 14 bytes, whatever the reading is ({})"),
    "lent.length/14": "An area of exactly 14 bytes is enough",
    **each("lent.length", [length for length in LENGTHS[1:]] + ["17-143", "145-503", "505-887", "889-1098"],
           "a lent user area [...] and the rest as found ({})"),
    **each("lent.length", USER_AREAS, "a lent user area ({} bytes, all user pages of an image)"),
    **each("lent.length", IMAGE_LENGTHS, "a lent user area: as long as an image, and none ({})"),
    **each("lent.held", ["zeros", "FFh", "the-same", "older", "newer", "same-second", "reading-without-FEh",
                         "three-byte-reading", "longer-message", "shorter-message", "empty-message", "block",
                         "FEh", "00h", "message-behind", "other"],
           "03h 0Bh, the eleven bytes, FEh, whatever was there ({})"),
    **each("lent.differs-alone", PLACES, "03h 0Bh, the eleven bytes, FEh: all but {} stand there already"),
    **each("lent.equal-alone", PLACES, "03h 0Bh, the eleven bytes, FEh: {} alone stands there already"),
    **each("rest", ["none", "one-byte", "zeros", "FFh", "FEh", "all-values", "the-same-again",
                    "another-reading", "end-of-a-longer-message", "other"], "the rest as found ({})"),
    **each("rest", FIRST_BYTES.values(), "the rest as found ({})"),
    **{key: sentence for length in USER_AREAS + [1100] for key, sentence in each(
        f"rest.{length}", ["zeros", "FFh", "other", "last-byte-alone", "last-byte-00h"],
        "the rest as found ({})").items()},
}


def met(step):
    if step.word != "reading":
        return
    if step.written is None:
        yield from of_refused(step)
        return
    yield f"lent.length/{name_of_length(len(step.lent))}"
    front = step.lent[:WRITTEN_LENGTH]
    yield from of_held(step, front)
    yield from of_places(front, step.written.area)
    yield from of_rest(step, step.lent[WRITTEN_LENGTH:])


def of_refused(step):
    length = len(step.lent)
    yield "lent23.length/" + ("2-12" if 2 <= length <= 12 else str(length))
    if length:
        yield f"lent23.held/{name_of_held_too_short(step)}"
    numbers = (step.seconds, step.watts)
    yield "lent23.numbers/" + ("0-and-0" if not any(numbers) else "4294967295-and-4294967295"
                               if numbers == (2 ** 32 - 1,) * 2 else "other")


def name_of_held_too_short(step):
    """What an area held that is too short for a reading."""
    held = step.lent
    if fourteen(step.seconds, step.watts).startswith(held):
        return "begins-as-written"
    if set(held) in ({0x00}, {0xFF}):
        return "FFh" if held[0] else "zeros"
    return "another-reading-cut" if held.startswith(READING_BLOCK) else "other"


def fourteen(seconds, watts):
    return READING_BLOCK + seconds.to_bytes(4, "little") + watts.to_bytes(4, "little") + b"\xFE"


def name_of_length(length):
    if length in LENGTHS + USER_AREAS + IMAGE_LENGTHS:
        return str(length)
    return ("17-143" if length < 144 else "145-503" if length < 504 else "505-887" if length < 888
            else "889-1098")


def of_held(step, front):
    """What the area held where the fourteen bytes come."""
    if set(front) in ({0x00}, {0xFF}):
        yield "lent.held/" + ("FFh" if front[0] else "zeros")
    elif front == step.written.area[:WRITTEN_LENGTH]:
        yield "lent.held/the-same"
    elif front.startswith(READING_BLOCK):
        yield from of_old_reading(step, front)
    elif front.startswith(LONG_READING_BLOCK):
        yield "lent.held/three-byte-reading"
    elif front[0] in (0x00, 0xFE):
        yield f"lent.held/{front[0]:02X}h"
    else:
        yield f"lent.held/{name_of_block(walk_of(step.lent))}"
    walk = walk_of(step.lent)
    if walk.stop == "message" and walk.at:
        yield "lent.held/message-behind"


def of_old_reading(step, front):
    """Another reading, or the same without FEh behind it."""
    old = int.from_bytes(front[5:9], "little")
    yield "lent.held/" + ("older" if old < step.seconds else "newer" if old > step.seconds else "same-second")
    if front[-1] != 0xFE:
        yield "lent.held/reading-without-FEh"


def name_of_block(walk):
    """The block that the area begins with, where it is no reading."""
    first = walk.blocks[0]
    if first.length is None or first.behind > len(walk.area):
        return "other"
    if first.kind != 0x03:
        return "block"
    return ("empty-message" if first.length == 0 else "shorter-message" if first.length < 11
            else "longer-message" if first.length > 11 else "other")


def of_places(front, area):
    """Where a single byte changes, or a single one doesn't."""
    equal = [place for place in range(WRITTEN_LENGTH) if front[place] == area[place]]
    if len(equal) == 1:
        yield f"lent.equal-alone/byte-{equal[0]}"
    if len(equal) == WRITTEN_LENGTH - 1:
        yield f"lent.differs-alone/byte-{(set(range(WRITTEN_LENGTH)) - set(equal)).pop()}"


def of_rest(step, rest):
    if len(rest) < 2:
        yield "rest/one-byte" if rest else "rest/none"
        return
    kind = name_of_rest(rest)
    yield f"rest/{kind}"
    if rest[0] in FIRST_BYTES:
        yield f"rest/{FIRST_BYTES[rest[0]]}"
    for name, holds in [("all-values", len(set(rest)) == 256),
                        ("the-same-again", rest.startswith(step.written.area[:WRITTEN_LENGTH])),
                        ("another-reading", rest.startswith(READING_BLOCK)),
                        ("end-of-a-longer-message", is_end_of_message(step.lent))]:
        if holds:
            yield f"rest/{name}"
    if len(step.lent) in USER_AREAS + [1100]:
        yield f"rest.{len(step.lent)}/" + (kind if kind in ("zeros", "FFh") else "other")
        if not any(rest[:-1]) and rest[-1]:
            yield f"rest.{len(step.lent)}/last-byte-alone"
        if rest[-1] == 0 and rest[-2]:
            yield f"rest.{len(step.lent)}/last-byte-00h"


def name_of_rest(rest):
    return {0x00: "zeros", 0xFE: "FEh", 0xFF: "FFh"}.get(rest[0], "other") if len(set(rest)) == 1 else "other"


def is_end_of_message(lent):
    """Whether a message that the area began with ends behind the fourteen bytes."""
    blocks = walk_of(lent).blocks
    return bool(blocks) and blocks[0].start == 0 and blocks[0].kind == 0x03 and (
        WRITTEN_LENGTH < (blocks[0].behind or 0) <= len(lent))
