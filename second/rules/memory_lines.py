"""`memory N` and `recall HHHH N`, by LINES.md."""

from lines.reading import MOST_RECALLED
from rules.naming import PHASES, STATES, each
from tag.regions import MEMORY_LENGTH

RULES = {
    **each("memory.keeps-radio", STATES, "`memory N` lends a data memory: the tag record stays ({})"),
    **each("memory.keeps-bus", PHASES, "`memory N` lends a data memory: the bus record stays ({})"),
    "memory.keeps/gathered": "`memory N` lends every later two-wire event a data memory: what is gathered stays",
    **each("memory.zeros", ["same-length", "shorter"], "all zeros, whatever the one before held ({})"),
    "memory.zeros/longer": "all zeros, where the one before was shorter",
    **each("recall", ["first-byte", "last-byte", "up-to-the-end", "inside"],
           "N bytes of the data memory [...] from byte HHHH on ({})"),
    "recall/over-a-page": "N bytes of the data memory from byte HHHH on: no roll-over",
    "recall/not-yet-stored": "N bytes of the data memory: gathered bytes aren't there yet",
    "recall/other-image": "`recall` asks for no image of a right length",
    **each("recall.short", ["whole", "last-byte", "inside"],
           "N bytes of the data memory, where fewer than 16,384 are lent ({})"),
    **each("recall.outside", ["last-byte-and-one", "one-past", "4000h", "FFFFh", "past-65535"],
           "`error: not how this command is written` where they are not all within it ({})"),
    **each("recall.outside-short", ["empty", "one-past", "within-16384"],
           "where they are not all within it: fewer than 16,384 are lent ({})"),
}

LIMIT_RULES = {
    **each("limit", ["memory-0", "memory-16383", "memory-16384"], "a data memory of N bytes, 0 to 16,384 ({})"),
    **each("limit", ["recall-1", "recall-1024"], "N bytes of the data memory, 1 to 1,024 ({})"),
}


def met(step):
    if step.word == "memory":
        yield from of_memory(step, *step.arguments)
    elif step.word == "recall":
        yield from of_recall(step, *step.arguments)


def of_memory(step, length):
    if length in (0, 16383, 16384):
        yield f"limit/memory-{length}"
    yield f"memory.keeps-radio/{step.state}"
    yield f"memory.keeps-bus/{step.phase}"
    if step.before.tag.bus.gathered:
        yield "memory.keeps/gathered"
    held = step.before.tag.data_memory.data
    if length > len(held):
        yield "memory.zeros/longer"
    elif held[:length].strip(b"\0"):
        yield "memory.zeros/" + ("same-length" if length == len(held) else "shorter")


def of_recall(step, first, amount):
    lent = len(step.before.tag.data_memory.data)
    if first + amount > lent:
        yield of_outside(first, amount, lent)
        return
    if amount in (1, MOST_RECALLED):
        yield f"limit/recall-{amount}"
    yield of_inside(first, amount, lent)
    if first // 64 != (first + amount - 1) // 64:
        yield "recall/over-a-page"
    bus = step.before.tag.bus
    if any(first <= bus.place_of(number) < first + amount for number in range(len(bus.gathered))):
        yield "recall/not-yet-stored"
    if step.image.layout is None:
        yield "recall/other-image"


def of_inside(first, amount, lent):
    if lent < MEMORY_LENGTH:
        return "recall.short/" + ("whole" if amount == lent else "last-byte" if first == lent - 1 else "inside")
    if first == 0:
        return "recall/first-byte"
    if first == lent - 1:
        return "recall/last-byte"
    return "recall/up-to-the-end" if first + amount == lent else "recall/inside"


def of_outside(first, amount, lent):
    if lent < MEMORY_LENGTH:
        return "recall.outside-short/" + (
            "empty" if lent == 0 else "one-past" if first + amount == lent + 1 else "within-16384")
    if first + amount > 65536:
        return "recall.outside/past-65535"
    if first in (0x4000, 0xFFFF):
        return f"recall.outside/{first:04X}h"
    return "recall.outside/" + ("last-byte-and-one" if first == lent - 1 else "one-past")
