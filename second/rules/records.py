"""`tag`, `bus` and `show HH`: where a board stands, in words."""

from rules.naming import PHASES, SIZES, each

WAITING = ["idle", "halt"]
AWAKE = [f"{state}-{wait}" for state in ("ready1", "ready2", "active") for wait in WAITING]
AUTHENTICATED = [f"active-{wait}-authenticated" for wait in WAITING]

RULES = {
    **each("tag", WAITING, "`tag idle`, `tag halt` ({})"),
    **each("tag", AWAKE, "`tag ready1 W`, `tag ready2 W`, `tag active W` ({})"),
    **each("tag", AUTHENTICATED, "`tag active W authenticated` ({})"),
    **each("tag.answered", WAITING + AWAKE + AUTHENTICATED,
           "with ` answered` behind it where a READ or FAST_READ was answered in this field ({})"),
    "tag/other-length": "`tag` asks for no image of a right length",
    **each("bus.words", PHASES, "the bus record in words ({})"),
    **each("bus.words.counter", ["4000h", "inside", "past-window", "last-place"], "HHHH is the counter ({})"),
    **each("bus.words.counter", ["0000h", "3FFFh", "memory-inside"], "HHHH is the counter, in the data memory ({})"),
    **each("bus.words.memory", PHASES, "HHHH is the counter, in the data memory ({})"),
    **each("bus.words.past-window", ["rest", "device", "high", "low", "read", "deaf"],
           "A counter past the window is kept as it is ({})"),
    **each("bus.words.high", ["00h", "below-10h", "40h", "A0h-and-above", "other"],
           "`bus low HHHH HH` (the high address byte held) ({})"),
    **each("bus.words.count", ["0", "1", "2", "3-9", "10-62", "63", "64"],
           "`bus writing HHHH N` (how many places are gathered, 0 to 64) ({})"),
    **each("bus.words.count", ["65-bytes", "66-255-bytes", "256-bytes", "more-bytes"],
           "how many places are gathered, 0 to 64: places, not bytes ({})"),
    "bus.words.count/rolled-over": "how many places are gathered: in one 64-byte page",
    "bus.words.count/not-stored": "how many places are gathered: bytes 0-9 and places past the window too",
    "bus.words/other-length": "`bus` asks for no image of a right length",
    **each("page", ["first", "whole", "above-3Fh", "pwd", "pack"],
           "`page HEX`: those of the four bytes of page HH that the image has ({})"),
    **each("page.tail", SIZES, "those of the four bytes of page HH that the image has: the tail's (N = {})"),
    **each("page.bytes", range(1, 4), "those of the four bytes of page HH that the image has ({})"),
    **each("page.none", [f"behind-{size}" for size in SIZES] + ["past-a-right-image", "other-length",
                                                                "empty-image"],
           "`page` alone where it has none of them ({})"),
    "page/FFh-of-1024": "those of the four bytes of page HH that the image has: the last page there can be",
    "page/FFh": "`page` alone where it has none of them (FFh)",
}


def met(step):
    if step.word == "tag":
        yield from of_tag(step.before.tag)
    elif step.word == "bus":
        yield from of_bus(step.before.tag)
    elif step.word == "show" and step.arguments:
        yield from of_page(step.image, *step.arguments)


def of_tag(tag):
    radio = tag.radio
    words = [radio.state.lower()]
    if radio.state in ("READY1", "READY2", "ACTIVE"):
        words.append("halt" if radio.woken_from_halt else "idle")
    if radio.authenticated:
        words.append("authenticated")
    yield ("tag.answered/" if radio.read_answered else "tag/") + "-".join(words)
    if tag.image.layout is None:
        yield "tag/other-length"


def of_bus(tag):
    bus = tag.bus
    yield f"bus.words/{bus.phase}"
    if tag.image.layout is None:
        yield "bus.words/other-length"
        return
    yield from of_counter(bus)
    if bus.phase == "low":
        yield f"bus.words.high/{name_of_high(bus.high)}"
    elif bus.phase == "write":
        yield from of_count(bus)


def of_counter(bus):
    if bus.data_memory.has(bus.counter):
        names = {0x0000: "0000h", 0x3FFF: "3FFFh"}
        yield f"bus.words.counter/{names.get(bus.counter, 'memory-inside')}"
        yield f"bus.words.memory/{bus.phase}"
        return
    if not bus.window.has(bus.counter):
        yield "bus.words.counter/past-window"
        yield f"bus.words.past-window/{bus.phase}"
        return
    names = {0x4000: "4000h", bus.window.image.layout.window_end - 1: "last-place"}
    yield f"bus.words.counter/{names.get(bus.counter, 'inside')}"


def name_of_high(high):
    if high in (0x00, 0x40):
        return f"{high:02X}h"
    return "below-10h" if high < 0x10 else "A0h-and-above" if high >= 0xA0 else "other"


def of_count(bus):
    amount = len(bus.gathered)
    if amount > 64:
        yield "bus.words.count/" + ("65-bytes" if amount == 65 else "66-255-bytes" if amount < 256
                                    else "256-bytes" if amount == 256 else "more-bytes")
    else:
        yield "bus.words.count/" + ("3-9" if 2 < amount < 10 else "10-62" if 9 < amount < 63 else str(amount))
    if bus.counter % 64 + amount > 64:
        yield "bus.words.count/rolled-over"
    if any(is_not_stored(bus, place) for place in map(bus.place_of, range(amount))):
        yield "bus.words.count/not-stored"


def is_not_stored(bus, place):
    """Bytes 0-9 and places past the window."""
    region = bus.region_of(place)
    return region is None or region is bus.window and place < 0x400A


def of_page(image, page):
    had = min(max(image.length - 4 * page, 0), 4)
    if had == 0:
        yield f"page.none/{why_none(image, page)}"
    elif had < 4:
        yield f"page.bytes/{had}"
    else:
        yield "page/whole"
        yield from of_whole_page(image, page)
    if page == 0xFF:
        yield "page/FFh-of-1024" if had == 4 else "page/FFh"


def of_whole_page(image, page):
    if page == 0:
        yield "page/first"
    if page > 0x3F:
        yield "page/above-3Fh"
    if image.layout and page == image.layout.size:
        yield f"page.tail/{page}"
    if image.layout and page in (image.layout.pwd, image.layout.pack):
        yield "page/pwd" if page == image.layout.pwd else "page/pack"


def why_none(image, page):
    if image.length == 0:
        return "empty-image"
    if image.layout is None:
        return "other-length"
    return f"behind-{image.layout.size}" if page == image.layout.size + 1 else "past-a-right-image"
