"""Document 02, Q-1: the data memory, the second region of the two wires."""

from rules.bus import AMOUNTS, name_of_amount
from rules.naming import PHASES, SIZES, each
from tag.calls import EVENTS
from tag.regions import WINDOW_START

EDGES = {0x0000: "0000h", 0x003F: "003Fh", 0x0040: "0040h", 0x3FBF: "3FBFh", 0x3FC0: "3FC0h",
         0x3FFE: "3FFEh", 0x3FFF: "3FFFh"}
PLACES = [*EDGES.values(), "inside"]

PHASE_RULES = {}
for _event in EVENTS:
    PHASE_RULES.update(each(f"memory.{_event}", [f"in-{phase}" for phase in PHASES],
                            "the same gather-and-store rules: " + _event + " {}, with the counter in the memory"))

RULES = {
    **each("memory.address", PLACES, "A low address byte is acknowledged if it falls in either region ({})"),
    **each("memory.amount", AMOUNTS, "the same gather-and-store rules: latest for each place ({})"),
    **each("memory.store", PLACES, "the same gather-and-store rules: Stop stores the gathered bytes ({})"),
    **each("memory.store", [f"byte-{number}" for number in range(10)], "none of its bytes is kept back ({})"),
    **each("memory.rolls-over", ["first-page", "inside"], "with 64-byte pages: rolling over within the page ({})"),
    "memory.rolls-over/last-page": "3FC0h-3FFFh rolls over within itself",
    **each("memory.start-in-write", ["drops-data", "no-data-yet"],
           "the same gather-and-store rules: Start: [...] drop an unfinished write, the counter staying ({})"),
    "memory.counter-after-stop/no-data": "if any were gathered: none was, the counter stays",
    **each("memory.counter-after-stop", ["0000h", "3FC0h", "3FFFh", "other-page-start", "inside"],
           "the counter becomes the place after the last data byte, rolled within its page ({})"),
    **each("memory.read", PLACES, "each read gives the counter's byte and advances ({})"),
    **each("memory.last-to-first", ["with-ACK", "without-ACK"],
           "rolls from its last byte to its first: 3FFFh leaves the counter at 0000h ({})"),
    **each("memory.as-stored", [f"{kind}-{size}" for kind in ("pwd", "pack") for size in SIZES],
           "none of its bytes is kept back: no zeros where the window has {}"),
    **each("one-region.window-stored", SIZES,
           "Each transfer touches one region and leaves the other as it was: the memory (N = {})"),
    **each("one-region.memory-stored", SIZES,
           "Each transfer touches one region and leaves the other as it was: the image (N = {})"),
    **each("one-region.past-window", SIZES,
           "places past the window are dropped, never put into the data memory (N = {})"),
    **each("one-region.window-read", SIZES, "A sequential read stays in its own region: the window (N = {})"),
    **each("one-region.memory-read", SIZES, "A sequential read stays in its own region: the memory (N = {})"),
    **each("one-region.window-last", SIZES, "rolls from its last byte to its first: to 4000h, not 0000h (N = {})"),
    **each("one-region.neither", SIZES, "A counter in neither region still counts as 4000h (N = {})"),
    **each("memory.radio", ["READ", "FAST_READ", "WRITE", "PWD_AUTH", "field"],
           "the radio cannot reach the new memory ({})"),
}


def met(step):
    if step.event is None:
        yield from of_radio(step)
        return
    bus = step.before.tag.bus
    if bus.data_memory.has(bus.counter):
        yield f"memory.{step.event}/in-{step.phase}"
    if bus.data_memory.has(step.address):
        yield from of_memory(step, bus)
    elif step.event == "stop" and bus.gathered:
        yield from of_window_store(bus)
    elif step.event.startswith("read") and bus.phase == "read":
        yield from of_window_read(bus)


def of_memory(step, bus):
    """An event that is about the memory."""
    if step.event == "start" and bus.phase == "write":
        yield "memory.start-in-write/" + ("drops-data" if bus.gathered else "no-data-yet")
    elif step.event == "stop" and bus.gathered:
        yield from of_store(bus)
        yield f"memory.counter-after-stop/{name_of_counter(step.after.tag.bus.counter)}"
    elif step.event == "stop" and bus.phase == "write":
        yield "memory.counter-after-stop/no-data"
    elif step.event == "send" and bus.phase == "low":
        yield f"memory.address/{EDGES.get(step.address, 'inside')}"
    elif step.event.startswith("read") and bus.phase == "read":
        yield from of_read(step, bus)


def name_of_counter(counter):
    if counter in (0x0000, 0x3FC0, 0x3FFF):
        return EDGES[counter]
    return "inside" if counter % 64 else "other-page-start"


def latest(bus):
    """What a stop stores, if it stores all of it."""
    return {bus.place_of(number): byte for number, byte in enumerate(bus.gathered)}


def of_store(bus):
    yield f"memory.amount/{name_of_amount(len(bus.gathered))}"
    if bus.counter % 64 + len(bus.gathered) > 64:
        yield "memory.rolls-over/" + {0x00: "first-page", 0xFF: "last-page"}.get(bus.counter // 64, "inside")
    places = latest(bus)
    for place in places:
        yield f"memory.store/{EDGES.get(place, 'inside')}"
        if place < 10:
            yield f"memory.store/byte-{place}"
    if all(image_byte(bus, place) not in (None, byte) for place, byte in places.items()):
        yield f"one-region.memory-stored/{bus.window.image.layout.size}"


def of_window_store(bus):
    """Where the other region has other bytes at the same places."""
    size = bus.window.image.layout.size
    other = {place for place, byte in latest(bus).items() if memory_byte(bus, place) != byte}
    if any(bus.window.has(place) for place in other):
        yield f"one-region.window-stored/{size}"
    if any(not bus.window.has(place) for place in other):
        yield f"one-region.past-window/{size}"


def of_read(step, bus):
    counter, layout = bus.counter, bus.window.image.layout
    yield f"memory.read/{EDGES.get(counter, 'inside')}"
    if counter == 0x3FFF:
        yield "memory.last-to-first/" + ("with-ACK" if step.event == "read-ack" else "without-ACK")
    byte = bus.data_memory.data[counter]
    if byte and counter // 4 in (layout.pwd, layout.pack):
        yield f"memory.as-stored/{'pwd' if counter // 4 == layout.pwd else 'pack'}-{layout.size}"
    if image_byte(bus, counter) not in (None, byte):
        yield f"one-region.memory-read/{layout.size}"


def of_window_read(bus):
    size = bus.window.image.layout.size
    first = image_byte(bus, 0)
    if not bus.window.has(bus.counter):
        if first not in (memory_byte(bus, bus.counter), memory_byte(bus, 0)):
            yield f"one-region.neither/{size}"
    elif image_byte(bus, bus.counter - WINDOW_START) != memory_byte(bus, bus.counter):
        yield f"one-region.window-read/{size}"
        if bus.counter + 1 == bus.window.end:
            yield f"one-region.window-last/{size}"


def image_byte(bus, place):
    """What the window shows at the same place from its start; None where it ends."""
    return bus.window.shown(WINDOW_START + place) if bus.window.has(WINDOW_START + place) else None


def memory_byte(bus, place):
    """What the memory has at the same place from its start."""
    return bus.data_memory.data[place % WINDOW_START]


def of_radio(step):
    """Where the memory has other bytes at the places that a command is about."""
    data = step.before.tag.data_memory.data
    name, arguments = step.command
    if step.word == "field" and data.strip(b"\0"):
        yield "memory.radio/field"
    elif name == "WRITE" and step.acked:
        page, *written = arguments
        if list(data[4 * page:4 * page + 4]) not in (written, []):
            yield "memory.radio/WRITE"
    elif name in ("READ", "FAST_READ", "PWD_AUTH") and step.nak is None:
        page = step.image.layout.pwd if name == "PWD_AUTH" else arguments[0]
        if tuple(data[4 * page:4 * page + 4]) not in (step.image.pages[page], ()):
            yield f"memory.radio/{name}"
