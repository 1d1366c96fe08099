"""Two wires: events by phase, addresses, stores, reads."""

from rules.naming import PHASES, SIZES, each, kind_of_page
from tag.calls import EVENTS
from tag.regions import WINDOW_START

AMOUNTS = ["1", "2-63", "64", "over-64"]

PHASE_RULES = {}
for _event in EVENTS:
    PHASE_RULES.update(each(f"bus.{_event}", [f"in-{phase}" for phase in PHASES],
                            "Two wires: " + _event + " {}"))

RULES = {
    **each("bus.device", ["A0h", "A1h"], "A0h and A1h are acknowledged ({})"),
    **each("bus.device", ["A2h", "A3h", "20h", "21h", "other"],
           "others not, and the tag is then deaf until start or stop ({})"),
    **each("bus.address", ["4000h", "inside"],
           "acknowledged exactly if the address is in the window; Q-1: if it falls in either region ({})"),
    **each("bus.address", [f"last-{size}" for size in SIZES],
           "The window is 4000h to 4000h+4N-1 ({})"),
    **each("bus.address", ["above", "7FFFh", "8000h", "C000h", "FFFFh"] + [f"behind-{size}" for size in SIZES],
           "else deaf with the counter kept; Q-1: acknowledged if it falls in either region, and it doesn't ({})"),
    **each("bus.amount", AMOUNTS,
           "Stop stores the gathered bytes, latest for each place ({})"),
    "bus.store/rolls-over": "rolling over within the 64-byte page",
    **each("bus.store", [f"last-place-{size}" for size in SIZES], "Stop stores the gathered bytes ({})"),
    **each("bus.store", ["byte-10", "byte-11"], "except image bytes 0-9: {} is stored"),
    **each("bus.store", ["locked-page", "page-from-AUTH0-on", "lock-page", "settings-1",
                         "settings-2", "pwd", "pack"],
           "Locks and password don't bind this side ({})"),
    **each("bus.not-stored", [f"byte-{number}" for number in range(10)],
           "except image bytes 0-9 ({})"),
    **each("bus.not-stored", [f"past-window-{size}" for size in SIZES],
           "except [...] places past the window ({})"),
    "bus.start-in-write/drops-data": "Start: [...] drop an unfinished write",
    "bus.start-in-write/no-data-yet": "Start: [...] the counter staying at the address sent",
    "bus.counter-after-stop/no-data": "if any were gathered: none was, the counter stays",
    "bus.counter-after-stop/in-window": "the counter becomes the place after the last data byte",
    **each("bus.counter-after-stop", [f"past-window-{size}" for size in SIZES],
           "the counter becomes the place after the last data byte ({})"),
    **each("bus.read-outside", SIZES,
           "a counter outside the window counts as 4000h; Q-1: A counter in neither region still does (N = {})"),
    **each("bus.last-to-first", SIZES,
           "each read gives the counter's byte and advances, last to first; Q-1: stays in its own region (N = {})"),
    **each("bus.zeros-pwd", SIZES, "The PWD and PACK pages read as zeros (N = {})"),
    **each("bus.zeros-pack", SIZES, "The PWD and PACK pages read as zeros (N = {})"),
}

NAMED_DEVICES = {0xA0: "A0h", 0xA1: "A1h", 0xA2: "A2h", 0xA3: "A3h", 0x20: "20h", 0x21: "21h"}


def met(step):
    if step.event is None:
        return
    bus = step.before.tag.bus
    if not bus.data_memory.has(bus.counter):
        yield f"bus.{step.event}/in-{step.phase}"
    if step.event == "send" and bus.phase == "device":
        yield "bus.device/" + NAMED_DEVICES.get(step.byte, "other")
    elif bus.data_memory.has(step.address):
        return                      # the rules of the data memory are elsewhere
    elif step.event == "start" and bus.phase == "write":
        yield "bus.start-in-write/" + ("drops-data" if bus.gathered else "no-data-yet")
    elif step.event == "stop":
        yield from of_stop(step, bus)
    elif step.event == "send" and bus.phase == "low":
        yield "bus.address/" + name_of_address(bus, step.address)
    elif step.event.startswith("read") and bus.phase == "read":
        yield from of_read(bus)


def name_of_address(bus, address):
    size, end = bus.window.image.layout.size, bus.window.image.layout.window_end
    edges = {WINDOW_START: "4000h", end - 1: f"last-{size}", end: f"behind-{size}",
             0x7FFF: "7FFFh", 0x8000: "8000h", 0xC000: "C000h", 0xFFFF: "FFFFh"}
    return edges.get(address, "inside" if bus.window.has(address) else "above")


def of_stop(step, bus):
    if bus.gathered:
        yield from of_store(bus)
        in_window = bus.window.has(step.after.tag.bus.counter)
        yield "bus.counter-after-stop/" + (
            "in-window" if in_window else f"past-window-{bus.window.image.layout.size}")
    elif bus.phase == "write":
        yield "bus.counter-after-stop/no-data"


def of_store(bus):
    amount = len(bus.gathered)
    yield f"bus.amount/{name_of_amount(amount)}"
    if bus.counter % 64 + amount > 64:
        yield "bus.store/rolls-over"
    locked = bus.window.image.locked_pages()
    for place in sorted({bus.place_of(number) for number in range(min(amount, 64))}):
        yield from of_place(bus, place, locked)


def name_of_amount(amount):
    return "1" if amount == 1 else "2-63" if amount < 64 else "64" if amount == 64 else "over-64"


def of_place(bus, place, locked):
    """One place that a byte was gathered for."""
    layout = bus.window.image.layout
    page, offset = (place - WINDOW_START) // 4, place - WINDOW_START
    if not bus.window.has(place):
        yield f"bus.not-stored/past-window-{layout.size}"
        return
    if offset < 10:
        yield f"bus.not-stored/byte-{offset}"
        return
    if place + 1 == layout.window_end:
        yield f"bus.store/last-place-{layout.size}"
    if page == 2:
        yield f"bus.store/byte-{offset}"
    if page in locked:
        yield "bus.store/locked-page"
    if page >= bus.window.image.auth0():
        yield "bus.store/page-from-AUTH0-on"
    kind = kind_of_page(layout, page)
    if kind in ("lock-page", "settings-1", "settings-2", "pwd", "pack"):
        yield f"bus.store/{kind}"


def of_read(bus):
    layout = bus.window.image.layout
    counter = bus.counter
    if not bus.window.has(counter):
        yield f"bus.read-outside/{layout.size}"
        counter = WINDOW_START
    page = (counter - WINDOW_START) // 4
    if page in (layout.pwd, layout.pack):
        yield f"bus.zeros-{kind_of_page(layout, page)}/{layout.size}"
    if counter + 1 == layout.window_end:
        yield f"bus.last-to-first/{layout.size}"
