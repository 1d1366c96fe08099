"""The counter, READ_CNT, GET_VERSION."""

from rules.naming import SIZES, each

RULES = {
    **each("counter.first-in-field", ["read", "fast"],
           "The first READ or FAST_READ answered with data since field loss ({})"),
    "counter/adds-1": "adds 1 to the counter if it is on",
    "counter/carries-into-byte-1": "counter (3 bytes, low first)",
    "counter/carries-into-byte-2": "counter (3 bytes, low first)",
    "counter/reaches-FFFFFF": "adds 1 to the counter: FFFFFEh counts to FFFFFFh",
    "counter/stays-at-FFFFFF": "at FFFFFFh it stays",
    "counter/off": "adds 1 to the counter if it is on: it is off",
    "counter.later/while-on": "Later ones don't count",
    "counter.later/in-a-later-stay": "Later ones don't count, ACTIVE left and entered again",
    "counter.later/while-off": "Later ones don't count",
    "counter.later/turned-on-since": "Later ones don't count, even if the first found it off",
    "counter/refused-read-does-not-count": "answered with data: a refused READ leaves the chance",
    "read-cnt/open": "READ_CNT 39h 02h: three counter bytes, low first",
    "read-cnt/authenticated": "if under password and not authenticated: authenticated, it is given",
    "read-cnt.nak/off": "NAK 0h if off",
    "read-cnt.nak/under-password": "NAK 0h [...] if under password and not authenticated",
    "read-cnt.nak/second-byte": "NAK 0h [...] if the second byte isn't 02h",
    **each("version", SIZES, "GET_VERSION 60h: 00 1D 04 01 01 00 s 03 (N = {})"),
}


def met(step):
    name, arguments = step.command
    if name in ("READ", "FAST_READ"):
        yield from of_read(step, "read" if name == "READ" else "fast")
    elif name == "READ_CNT":
        yield of_read_cnt(step, *arguments)
    elif name == "GET_VERSION":
        yield f"version/{step.image.layout.size}"


def of_read(step, stem):
    answered_before = step.before.tag.radio.read_answered
    if step.nak == 0:
        if step.image.counter_on() and not answered_before:
            yield "counter/refused-read-does-not-count"
    elif answered_before:
        yield of_later_read(step)
    else:
        yield f"counter.first-in-field/{stem}"
        yield from of_first_read(step.image)


def of_later_read(step):
    if not step.image.counter_on():
        return "counter.later/while-off"
    if not step.memory.first_read_found_on:
        return "counter.later/turned-on-since"
    same_stay = step.memory.same_stay and step.state == "ACTIVE"
    return "counter.later/while-on" if same_stay else "counter.later/in-a-later-stay"


def of_first_read(image):
    value = image.counter()
    if not image.counter_on():
        yield "counter/off"
    elif value == 0xFFFFFF:
        yield "counter/stays-at-FFFFFF"
    else:
        yield "counter/reaches-FFFFFF" if value == 0xFFFFFE else "counter/adds-1"
        if value % 0x10000 == 0xFFFF:
            yield "counter/carries-into-byte-2"
        elif value % 0x100 == 0xFF:
            yield "counter/carries-into-byte-1"


def of_read_cnt(step, second):
    if second != 0x02:
        return "read-cnt.nak/second-byte"
    if not step.image.counter_on():
        return "read-cnt.nak/off"
    if not step.image.counter_under_password():
        return "read-cnt/open"
    return "read-cnt/authenticated" if step.nak is None else "read-cnt.nak/under-password"
