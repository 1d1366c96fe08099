"""The five numbers for a refused call: four of document 01, one of document 02, Q-1."""

from rules.naming import PHASES, STATES, each
from tag.bits import bits_of
from tag.calls import EVENTS
from tag.regions import MEMORY_LENGTH

RULES = {
    **each("refused1.length", [0, 183, 185, 543, 545, 927, 929, 1024, "other"],
           "1: image length isn't 184, 544 or 928 ({})"),
    **each("refused1.call", ["frame", "start", "stop", "send", "read-ack", "read-nak", "other-event"],
           "1: image length isn't 184, 544 or 928, at {}"),
    **each("refused1.before", [2, 3, 4], "Tested in this order: 1 before {}"),
    "refused1.before/5": "Q-1: Refusals: 5, [...] after 1",
    **each("refused2", [0, 1023, "other"], "2: frame call: answer buffer under 1,024 bytes ({})"),
    "refused2/before-3": "Tested in this order: 2 before 3",
    "refused3/no-bits": "3: frame call: bit count 0",
    "refused3/513-bits": "3: bit count [...] over 512",
    "refused3/over-513-bits": "3: bit count [...] over 512",
    "refused3/too-few-bytes": "3: byte count not the bits rounded up",
    "refused3/too-many-bytes": "3: byte count not the bits rounded up",
    **each("refused3", [f"set-bit-above-{n}-bits" for n in range(1, 8)],
           "3: a set bit above the last ({} in the last byte)"),
    **each("refused4", ["5", "five-modulo-256", "65535", "other"],
           "4: bus call: event isn't one of the five ({})"),
    **each("refused5.length", [0, 1, 16383, "other"],
           "Q-1: 5, bus call with a data memory that isn't 16,384 bytes ({})"),
    **each("refused5.call", [*EVENTS, "other-event"],
           "Q-1: 5, bus call with a data memory that isn't 16,384 bytes, at {}"),
    "refused5.before/4": "Q-1: 5, [...] after 1 and before 4",
    **each("refused5.counter", ["memory", "window", "neither"],
           "Q-1: 5, bus call with a data memory that isn't 16,384 bytes, wherever the counter is ({})"),
    "refused5.stop/gathered": "Q-1: 5: a refused call returns the records it was given, and every buffer untouched",
    **each("refused5.keeps-bus", PHASES,
           "Q-1: 5: a refused call returns the records it was given ({})"),
    **each("refused5.not-for", ["frame", "field"], "Q-1: 5, bus call: this is none ({})"),
    **each("refused.keeps-memory", [1, 2, 3, 4], "A refused call returns [...] every buffer untouched (no. {})"),
    **each("refused.keeps-radio", STATES,
           "A refused call returns [...] the records it was given ({})"),
    **each("refused.keeps-bus", PHASES,
           "A refused call returns [...] the records it was given ({})"),
    **each("frame.taken", ["1-bits", "512-bits"],
           "not refused: 3 is given for bit count 0 or over 512 ({})"),
}


def met(step):
    lent = step.before.tag.data_memory.data
    if step.refused in (1, 2, 3, 4) and lent.strip(b"\0"):
        yield f"refused.keeps-memory/{step.refused}"
    if (step.frame or step.word == "field") and len(lent) != MEMORY_LENGTH:
        yield "refused5.not-for/" + ("frame" if step.frame else "field")
    if step.refused == 1:
        yield from of_image(step)
    elif step.refused == 2:
        yield "refused2/" + {0: "0", 1023: "1023"}.get(step.before.buffer_length, "other")
        if frame_faults(step.bit_count, step.data):
            yield "refused2/before-3"
        yield f"refused.keeps-radio/{step.state}"
    elif step.refused == 3:
        for fault in frame_faults(step.bit_count, step.data):
            yield f"refused3/{fault}"
        yield f"refused.keeps-radio/{step.state}"
    elif step.refused == 4:
        yield from of_event(step)
    elif step.refused == 5:
        yield from of_memory(step, len(lent))
    elif step.frame and step.bit_count in (1, 512):
        yield f"frame.taken/{step.bit_count}-bits"


def of_image(step):
    length = len(step.image.everything())
    edges = (0, 183, 185, 543, 545, 927, 929, 1024)
    yield f"refused1.length/{length if length in edges else 'other'}"
    if step.word in ("frame", "parity"):
        yield "refused1.call/frame"
        if step.before.buffer_length < 1024:
            yield "refused1.before/2"
        if frame_faults(step.bit_count, step.data):
            yield "refused1.before/3"
        return
    yield f"refused1.call/{name_of_event(step.number)}"
    if step.number >= len(EVENTS):
        yield "refused1.before/4"
    if len(step.before.tag.data_memory.data) != MEMORY_LENGTH:
        yield "refused1.before/5"


def name_of_event(number):
    return EVENTS[number] if number < len(EVENTS) else "other-event"


def of_memory(step, length):
    bus = step.before.tag.bus
    yield f"refused5.length/{length if length in (0, 1, 16383) else 'other'}"
    yield f"refused5.call/{name_of_event(step.number)}"
    if step.number >= len(EVENTS):
        yield "refused5.before/4"
    if step.number == EVENTS.index("stop") and bus.gathered:
        yield "refused5.stop/gathered"
    names = {bus.data_memory: "memory", bus.window: "window", None: "neither"}
    yield f"refused5.counter/{names[bus.region_of(bus.counter)]}"
    yield f"refused5.keeps-bus/{step.phase}"


def of_event(step):
    number = step.number
    yield "refused4/" + ("5" if number == 5 else "65535" if number == 65535
                         else "five-modulo-256" if number % 256 < 5 else "other")
    yield f"refused.keeps-bus/{step.phase}"


def frame_faults(bit_count, data):
    """All that no. 3 finds in a frame."""
    faults = []
    if bit_count == 0:
        faults.append("no-bits")
    if bit_count > 512:
        faults.append("513-bits" if bit_count == 513 else "over-513-bits")
    rounded_up = (bit_count + 7) // 8
    if len(data) != rounded_up:
        faults.append("too-few-bytes" if len(data) < rounded_up else "too-many-bytes")
    elif bit_count % 8 and any(bits_of(data[-1:])[bit_count % 8:]):
        faults.append(f"set-bit-above-{bit_count % 8}-bits")
    return faults
