"""Q-2: READ 00h in READY1 and READY2, which skips the selection."""

from rules.naming import SIZES, each
from tag.bits import bytes_of
from tag.frames import READ_00H

READY = ["READY1", "READY2"]
WAITS = ["IDLE", "HALT"]

BORDERS = ["AUTH0-01h", "AUTH0-02h", "AUTH0-03h", "AUTH0-04h", "AUTH0-below-N", "AUTH0-N-and-above",
           "PROT-clear-AUTH0-below-04h", "PROT-clear"]
COUNTS = ["counts", "FFFFFFh-stays", "counter-off", "later", "later-while-off", "later-turned-on-since"]
NOT_COUNTED = ["first-while-on", "first-while-off", "later-while-on", "later-while-off"]

RULES = {}
for _ready in READY:
    for _size in SIZES:
        RULES.update(each(f"{_ready}.read-00h.N-{_size}", BORDERS,
                          "Q-2: answered as ACTIVE would answer it: four pages (a+i) mod B ({})"))
        RULES[f"{_ready}.read-00h.N-{_size}/AUTH0-00h"] = (
            "Q-2: as ACTIVE would answer it, NAK and all: NAK 0h unless a < B")
    RULES[f"{_ready}.read-00h/stored-BCC0-differs"] = "Q-2: as ACTIVE would answer it: READ shows stored bytes"
    for _wait in WAITS:
        RULES.update(each(f"{_ready}.read-00h.data.wait-{_wait}", COUNTS,
                          "Q-2: takes the tag to ACTIVE; the first READ adds 1 to the counter if it is on ({})"))
        RULES.update(each(f"{_ready}.read-00h.nak.wait-{_wait}", NOT_COUNTED,
                          "Q-2: NAK and all; every NAK goes to the wait state, and isn't counted ({})"))
    RULES.update(each(f"{_ready}.read-00h.refused", [2, 3],
                      "A refused call returns [...] the records it was given (no. {})"))
for _wait in WAITS:
    RULES.update(each(f"{_wait}.read-00h", ["good-parity", "bad-parity"],
                      "Q-2: while the tag is still in READY1 or READY2; here silence, state kept ({})"))


def met(step):
    if step.word in ("frame", "parity") and step.refused in (2, 3):
        yield from of_refused(step)
    elif step.reads_at_once:
        yield from of_read(step)
    elif step.frame and step.state in WAITS and step.frame.bits == READ_00H:
        yield f"{step.state}.read-00h/" + ("good-parity" if step.frame.parity_good else "bad-parity")


def of_refused(step):
    """A call that is refused, and would be READ 00h if it weren't."""
    if step.state in READY and step.data[:4] == bytes_of(READ_00H):
        yield f"{step.state}.read-00h.refused/{step.refused}"


def of_read(step):
    image, stem = step.image, f"{step.state}.read-00h"
    wait = f"wait-{step.before.tag.radio.wait_state()}"
    yield f"{stem}.N-{image.layout.size}/{border_of(image)}"
    if step.nak is not None:
        yield f"{stem}.nak.{wait}/{not_counted(step)}"
        return
    yield f"{stem}.data.{wait}/{count_of(step)}"
    if image.pages[0][3] != image.first_five()[4]:
        yield f"{stem}/stored-BCC0-differs"


def border_of(image):
    """What makes B, for a tag that isn't authenticated."""
    auth0 = image.auth0()
    if not image.prot():
        return "PROT-clear" if auth0 >= 4 else "PROT-clear-AUTH0-below-04h"
    if auth0 >= image.layout.size:
        return "AUTH0-N-and-above"
    return f"AUTH0-{auth0:02X}h" if auth0 <= 4 else "AUTH0-below-N"


def not_counted(step):
    first = "later" if step.before.tag.radio.read_answered else "first"
    return f"{first}-while-on" if step.image.counter_on() else f"{first}-while-off"


def count_of(step):
    """What READ 00h does to the counter, or why it does nothing."""
    on = step.image.counter_on()
    if step.before.tag.radio.read_answered:
        if not on:
            return "later-while-off"
        return "later" if step.memory.first_read_found_on else "later-turned-on-since"
    if not on:
        return "counter-off"
    return "FFFFFFh-stays" if step.image.counter() == 0xFFFFFF else "counts"
