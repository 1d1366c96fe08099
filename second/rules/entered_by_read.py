"""Q-2: ACTIVE, entered by READ 00h: as ever, and not authenticated."""

from rules.naming import each
from rules.reads_at_once import READY, WAITS
from tag.bits import bits_of, with_crc

ANSWERED = ["READ", "FAST_READ", "WRITE", "GET_VERSION", "READ_CNT", "PWD_AUTH"]
UNDER_PASSWORD = ["READ", "FAST_READ", "WRITE", "READ_CNT"]
LEFT = ["PWD_AUTH-wrong", "HLTA", "SELECT", "anticollision", "other-NAK-0h", "NAK-1h", "other-silence",
        "field-lost"]

RULES = {}
for _ready in READY:
    for _wait in WAITS:
        _stem = f"{_ready}.read-00h.then.wait-{_wait}"
        RULES.update(each(_stem, ANSWERED, "Q-2: takes the tag to ACTIVE: then the command ({})"))
        RULES.update(each(_stem, [f"{name}-under-password" for name in UNDER_PASSWORD],
                          "Q-2: takes the tag to ACTIVE: ACTIVE is entered unauthenticated ({})"))
        RULES.update(each(_stem, LEFT, "Q-2: takes the tag to ACTIVE, which is left as ever ({})"))


def met(step):
    ready, radio = step.memory.entered_by_read_in, step.before.tag.radio
    if ready is None or radio.state != "ACTIVE" or radio.authenticated:
        return
    what = "field-lost" if step.word == "field" else what_comes(step) if step.frame else None
    if what:
        yield f"{ready}.read-00h.then.wait-{radio.wait_state()}/{what}"


def what_comes(step):
    """The command that is answered, or what a frame leaves ACTIVE by."""
    if step.nak is not None:
        return "NAK-1h" if step.nak == 1 else of_nak_0(step)
    if step.command[0] is not None:
        return step.command[0]
    level = step.frame.bits in (bits_of([0x93, 0x20]), bits_of([0x95, 0x20]))
    return "anticollision" if level else "other-silence"


def of_nak_0(step):
    image, size = step.image, step.image.layout.size
    name, arguments = step.command
    if name == "PWD_AUTH":
        return "PWD_AUTH-wrong"
    if is_under_password(name, arguments, image, size):
        return f"{name}-under-password"
    selects = step.frame.bits == with_crc([0x95, 0x70, *image.second_five()])
    return "SELECT" if selects else "other-NAK-0h"


def is_under_password(name, arguments, image, size):
    """Whether it is the password that a command with NAK 0h lacks."""
    if name == "READ_CNT":
        return arguments == (0x02,) and image.counter_on()
    if name == "WRITE":
        return max(2, image.auth0()) <= arguments[0] < size
    return name in ("READ", "FAST_READ") and arguments[0] <= arguments[-1] < size
