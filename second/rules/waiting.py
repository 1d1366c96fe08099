"""IDLE, HALT and field loss."""

from rules.naming import PHASES, STATES, each
from tag.frames import REQA, WUPA

FORMS = ["reqa", "wupa", "other-7-bits", "longer", "other"]

RULES = {
    **each("idle.good-parity", FORMS[:2], "IDLE: REQA or WUPA answers 44h 00h ({})"),
    **each("idle.good-parity", FORMS[2:], "IDLE: other frames: silence, state kept ({})"),
    **each("idle.bad-parity", FORMS, "parity flag, ignored in IDLE ({})"),
    **each("halt.good-parity", FORMS[1:2], "HALT: WUPA only ({})"),
    **each("halt.good-parity", FORMS[:1] + FORMS[2:], "HALT: other frames: silence, state kept ({})"),
    **each("halt.bad-parity", FORMS, "parity flag, ignored in HALT ({})"),
    **each("field-lost.radio", STATES, "Field loss gives IDLE (from {})"),
    **each("field-lost.bus", PHASES, "Field loss is the radio's: the bus record is kept ({})"),
}


def met(step):
    if step.word == "field":
        yield f"field-lost.radio/{step.state}"
        yield f"field-lost.bus/{step.phase}"
    elif step.frame and step.state in ("IDLE", "HALT"):
        parity = "good-parity" if step.frame.parity_good else "bad-parity"
        yield f"{step.state.lower()}.{parity}/{form_of(step.frame.bits)}"


def form_of(bits):
    """A name for what a frame looks like to a tag that waits."""
    if bits == REQA:
        return "reqa"
    if bits == WUPA:
        return "wupa"
    if len(bits) == 7:
        return "other-7-bits"
    return "longer" if bits[:7] in (REQA, WUPA) else "other"
