"""ACTIVE: the form of frames, NAKs, HLTA, the end of authentication."""

from rules.naming import each
from rules.waiting import form_of
from tag.bits import bytes_of, crc_a
from tag.frames import COMMANDS

NAMES = [name for name, length in COMMANDS.values()]
SILENT_FORMS = ["part-of-a-byte", "one-byte", "two-bytes", "reqa", "wupa", "other-7-bits", "bad-parity-too"]

RULES = {
    **each("ACTIVE.silent.wait-IDLE", SILENT_FORMS,
           "not whole bytes, or under 3 bytes: silence, wait state ({})"),
    **each("ACTIVE.silent.wait-HALT", SILENT_FORMS,
           "not whole bytes, or under 3 bytes: silence, wait state ({})"),
    **each("nak1", ["parity", "crc", "both"], "Bad parity or CRC: NAK 1h ({})"),
    "nak1/before-code-and-length": "in order: parity and CRC before code and length",
    **each("unknown-code", ["A0h", "3Ch", "93h", "95h", "other"], "Unknown code [...]: NAK 0h ({})"),
    **each("wrong-length.short", [name for name in NAMES if name != "GET_VERSION"],
           "wrong length: NAK 0h ({})"),
    **each("wrong-length.long", NAMES, "wrong length: NAK 0h ({})"),
    **each("nak0.goes-to", ["IDLE", "HALT"], "Every NAK goes to the wait state ({})"),
    **each("nak1.goes-to", ["IDLE", "HALT"], "Every NAK goes to the wait state ({})"),
    **each("hlta", ["woken-from-IDLE", "woken-from-HALT"], "HLTA is 50h 00h: silence, HALT ({})"),
    "hlta/other-second-byte": "with another second byte: NAK 0h",
    **each("authentication-ends", ["nak0", "nak1", "silence", "hlta", "field"],
           "Leaving ACTIVE ends authentication ({})"),
}


def met(step):
    how = way_out_of_active(step)
    if how and step.before.tag.radio.authenticated:
        yield f"authentication-ends/{how}"
    if not step.frame or step.state != "ACTIVE":
        return
    wait = step.before.tag.radio.wait_state()
    if step.nak is not None:
        yield f"nak{step.nak}.goes-to/{wait}"
    if len(step.frame.bits) % 8 or len(step.frame.bits) < 24:
        yield from of_silence(step.frame, wait)
    elif step.nak == 1:
        yield from of_nak_1(step.frame)
    elif step.command[0] is None:
        yield of_nak_0(step.frame)
    elif step.command == ("HLTA", (0x00,)):
        yield f"hlta/woken-from-{wait}"
    elif step.command[0] == "HLTA":
        yield "hlta/other-second-byte"


def way_out_of_active(step):
    """How this step leaves ACTIVE, or None."""
    if step.state != "ACTIVE":
        return None
    if step.word == "field":
        return "field"
    if step.nak is not None:
        return f"nak{step.nak}"
    if step.frame and step.answer == b"silence":
        return "hlta" if step.command[0] == "HLTA" else "silence"
    return None


def of_silence(frame, wait):
    form = {7: form_of(frame.bits), 8: "one-byte", 16: "two-bytes"}
    yield f"ACTIVE.silent.wait-{wait}/" + form.get(len(frame.bits), "part-of-a-byte")
    if not frame.parity_good:
        yield f"ACTIVE.silent.wait-{wait}/bad-parity-too"


def of_nak_1(frame):
    crc_good = crc_a(frame.bits[:-16]) == frame.bits[-16:]
    data = bytes_of(frame.bits)[:-2]
    if data[0] not in COMMANDS or COMMANDS[data[0]][1] != len(data):
        yield "nak1/before-code-and-length"
    if frame.parity_good:
        yield "nak1/crc"
    else:
        yield "nak1/parity" if crc_good else "nak1/both"


def of_nak_0(frame):
    """A code that isn't known, or a length that isn't the command's."""
    data = bytes_of(frame.bits)[:-2]
    if data[0] not in COMMANDS:
        known_elsewhere = {0xA0: "A0h", 0x3C: "3Ch", 0x93: "93h", 0x95: "95h"}
        return "unknown-code/" + known_elsewhere.get(data[0], "other")
    name, length = COMMANDS[data[0]]
    return f"wrong-length.{'short' if len(data) < length else 'long'}/{name}"
