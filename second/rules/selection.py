"""READY1 and READY2."""

from rules.naming import each
from rules.waiting import form_of
from tag.bits import BITS_OF_BYTE, bits_of, bytes_of, crc_a

FAULTS = [
    "reqa", "wupa", "under-two-bytes", "code-of-other-level", "other-code",
    "second-byte-below-20h", "low-half-above-7", "second-byte-68h-6Fh", "second-byte-above-70h",
    "too-few-bits", "too-many-bits", "no-match", "no-match-at-last-bit",
    "anticollision-bad-parity", "select-too-short", "select-too-long",
    "select-wrong-byte-0", "select-wrong-byte-1", "select-wrong-byte-2",
    "select-wrong-byte-3", "select-wrong-byte-4", "select-wrong-crc", "select-bad-parity"]

RULES = {}
for _state, _select in [("READY1", "answer 04h (to READY2), with CRC"),
                        ("READY2", "answer 00h (to ACTIVE), with CRC")]:
    RULES.update(each(f"{_state}.match", range(40),
                      "the first n of the forty [...]. The answer is the other 40-n (n = {})"))
    RULES.update(each(f"{_state}.select", ["wait-IDLE", "wait-HALT"],
                      f"five right bytes and CRC {_select} ({{}})"))
    RULES[f"{_state}.select/stored-BCC{int(_state[-1]) - 1}-differs"] = (
        "Selection uses computed BCCs; READ shows stored bytes")
    for _wait in ("IDLE", "HALT"):
        RULES.update(each(f"{_state}.silent.wait-{_wait}", FAULTS,
                          "Anything else [...]: silence, wait state ({})"))


def met(step):
    if not step.frame or step.state not in ("READY1", "READY2") or step.reads_at_once:
        return
    wait = step.before.tag.radio.wait_state()
    code, five, stored_bcc = level_of(step)
    fault = fault_of(step.frame, code, five)
    if fault:
        yield f"{step.state}.silent.wait-{wait}/{fault}"
    elif len(step.frame.bits) == 72:
        yield f"{step.state}.select/wait-{wait}"
        if stored_bcc != five[4]:
            yield f"{step.state}.select/stored-BCC{int(step.state[-1]) - 1}-differs"
    else:
        yield f"{step.state}.match/{len(step.frame.bits) - 16}"


def level_of(step):
    """The code and the five bytes of this level, and its BCC as it is stored."""
    if step.state == "READY1":
        return 0x93, step.image.first_five(), step.image.pages[0][3]
    return 0x95, step.image.second_five(), step.image.pages[2][0]


def fault_of(frame, code, five):
    """What is wrong with a frame in READY1 or READY2, or None."""
    bits = frame.bits
    if form_of(bits) in ("reqa", "wupa"):
        return form_of(bits)
    if len(bits) < 16:
        return "under-two-bytes"
    if bits[:8] != BITS_OF_BYTE[code]:
        other_level = 0x93 + 0x95 - code
        return "code-of-other-level" if bits[:8] == BITS_OF_BYTE[other_level] else "other-code"
    if bytes_of(bits[8:16])[0] == 0x70:
        return select_fault(frame, code, five)
    return anticollision_fault(frame, five)


def anticollision_fault(frame, five):
    bits = frame.bits
    high, low = divmod(bytes_of(bits[8:16])[0], 16)
    if high < 2:
        return "second-byte-below-20h"
    if high > 6:
        return "second-byte-above-70h"
    if low > 7:
        return "second-byte-68h-6Fh" if high == 6 else "low-half-above-7"
    known = 8 * (high - 2) + low
    if len(bits) != 16 + known:
        return "too-few-bits" if len(bits) < 16 + known else "too-many-bits"
    if bits[16:] != bits_of(five)[:known]:
        only_last = bits[16:-1] == bits_of(five)[:known - 1]
        return "no-match-at-last-bit" if only_last else "no-match"
    return None if frame.parity_good else "anticollision-bad-parity"


def select_fault(frame, code, five):
    """"Second byte 70h: five right bytes and CRC"."""
    bits = frame.bits
    right = bits_of([code, 0x70] + five)
    if len(bits) != len(right) + 16:
        return "select-too-short" if len(bits) < len(right) + 16 else "select-too-long"
    if bits[:56] != right:
        wrong = [i for i in range(5) if bits[16 + 8 * i:24 + 8 * i] != BITS_OF_BYTE[five[i]]]
        return f"select-wrong-byte-{wrong[0]}"
    if bits[56:] != crc_a(right):
        return "select-wrong-crc"
    return None if frame.parity_good else "select-bad-parity"
