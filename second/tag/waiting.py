"""Frames in IDLE and HALT: "Each frame has a parity flag, ignored in IDLE and
HALT." """

from tag.frames import REQA, SILENCE, WUPA


def in_idle(radio, frame):
    """"IDLE: REQA (7 bits, 26h) or WUPA (7 bits, 52h) answers 44h 00h, 16
    bits, no CRC, to READY1." "Other frames: silence, state kept." """
    if frame.bits in (REQA, WUPA):
        return radio.wake()
    return SILENCE


def in_halt(radio, frame):
    """"HALT: WUPA only." """
    if frame.bits == WUPA:
        return radio.wake()
    return SILENCE
