"""Frames in ACTIVE, up to the command; HLTA and GET_VERSION."""

from tag.bits import bytes_of, with_crc
from tag.frames import COMMANDS, SILENCE
from tag.password import pwd_auth
from tag.reads import fast_read, read, read_cnt
from tag.writes import write


def in_active(radio, frame):
    """"ACTIVE, in order": the form, then parity and CRC, then code and length,
    "Then the command." """
    bits = frame.bits
    # "not whole bytes, or under 3 bytes: silence, wait state."
    if len(bits) % 8 or len(bits) < 24:
        return radio.silent()
    data = bytes_of(bits)[:-2]
    # "Bad parity or CRC: NAK 1h."
    if not frame.parity_good or bits != with_crc(data):
        return radio.nak(1)
    # "Unknown code or wrong length: NAK 0h."
    if data[0] not in COMMANDS:
        return radio.nak(0)
    name, length = COMMANDS[data[0]]
    if len(data) != length:
        return radio.nak(0)
    return OBEY[name](radio, *data[1:])


def hlta(radio, second):
    """"HLTA is 50h 00h: silence, HALT; with another second byte: NAK 0h." """
    if second != 0x00:
        return radio.nak(0)
    radio.leave_for("HALT")
    return SILENCE


def get_version(radio):
    """"GET_VERSION 60h: 00 1D 04 01 01 00 s 03 (hex), s = 0F, 11, 13 for
    N = 45, 135, 231." """
    return with_crc([0x00, 0x1D, 0x04, 0x01, 0x01, 0x00, radio.image.layout.size_code, 0x03])


# Each gives the bits of its answer.
OBEY = {"HLTA": hlta, "READ": read, "FAST_READ": fast_read, "WRITE": write,
        "GET_VERSION": get_version, "READ_CNT": read_cnt, "PWD_AUTH": pwd_auth}
