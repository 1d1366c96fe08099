"""Frames in READY1 and READY2: anticollision, SELECT, and the READ that skips them."""

from tag.active import in_active
from tag.bits import bits_of, with_crc
from tag.frames import READ_00H


def in_ready(radio, frame):
    """"READY1 takes code 93h over the five bytes 88h, UID 0-2, BCC0; READY2
    takes 95h over UID 3-6, BCC1." """
    if radio.state == "READY1":
        code, five = 0x93, radio.image.first_five()
    else:
        code, five = 0x95, radio.image.second_five()
    if frame.parity_good and is_select(frame.bits, code, five):
        return selected(radio)
    if frame.parity_good and is_anticollision(frame.bits, code, five):
        # "The answer is the other 40-n, without CRC."
        return bits_of(five)[told_bits(frame.bits):]
    if frame.parity_good and frame.bits == READ_00H:
        return read_at_once(radio, frame)
    # "Anything else, bad parity and a non-match among them: silence, wait state."
    # Document 02, Q-2: "Any other READ there stays an error."
    return radio.silent()


def is_select(bits, code, five):
    """"Second byte 70h: five right bytes and CRC"."""
    return bits == with_crc([code, 0x70] + five)


def is_anticollision(bits, code, five):
    """"Second byte 20h-67h, low half at most 7: n = 8 x (high half - 2) + low
    half; the frame must be 16+n bits, its last n the first n of the forty".

    So n is 0 to 39, and each n has one second byte.
    """
    n = told_bits(bits)
    high, low = n // 8 + 2, n % 8
    return n < 40 and bits == bits_of([code, 16 * high + low]) + bits_of(five)[:n]


def told_bits(bits):
    """"the frame must be 16+n bits" """
    return len(bits) - 16


def selected(radio):
    """"five right bytes and CRC answer 04h (to READY2) or 00h (to ACTIVE),
    each with CRC." """
    if radio.state == "READY1":
        radio.state = "READY2"
        return with_crc([0x04])
    radio.state = "ACTIVE"
    return with_crc([0x00])


def read_at_once(radio, frame):
    """Document 02, Q-2: "Source document 002 allows this and takes the tag to
    ACTIVE; document 01 sends it to the wait state, which is wrong." It "is to be
    answered as ACTIVE would answer it, NAK and all", and "Every NAK goes to the
    wait state." """
    radio.state = "ACTIVE"
    return in_active(radio, frame)
