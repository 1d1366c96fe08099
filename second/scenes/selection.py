"""READY1 and READY2."""

from rules.selection import FAULTS
from tag.bits import bits_of, bytes_of, with_crc
from tag.frames import REQA, WUPA


def anticollision(s, size):
    """Every n, in both levels; the tag stays where it is."""
    s.image(size)
    for state in ("READY1", "READY2"):
        s.reach(state)
        for known in s.dice.shuffled(range(40)):
            s.frame(s.anticollision_bits(known))


def anticollision_keeps_all(s, wait):
    """Every n, in both levels, after a READ in the same field. The tag stays
    where it is, for the REQA behind it is silent; keeps its wait state, for the
    next REQA shows which; and keeps that a READ was answered, for the last READ
    doesn't count."""
    s.image(45)
    for state in ("READY1", "READY2"):
        s.active()
        for known in range(40):
            s.reach(state, wait)
            s.frame(s.anticollision_bits(known))
            s.frame(REQA)
        s.look_at_radio()


def flipped(bits, place):
    return bits[:place] + [1 - bits[place]] + bits[place + 1:]


STRANGE_SECOND_BYTES = {
    "second-byte-below-20h": [0x00, 0x07, 0x10, 0x17, 0x18, 0x1F],
    "low-half-above-7": [0x28, 0x29, 0x2F, 0x38, 0x3F, 0x48, 0x4C, 0x58, 0x5F],
    "second-byte-68h-6Fh": [0x68, 0x69, 0x6E, 0x6F],
    "second-byte-above-70h": [0x71, 0x78, 0x7F, 0x80, 0xA0, 0xA4, 0xB0, 0xC7, 0xE7, 0xF0, 0xFF],
}


def frame_with_second_byte(s, second):
    """A frame that would be right if only its second byte were."""
    code, five = s.level()
    if second % 0x80 == 0x70:
        return with_crc([code, second] + five)
    known = max(0, 8 * (second // 16 % 8 - 2) + second % 16)
    return (bits_of([code, second] + five) + [0] * 16)[:16 + known]


def faulty_ready_frame(s, fault):
    """A frame with this fault, for the level the tag is in, and its parity."""
    dice = s.dice
    code, five = s.level()
    known = dice.between(2, 39)
    match, select = s.anticollision_bits(known), s.select_bits()
    if fault in STRANGE_SECOND_BYTES:
        return frame_with_second_byte(s, dice.one_of(STRANGE_SECOND_BYTES[fault])), True
    if fault.startswith("select-wrong-byte-"):
        place = 16 + 8 * int(fault[-1]) + dice.below(8)
        return with_crc(bytes_of(flipped(select, place)[:56])), True
    frames = {
        "reqa": (REQA, dice.one_in(2)),
        "wupa": (WUPA, dice.one_in(2)),
        "under-two-bytes": (match[:dice.between(8, 15)], True),
        "code-of-other-level": (bits_of([0x93 + 0x95 - code]) + dice.one_of([match, select])[8:], True),
        "other-code": (bits_of([dice.one_of([0x97, 0x13, 0x30])]) + dice.one_of([match, select])[8:], True),
        "too-few-bits": (match[:-dice.between(1, known)], True),
        "too-many-bits": (match + bits_of(five)[known:known + dice.between(1, 40 - known)], True),
        "no-match": (flipped(match, 16 + dice.below(known - 1)), True),
        "no-match-at-last-bit": (flipped(match, 15 + known), True),
        "anticollision-bad-parity": (match, False),
        "select-too-short": (select[:dice.one_of([16, 56, 64, 71])], True),
        "select-too-long": (select + [0] * dice.one_of([1, 8, 16]), True),
        "select-wrong-crc": (flipped(select, dice.between(56, 71)), True),
        "select-bad-parity": (select, False),
    }
    return frames[fault]


def strange_second_bytes(s):
    """Second bytes that aren't right, in frames that are otherwise."""
    s.image(s.dice.size())
    for seconds in STRANGE_SECOND_BYTES.values():
        for second in seconds:
            s.reach(s.dice.one_of(["READY1", "READY2"]))
            s.frame(frame_with_second_byte(s, second))


def ready_silences(s, state, wait):
    """Every fault of a frame in READY1 or READY2, then a look at where it led."""
    s.image(s.dice.size())
    for fault in s.dice.shuffled(FAULTS):
        s.reach(state, wait)
        s.frame(*faulty_ready_frame(s, fault))
        s.look_at_radio()


def short_selects(s):
    """SELECT without its end: without its CRC_A it is no anticollision of forty
    bits either."""
    s.image(45)
    for state in ("READY1", "READY2"):
        for length in (16, 24, 55, 56, 57, 64, 71):
            s.reach(state)
            s.frame(s.select_bits()[:length])
            s.look_at_radio()


def exchanged_uids(s, wait):
    """SELECT with another UID and the CRC_A of the right one, and with the right
    UID and the CRC_A of another, in both levels: both are silent. And another
    UID with its own CRC_A."""
    s.image(45)
    for state in ("READY1", "READY2"):
        for byte in range(2, 7):
            s.reach(state, wait)
            right = s.select_bits()
            other = with_crc(bytes_of(flipped(right, 8 * byte + s.dice.below(8)))[:7])
            for bits in (other[:56] + right[56:], right[:56] + other[56:], other):
                s.reach(state, wait)
                s.frame(bits)
                s.frame(s.anticollision_bits(0) if s.radio.state == state else bits_of([0x95, 0x20]))
    s.look_at_radio()


def any_exchanged_uids(s):
    exchanged_uids(s, s.dice.one_of(["IDLE", "HALT"]))


def any_ready_silences(s):
    ready_silences(s, s.dice.one_of(["READY1", "READY2"]), s.dice.one_of(["IDLE", "HALT"]))


def stored(s):
    for wait in ("IDLE", "HALT"):
        for state in ("READY1", "READY2"):
            ready_silences(s, state, wait)
        exchanged_uids(s, wait)
        anticollision_keeps_all(s, wait)
    short_selects(s)
    strange_second_bytes(s)
    strange_second_bytes(s)


def stored_of_size(s, size):
    anticollision(s, size)


OF_ANY_KIND = [any_ready_silences, any_exchanged_uids, short_selects, strange_second_bytes]
OF_ANY_SIZE = [anticollision]
