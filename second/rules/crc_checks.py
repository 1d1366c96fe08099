"""Q-4: checks that aren't the CRC_A of their bytes, but look as if somebody meant it."""

from rules.crc import check_of

UNREFLECTED = 0x1021            # x^16+x^12+x^5+1, the highest power in the highest bit


def exchanged(check):
    return check >> 8 | check % 256 << 8


def turned_round(bits, amount):
    """The lowest so many bits in the other order."""
    return sum((bits >> place & 1) << amount - 1 - place for place in range(amount))


def shifted_left(data, start=0x6363):
    """The polynomial not reflected: the highest bit of each byte goes in first."""
    register = start
    for byte in data:
        register ^= byte << 8
        for _ in range(8):
            register = (register << 1 ^ (UNREFLECTED if register & 0x8000 else 0)) & 0xFFFF
    return register


def shifted_right_unreflected(data):
    """Shifts to the right, but by the polynomial as it is not reflected."""
    register = 0x6363
    for byte in data:
        register ^= byte
        for _ in range(8):
            register = register >> 1 ^ (UNREFLECTED if register & 1 else 0)
    return register


OTHER_CHECKS = {
    "bytes-exchanged": lambda data: exchanged(check_of(data)),
    "bits-turned-round": lambda data: turned_round(check_of(data), 16),
    "bits-of-bytes-turned-round": lambda data: exchanged(turned_round(check_of(data), 16)),
    "bytes-turned-round": lambda data: check_of([turned_round(byte, 8) for byte in data]),
    "without-its-last-byte": lambda data: check_of(data[:-1]),
    "without-its-first-byte": lambda data: check_of(data[1:]),
    "with-a-byte-more": lambda data: check_of([*data, 0x00]),
    "start-0000h": lambda data: check_of(data, 0x0000),
    "start-FFFFh": lambda data: check_of(data, 0xFFFF),
    "start-C6C6h": lambda data: check_of(data, 0xC6C6),
    "complement": lambda data: check_of(data) ^ 0xFFFF,
    "CRC_B": lambda data: check_of(data, 0xFFFF) ^ 0xFFFF,      # that of X.25, too
    "not-reflected": shifted_left,
    "not-reflected-exchanged": lambda data: exchanged(shifted_left(data)),
    "not-reflected-start-C6C6h": lambda data: shifted_left(data, 0xC6C6),
    "polynomial-1021h": shifted_right_unreflected,
    "low-byte-alone": lambda data: check_of(data) ^ 0xFF00,
    "high-byte-alone": lambda data: check_of(data) ^ 0x00FF,
    "0000h": lambda data: 0x0000,
    "FFFFh": lambda data: 0xFFFF,
    "6363h": lambda data: 0x6363,
}
WRONG_BITS = range(16)


def faults_of(data, check):
    """What is wrong with a check, if it is wrong in one bit or one of the others: keys
    without their stem."""
    difference = check ^ check_of(data)
    if difference == 0:
        return
    if difference & difference - 1 == 0:
        yield f"wrong-bit/{difference.bit_length() - 1}"
    for name, other in OTHER_CHECKS.items():
        if check == other(data):
            yield f"other-check/{name}"
