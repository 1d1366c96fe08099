"""Q-4: the register of CRC_A, byte by byte, for the groups that begin with its name.

A byte goes into the register in one step: the register's low half, exclusive-or the
byte, is shifted out, and what was the high half moves down. So each of these halves
can have a value at which a program is wrong, and at no other.
"""

from functools import cache

from rules.naming import each
from tag.bits import bits_of

START = 0x6363
REFLECTED = 0x8408              # x^16+x^12+x^5+1, the lowest power in the highest bit

VALUES = [f"{value:02X}" for value in range(256)]
# Registers that a byte may find: none of the data is seen in them, or all bits are set.
BEFORE_A_BYTE = [0x0000, 0xFFFF, 0x00FF, 0xFF00, 0x0001, 0x8000, 0x6363]
CHECKS = [0x0000, 0xFFFF, 0x6363]


def words(numbers):
    """Numbers of 16 bits as the keys write them."""
    return [f"{number:04X}h" for number in numbers]


def rules_of_steps(stem, where):
    """The rules that the bytes of a frame or of an answer can meet, whatever they mean."""
    every = f"Q-4: The same CRC_A for every input ({where}: "
    return {
        **each(f"{stem}.low-half", VALUES, every + "low half of register xor byte {}h)"),
        **each(f"{stem}.first", VALUES, every + "low half {}h at its first byte)"),
        **each(f"{stem}.last", VALUES, every + "low half {}h at its last byte before the check)"),
        **each(f"{stem}.high-half", VALUES, every + "high half of the register {}h)"),
        **each(f"{stem}.before-a-byte", words(BEFORE_A_BYTE), every + "the register is {} before a byte)"),
        **each(f"{stem}.check", words(CHECKS), every + "the check is {})"),
        **each(f"{stem}.all", ["00h", "FFh"], every + "all bytes are {})"),
    }


@cache
def shifted(low):
    """What eight shifts make of a register's low half."""
    for _ in range(8):
        low = low >> 1 ^ (REFLECTED if low & 1 else 0)
    return low


def registers(data, start=START):
    """The register before each byte, and behind the last."""
    found = [start]
    for byte in data:
        found.append(found[-1] >> 8 ^ shifted((found[-1] ^ byte) & 0xFF))
    return found


def check_of(data, start=START):
    """The register behind the last byte, which is the check."""
    return registers(data, start)[-1]


def with_check(data, check):
    """The bits of a frame with this check behind its bytes, be it right or wrong."""
    return bits_of([*data, check % 256, check >> 8])


def of_steps(stem, data):
    """The rules of `rules_of_steps` that these bytes meet, each once."""
    *before, check = registers(data)
    lows = [(register ^ byte) & 0xFF for register, byte in zip(before, data)]
    for low in dict.fromkeys(lows):
        yield f"{stem}.low-half/{low:02X}"
    yield f"{stem}.first/{lows[0]:02X}"
    yield f"{stem}.last/{lows[-1]:02X}"
    for high in {register >> 8: None for register in before}:
        yield f"{stem}.high-half/{high:02X}"
    for register in BEFORE_A_BYTE:
        if register in before[1:]:
            yield f"{stem}.before-a-byte/{register:04X}h"
    if check in CHECKS:
        yield f"{stem}.check/{check:04X}h"
    if set(data) in ({0x00}, {0xFF}):
        yield f"{stem}.all/{data[0]:02X}h"
