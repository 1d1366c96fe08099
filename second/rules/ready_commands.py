"""Q-2: any other READ in READY1 and READY2, and commands that belong to ACTIVE."""

from rules.naming import each
from rules.reads_at_once import READY, WAITS
from tag.bits import bits_of, bytes_of, with_crc
from tag.frames import COMMANDS, READ_00H

PARTS_OF_READ = {8: "code-alone", 16: "without-crc", 24: "cut-by-a-byte", 31: "cut-by-a-bit"}
MORE_THAN_READ = {33: "and-a-bit", 40: "and-a-byte"}
ADDRESSES = {0x01: "address-01h", 0x04: "address-04h", 0x80: "address-80h"}
FAST_READS = {(0x00, 0x00): "FAST_READ-00h-00h", (0x00, 0x03): "FAST_READ-00h-03h"}

OTHER_READS = [
    *PARTS_OF_READ.values(), *MORE_THAN_READ.values(), "3-bytes", "5-bytes", "longer",
    "bad-parity", "bad-parity-and-crc", "crc-wrong-in-a-bit", "crc-bytes-exchanged", "crc-other",
    *ADDRESSES.values(), "address-N-and-above", "address-other", "address-with-crc-of-00h", "address-bad-crc",
    *FAST_READS.values(), "FAST_READ-other"]
OTHER_COMMANDS = ["WRITE", "GET_VERSION", "READ_CNT", "PWD_AUTH", "HLTA", "code-with-crc-of-READ"]

RULES = {}
for _ready in READY:
    for _wait in WAITS:
        RULES.update(each(f"{_ready}.other-read.wait-{_wait}", OTHER_READS,
                          "Q-2: Any other READ there stays an error: silence, wait state ({})"))
        RULES.update(each(f"{_ready}.command.wait-{_wait}", OTHER_COMMANDS,
                          "Anything else [...]: silence, wait state ({})"))


def met(step):
    if not step.frame or step.state not in READY or step.reads_at_once:
        return
    wait = f"wait-{step.before.tag.radio.wait_state()}"
    read = other_read(step.frame, step.image.layout.size)
    if read:
        yield f"{step.state}.other-read.{wait}/{read}"
    command = other_command(step.frame)
    if command:
        yield f"{step.state}.command.{wait}/{command}"


def has_own_crc(bits):
    return len(bits) % 8 == 0 and len(bits) >= 24 and bits == with_crc(bytes_of(bits)[:-2])


def other_read(frame, size):
    """How a READ or FAST_READ differs from READ 00h; None for any other frame."""
    bits = frame.bits
    if not frame.parity_good:
        if bits[:16] != READ_00H[:16] or len(bits) != len(READ_00H):
            return None
        return "bad-parity" if bits == READ_00H else "bad-parity-and-crc"
    if bits == READ_00H[:len(bits)]:
        return PARTS_OF_READ.get(len(bits))
    if bits[:len(READ_00H)] == READ_00H:
        return MORE_THAN_READ.get(len(bits))
    if bits[:8] == bits_of([0x30]) and len(bits) == len(READ_00H):
        return other_whole_read(bits, size)
    return of_own_crc(bits) if has_own_crc(bits) else None


def other_whole_read(bits, size):
    """A READ of four bytes with another address, or with a wrong CRC."""
    address, crc = bytes_of(bits)[1], bits[16:]
    if address == 0x00:
        return crc_fault(crc, READ_00H[16:])
    if has_own_crc(bits):
        return "address-N-and-above" if address >= size else ADDRESSES.get(address, "address-other")
    return "address-with-crc-of-00h" if crc == READ_00H[16:] else "address-bad-crc"


def crc_fault(crc, right):
    if crc == right[8:] + right[:8]:
        return "crc-bytes-exchanged"
    wrong_bits = sum(given != due for given, due in zip(crc, right))
    return "crc-wrong-in-a-bit" if wrong_bits == 1 else "crc-other"


def of_own_crc(bits):
    """A READ of another length, or a FAST_READ."""
    code, *arguments = bytes_of(bits)[:-2]
    if code == 0x30:
        return {0: "3-bytes", 2: "5-bytes"}.get(len(arguments), "longer")
    if code == 0x3A and len(arguments) == 2:
        return FAST_READS.get(tuple(arguments), "FAST_READ-other")
    return None


def other_command(frame):
    """A whole command of ACTIVE, or the CRC of READ 00h behind another code."""
    bits = frame.bits
    if not frame.parity_good:
        return None
    if bits[8:] == READ_00H[8:]:
        return "code-with-crc-of-READ"
    if not has_own_crc(bits):
        return None
    data = bytes_of(bits)[:-2]
    name, length = COMMANDS.get(data[0], (None, None))
    return name if name in OTHER_COMMANDS and len(data) == length else None
