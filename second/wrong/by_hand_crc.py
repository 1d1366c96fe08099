"""Wrong by hand: mistakes in CRC_A itself, document 02, Q-4: "unroll the shifts by the byte".

The right step by the byte is spelled out here, to be spoiled in one thing: what goes
out of the register is spread over a byte, and that comes back at three places.
"""

from rules.crc_checks import OTHER_CHECKS

# tag.bits, tag.active, tag.reads
SHIFTED_BY_THE_BIT = """    register = bits_of([0x63, 0x63])
    for bit in bits:
        fed_back = bit ^ register.pop(0)
        register.append(fed_back)
        if fed_back:
            register[10] ^= 1
            register[3] ^= 1
    return register"""
JUDGED = "    if not frame.parity_good or bits != with_crc(data):\n"
PAGES_GIVEN = "[byte for page in pages for byte in with_mirror(page, image.shown(page), characters)]"

OUT = "(register ^ byte) & 0xFF"
SPREAD = "(out ^ out << 4) & 0xFF"
STEP = "register >> 8 ^ back << 8 ^ back << 3 ^ back >> 4"
CHECK_BITS = "[register >> place & 1 for place in range(16)]"


def by_the_byte(start="0x6363", taken="data", out=OUT, spread=SPREAD, step=STEP, behind="pass"):
    """Lines that take the CRC_A of `data`, with something in them as it should not be."""
    return [f"register = {start}", f"for byte in {taken}:", f"    out = {out}", f"    back = {spread}",
            f"    high, register = register >> 8, ({step}) & 0xFFFF", f"    {behind}"]


def indented(lines):
    return "".join(f"    {line}\n" for line in lines)


def everywhere(*lines):
    """CRC_A is taken so, of frames and of answers."""
    return "tag.bits", SHIFTED_BY_THE_BIT, indented(
        ["data = bytes_of(bits)", *lines, f"return {CHECK_BITS}"])


def of_frames(*lines):
    """It is taken so of frames in ACTIVE alone."""
    return "tag.active", JUDGED, indented(
        [*lines, f"if not frame.parity_good or bits[-16:] != {CHECK_BITS}:"])


def of_reads(*lines):
    """It is taken so of what READ and FAST_READ give alone."""
    return "tag.reads", f"    return with_crc({PAGES_GIVEN})", indented(
        ["from tag.bits import bits_of", f"data = {PAGES_GIVEN}", *lines, f"return bits_of(data) + {CHECK_BITS}"])


def spoiled(where, half, value):
    """One bit comes out otherwise where this half has this value: a wrong entry, if it
    were a table."""
    bit = (5 * value + 3) % 16
    return where(*by_the_byte(behind=f"register ^= {1 << bit} * ({half} == {value})"))


ENTRIES = {}
for _value in range(256):
    ENTRIES |= {
        f"CRC_A is wrong at the low half {_value:02X}h": spoiled(everywhere, "out", _value),
        f"CRC_A of frames is wrong at the low half {_value:02X}h": spoiled(of_frames, "out", _value),
        f"CRC_A of reads is wrong at the low half {_value:02X}h": spoiled(of_reads, "out", _value),
        f"CRC_A is wrong at the high half {_value:02X}h": spoiled(everywhere, "high", _value),
    }

SIGNED = "(back - 256 * (back >> 7))"
STEPS = {
    "without the high half": "back << 8 ^ back << 3 ^ back >> 4",
    "without << 8": "register >> 8 ^ back << 3 ^ back >> 4",
    "without << 3": "register >> 8 ^ back << 8 ^ back >> 4",
    "without >> 4": "register >> 8 ^ back << 8 ^ back << 3",
    **{f"with {wrong} for {right}": STEP.replace(right, wrong) for right, wrong in [
        ("register >> 8", "register >> 7"), ("register >> 8", "register >> 9"), ("register >> 8", "register"),
        ("back << 8", "back << 7"), ("back << 8", "back << 9"), ("back << 8", "out << 8"),
        ("back << 3", "back << 2"), ("back << 3", "back << 4"), ("back << 3", "back >> 3"),
        ("back << 3", "(back << 3 & 0xFF)"), ("back << 3", "out << 3"), ("back << 3", f"({SIGNED} << 3)"),
        ("back >> 4", "back >> 3"), ("back >> 4", "back >> 5"), ("back >> 4", "back << 4"),
        ("back >> 4", "out >> 4"), ("back >> 4", f"({SIGNED} >> 4)"),
        ("8 ^ back << 8", "8 | back << 8"), ("8 ^ back << 3", "8 | back << 3"), ("3 ^ back >> 4", "3 | back >> 4"),
        ("back << 8 ^ back << 3", "(back << 8) + (back << 3)"),
        ("back << 3 ^ back >> 4", "((back << 3) + (back >> 4))"), ("back << 3 ^ back >> 4", "(back << 3 | back >> 4)"),
        ("register >> 8", "(register - 65536 * (register >> 15) >> 8)")]},
}
SPREADS = ["out", "out ^ out << 4", "(out ^ out << 3) & 0xFF", "(out ^ out << 5) & 0xFF", "out ^ out >> 4",
           "(out ^ out << 4 ^ out >> 4) & 0xFF", "(out | out << 4) & 0xFF", "out + (out << 4) & 0xFF",
           "out << 4 & 0xFF", "(out ^ out << 4) & 0x7F", "(out ^ out << 4) & 0xFE", "(out ^ out << 4) & 0xFFF"]
OUTS = ["(register >> 8 ^ byte) & 0xFF", "register & 0xFF", "byte", "(register | byte) & 0xFF",
        "register + byte & 0xFF", "(register ^ byte) & 0x7F", "(register ^ byte) & 0xFE",
        'int(f"{(register ^ byte) & 0xFF:08b}"[::-1], 2)', "(register ^ byte >> 4 ^ byte % 16 << 4) & 0xFF"]
STARTS = [0x0000, 0xFFFF, 0xC6C6, 0x6300, 0x0063, 0x3636, *(0x6363 ^ 1 << bit for bit in range(16))]

SHIFTS = {
    **{f"CRC_A goes on by the byte {what}": everywhere(*by_the_byte(step=step)) for what, step in STEPS.items()},
    **{f"CRC_A spreads what goes out as {spread}": everywhere(*by_the_byte(spread=spread)) for spread in SPREADS},
    **{f"CRC_A shifts {out} out": everywhere(*by_the_byte(out=out)) for out in OUTS},
    **{f"CRC_A starts at {start:04X}h": everywhere(*by_the_byte(start=str(start))) for start in STARTS},
    "CRC_A goes on where the last one ended": everywhere(
        *by_the_byte(start="globals().get('kept', 0x6363)"), "globals()['kept'] = register"),
    "CRC_A of reads goes on where the last one ended": of_reads(
        *by_the_byte(start="globals().get('kept', 0x6363)"), "globals()['kept'] = register"),
}


def by_the_bit(polynomial=0x8408, shifts=8):
    return everywhere("register = 0x6363", "for byte in data:", "    register ^= byte",
                      f"    for _ in range({shifts}):",
                      f"        register = register >> 1 ^ {polynomial} * (register & 1)")


POLYNOMIALS = {
    **{f"CRC_A has the polynomial {polynomial:04X}h": by_the_bit(polynomial)
       for polynomial in [0x1021, 0x0811, 0xA001, 0x8400, 0x8008, 0x0408, 0x8810, 0x8404, 0x8418, 0x8409]},
    "CRC_A shifts seven times a byte": by_the_bit(shifts=7),
    "CRC_A shifts nine times a byte": by_the_bit(shifts=9),
    **{f"CRC_A is this instead: {name}": everywhere(
        "from rules.crc_checks import OTHER_CHECKS", f"register = OTHER_CHECKS[{name!r}](data)")
       for name in OTHER_CHECKS},
    "CRC_A has its low byte twice": everywhere(*by_the_byte(), "register = register % 256 * 257"),
    "CRC_A has its high byte twice": everywhere(*by_the_byte(), "register = (register >> 8) * 257"),
}

OF_CRC = {**ENTRIES, **SHIFTS, **POLYNOMIALS}
