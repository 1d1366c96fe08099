"""Wrong by hand: writers that write other bytes, or answer others."""

SECONDS, WATTS = 'seconds.to_bytes(4, "little")', 'watts.to_bytes(4, "little")'
READING = f"return BEGINNING + {SECONDS} + {WATTS}"
HEAD = "bytes([MESSAGE, 0x0B])"
END = "bytes([TERMINATOR])"
DUE = f"area[:LEAST_BYTES] = {HEAD} + reading_of(seconds, watts) + {END}"
ANSWERED = 'return f"area {lent.hex().upper()}"'


def instead(right, wrong):
    return "workshop.writer", right, wrong


def eight(expression):
    """Other bytes behind D5 00 08."""
    return instead(READING, f"return BEGINNING + {expression}")


def numbers(statement):
    """Something is done with the numbers before they are written."""
    return instead(READING, f"{statement}\n    {READING}")


def beginning(*three):
    """Other bytes than D5 00 08."""
    return instead(READING, READING.replace("BEGINNING", f"bytes({list(three)})"))


def head(*parts):
    """Other bytes than 03h 0Bh."""
    return instead(HEAD, f"bytes({list(parts)})")


def answered(expression):
    """The area is answered otherwise."""
    return "workshop.player", ANSWERED, f"return {expression}"


ORDERS_BY_HAND = {
    "watts are written before seconds": eight(f"{WATTS} + {SECONDS}"),
    "seconds are written high byte first": eight(f"{SECONDS} + {WATTS}".replace('"little"', '"big"', 1)),
    "watts are written high byte first": eight(f"{SECONDS} + {WATTS.replace('little', 'big')}"),
    "both are written high byte first": eight(f"{SECONDS} + {WATTS}".replace("little", "big")),
    "the eight bytes are written in the other order": eight(f"({SECONDS} + {WATTS})[::-1]"),
    "the halves of the seconds are exchanged": eight(f"({SECONDS} * 2)[2:6] + {WATTS}"),
    "the halves of the watts are exchanged": eight(f"{SECONDS} + ({WATTS} * 2)[2:6]"),
    "the bytes of each half of the seconds are exchanged": eight(
        f"bytes({SECONDS}[place] for place in (1, 0, 3, 2)) + {WATTS}"),
    "the bytes of each half of the watts are exchanged": eight(
        f"{SECONDS} + bytes({WATTS}[place] for place in (1, 0, 3, 2))"),
    "seconds are written twice": eight(f"{SECONDS} * 2"),
    "watts are written twice": eight(f"{WATTS} * 2"),
    "the reading begins with its eight bytes": instead(READING, f"return {SECONDS} + {WATTS} + BEGINNING"),
}

NUMBERS_BY_HAND = {
    **{f"{name} are written in {bits} bits": numbers(f"{name} %= 2 ** {bits}")
       for name in ("seconds", "watts") for bits in (31, 30, 24, 16, 15, 8)},
    **{f"{name} are written up to {most}": numbers(f"{name} = min({name}, {most})")
       for name in ("seconds", "watts") for most in (2 ** 31 - 1, 2 ** 24 - 1, 65535, 2 ** 32 - 2)},
    **{f"bit {bit} of the {name} is lost": numbers(f"{name} &= ~(1 << {bit})")
       for name in ("seconds", "watts") for bit in range(32)},
    **{f"byte {place} of the {name} is never {byte:02X}h": numbers(
        f"{name} ^= {1 << 8 * place} * ({name} >> {8 * place} & 0xFF == {byte})")
       for name in ("seconds", "watts") for place in range(4) for byte in (0x00, 0xFE, 0xFF)},
    "seconds of 0 are 1": numbers("seconds = seconds or 1"),
    "watts of 0 are 1": numbers("watts = watts or 1"),
    "seconds are written as minutes": numbers("seconds //= 60"),
    "watts are written as kilowatts": numbers("watts //= 1000"),
    "seconds are counted from 1": numbers("seconds = (seconds + 1) % 2 ** 32"),
    "watts take a sign": numbers("watts = watts if watts < 2 ** 31 else 2 ** 32 - watts"),
    "seconds and watts are added": numbers("watts = (seconds + watts) % 2 ** 32"),
    "watts as many as seconds are 0": numbers("watts = 0 if watts == seconds else watts"),
    "seconds are written by their decimal digits": eight(
        f'bytes.fromhex(f"{{seconds % 10 ** 8:08}}")[::-1] + {WATTS}'),
    "watts are written by their decimal digits": eight(
        f'{SECONDS} + bytes.fromhex(f"{{watts % 10 ** 8:08}}")[::-1]'),
    "FEh in a reading is written as FDh": eight(f"({SECONDS} + {WATTS}).replace(b'\\xFE', b'\\xFD')"),
    "03h in a reading is written as 00h": eight(f"({SECONDS} + {WATTS}).replace(b'\\3', b'\\0')"),
    "a reading ends at FEh": eight(f"({SECONDS} + {WATTS}).partition(b'\\xFE')[0].ljust(8, b'\\0')"),
    "a reading ends at 00h": eight(f"({SECONDS} + {WATTS}).partition(b'\\0')[0].ljust(8, b'\\0')"),
    "a reading as large as 2^63 is another": numbers("watts %= 2 ** 31 if seconds >= 2 ** 31 else 2 ** 32"),
}

HEADS_BY_HAND = {
    **{f"the length is written as {length:02X}h": head(0x03, length)
       for length in (0x00, 0x08, 0x0A, 0x0C, 0x0D, 0x0E)},
    "the length is written as FFh and two": instead(
        DUE, DUE.replace("LEAST_BYTES", "16").replace(HEAD, "bytes([MESSAGE, 0xFF, 0, 0x0B])")),
    "the length is written before the type": head(0x0B, 3),
    **{f"the type is written as {kind:02X}h": head(kind, 0x0B)
       for kind in (0x00, 0x01, 0x02, 0x04, 0x83, 0xD5, 0xFD)},
    "the beginning is 00 D5 08": beginning(0x00, 0xD5, 0x08),
    "the beginning is D5 08 00": beginning(0xD5, 0x08, 0x00),
    "the beginning is 08 00 D5": beginning(0x08, 0x00, 0xD5),
    "the beginning is D4 00 08": beginning(0xD4, 0x00, 0x08),
    "the beginning is D1 00 08": beginning(0xD1, 0x00, 0x08),
    "the beginning is D0 00 08": beginning(0xD0, 0x00, 0x08),
    "the beginning is D5 01 08": beginning(0xD5, 0x01, 0x08),
    "the beginning is D5 00 0B": beginning(0xD5, 0x00, 0x0B),
    "the beginning is D5 00 09": beginning(0xD5, 0x00, 0x09),
    "the beginning is D5 00 00": beginning(0xD5, 0x00, 0x00),
    "the beginning is 5D 00 08": beginning(0x5D, 0x00, 0x08),
}

ENDS_BY_HAND = {
    "FEh isn't written": instead(DUE, DUE.replace(END, "area[13:14]")),
    "FEh is written only over 00h": instead(
        DUE, DUE.replace(END, "(area[13:14] if area[13] else bytes([TERMINATOR]))")),
    "FEh isn't written as the last byte": instead(
        DUE, DUE.replace(END, "(area[13:14] if len(area) == 14 else bytes([TERMINATOR]))")),
    "FEh isn't written before FEh": instead(
        DUE, DUE.replace(END, "(bytes(1) if area[14:15] == bytes([TERMINATOR]) else bytes([TERMINATOR]))")),
    "FEh isn't written before a block": instead(
        DUE, DUE.replace(END, "(area[13:14] if area[14:15] == bytes([MESSAGE]) else bytes([TERMINATOR]))")),
    **{f"{end:02X}h is written for FEh": instead(END, f"bytes([{end}])")
       for end in (0x00, 0x03, 0xEF, 0xFD, 0xFF)},
    "FEh is written before the reading": instead(
        DUE, f"area[:LEAST_BYTES] = {END} + {HEAD} + reading_of(seconds, watts)"),
    "00h is written before the reading": instead(
        DUE, f"area[:LEAST_BYTES] = bytes(1) + {HEAD} + reading_of(seconds, watts)"),
}

ANSWERS_BY_HAND = {
    "an area is answered in small letters": answered('f"area {lent.hex()}"'),
    "fourteen bytes are answered": answered('f"area {lent[:14].hex().upper()}"'),
    "the rest alone is answered": answered('f"area {lent[14:].hex().upper() or \'-\'}"'),
    "an area is answered as it was": answered('f"area {area.hex().upper()}"'),
    "an area is answered with spaces": answered('f"area {lent.hex(\' \').upper()}"'),
    "an area is answered byte by byte from its end": answered('f"area {lent[::-1].hex().upper()}"'),
    "an area is answered with its digits exchanged": answered(
        'f"area {bytes(16 * (byte % 16) + byte // 16 for byte in lent).hex().upper()}"'),
    "an area is answered without 00h at its end": answered('f"area {lent.rstrip(bytes(1)).hex().upper()}"'),
    "1,024 bytes are answered at most": answered('f"area {lent[:1024].hex().upper()}"'),
    "an area is answered by `reading`": answered('f"reading {lent.hex().upper()}"'),
    "an area is answered by `image`": answered('f"image {lent.hex().upper()}"'),
    "an area is answered by a capital": answered('f"Area {lent.hex().upper()}"'),
    "an area is answered without its word": answered("lent.hex().upper()"),
    "an area is answered without its space": answered('f"area{lent.hex().upper()}"'),
    "an area is answered with a space at its end": answered('f"area {lent.hex().upper()} "'),
    "an area is answered with its length": answered('f"area {len(lent)} {lent.hex().upper()}"'),
}

WRITTEN_BY_HAND = {**ORDERS_BY_HAND, **NUMBERS_BY_HAND, **HEADS_BY_HAND, **ENDS_BY_HAND, **ANSWERS_BY_HAND}
