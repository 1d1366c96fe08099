"""Bits, bytes and CRC_A."""

BITS_OF_BYTE = [[value >> place & 1 for place in range(8)] for value in range(256)]


def bits_of(data):
    """Bytes as bits: "bits packed least significant first"."""
    return [bit for byte in data for bit in BITS_OF_BYTE[byte]]


def bytes_of(bits):
    """Bits as bytes: "Unused high bits of the last byte are zero." """
    numeral = "".join(map("01".__getitem__, reversed(bits)))
    return int(numeral, 2).to_bytes((len(bits) + 7) // 8, "little")


def crc_a(bits):
    """The sixteen check bits that follow these bits.

    "CRC_A: polynomial x^16+x^12+x^5+1, reflected, start 6363h, low byte
    first". Reflected, the terms 1, x^5 and x^12 stand at places 15, 10 and 3.
    Document 02, Q-4, wants "The same CRC_A for every input": here the bits go in one
    by one, as they always did.
    """
    register = bits_of([0x63, 0x63])
    for bit in bits:
        fed_back = bit ^ register.pop(0)
        register.append(fed_back)
        if fed_back:
            register[10] ^= 1
            register[3] ^= 1
    return register


def with_crc(data):
    """These bytes as bits, their CRC_A behind them."""
    bits = bits_of(data)
    return bits + crc_a(bits)


def exclusive_or(data):
    result = 0
    for byte in data:
        result ^= byte
    return result
