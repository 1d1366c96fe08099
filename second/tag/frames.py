"""What frames and short answers look like."""

from tag.bits import bits_of, with_crc

REQA = bits_of([0x26])[:7]      # "REQA (7 bits, 26h)"
WUPA = bits_of([0x52])[:7]      # "WUPA (7 bits, 52h)"
ATQA = bits_of([0x44, 0x00])    # "answers 44h 00h, 16 bits, no CRC"

# Document 02, Q-2: "A whole READ frame for address 00h with good [...] CRC"
READ_00H = with_crc([0x30, 0x00])

SILENCE = []                    # "Silence is count 0."
ACK = bits_of([0x0A])[:4]       # "ACK (Ah) and NAK are count 4."
NAK = {0: bits_of([0x00])[:4], 1: bits_of([0x01])[:4]}

# The name of each command, and how many bytes stand before its CRC.
COMMANDS = {
    0x50: ("HLTA", 2),          # "HLTA is 50h 00h"
    0x30: ("READ", 2),          # "READ 30h a"
    0x3A: ("FAST_READ", 3),     # "FAST_READ 3Ah s e"
    0xA2: ("WRITE", 6),         # "WRITE A2h a d0-d3"
    0x60: ("GET_VERSION", 1),   # "GET_VERSION 60h"
    0x39: ("READ_CNT", 2),      # "READ_CNT 39h 02h"
    0x1B: ("PWD_AUTH", 5),      # "PWD_AUTH 1Bh p0-p3"
}


class Frame:
    """The bits of a frame and its parity flag."""

    def __init__(self, bits, parity_good):
        self.bits = bits
        self.parity_good = parity_good
