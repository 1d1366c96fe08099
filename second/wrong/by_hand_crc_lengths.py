"""Wrong by hand: a CRC_A that is right for some lengths alone, document 02, Q-4."""

from wrong.by_hand_crc import by_the_byte, everywhere, of_frames, of_reads

ENDS = [*range(1, 10), 12, *range(15, 18), *range(31, 34), 48, *range(60, 66), *range(127, 130),
        *range(255, 258), *range(507, 514), 600, 768, 900, 916, 920, 923]
GROUPS = [2, 4, 8, 16, 32, 64]


def takes(taken, where=everywhere):
    """These of the bytes go in."""
    return where(*by_the_byte(taken=taken))


def leaves_last_out(group, remainder):
    return f"data[:len(data) - (len(data) % {group} == {remainder})]"


ENDED = {
    **{f"CRC_A is that of the first {end} bytes at most": takes(f"data[:{end}]") for end in ENDS},
    **{f"CRC_A of frames is that of the first {end} bytes at most": takes(f"data[:{end}]", of_frames)
       for end in [1, 2, 4, 8, 16, 32, 48, 60, 61]},
    **{f"CRC_A of reads is that of the first {end} bytes at most": takes(f"data[:{end}]", of_reads)
       for end in [1, 4, 8, 16, 64, 128, 256, 512, 916, 920]},
    **{f"CRC_A counts the bytes modulo {limit}": takes(f"data[:len(data) % {limit}]")
       for limit in [16, 32, 64, 128, 256, 512]},
    **{f"CRC_A counts the bytes modulo {limit}, the last among them": takes(f"data[:(len(data) - 1) % {limit} + 1]")
       for limit in [16, 32, 64, 128, 256, 512]},
    "CRC_A leaves out the last byte": takes("data[:-1]"),
    "CRC_A leaves out the first byte": takes("data[1:]"),
    "CRC_A takes the last byte twice": takes("data + data[-1:]"),
    "CRC_A takes the first byte twice": takes("data[:1] + data"),
    "CRC_A takes a byte 00h more": takes("data + bytes(1)"),
    "CRC_A takes the bytes from the last on": takes("data[::-1]"),
    "CRC_A takes each second byte": takes("data[::2]"),
    "CRC_A exchanges the bytes of each two": takes("[data[at ^ 1] for at in range(len(data) // 2 * 2)]"
                                                   " + list(data[len(data) // 2 * 2:])"),
}

REMAINDERS = {}
for _group in [2, 4, 8, 16]:
    for _remainder in range(_group):
        _where = f"where the length by {_group} leaves {_remainder}"
        _taken = leaves_last_out(_group, _remainder)
        REMAINDERS |= {
            f"CRC_A leaves out the last byte {_where}": takes(_taken),
            f"CRC_A of frames leaves out the last byte {_where}": takes(_taken, of_frames),
        }
        if _remainder % 4 == 0 and _group > 2:      # they give whole pages
            REMAINDERS[f"CRC_A of reads leaves out the last byte {_where}"] = takes(_taken, of_reads)

GROUPED = {}
for _group in GROUPS:
    GROUPED |= {
        f"CRC_A takes whole groups of {_group} alone": takes(f"data[:len(data) // {_group} * {_group}]"),
        f"CRC_A fills up groups of {_group} with 00h": takes(f"data + bytes(-len(data) % {_group})"),
        f"CRC_A leaves out the last of whole groups of {_group}": takes(
            f"data[:-{_group}] if len(data) % {_group} == 0 else data"),
        f"CRC_A takes what is behind groups of {_group} from the front": takes(
            f"data[:len(data) // {_group} * {_group}] + data[:len(data) % {_group}]"),
        f"CRC_A of frames takes whole groups of {_group} alone": takes(
            f"data[:len(data) // {_group} * {_group}]", of_frames),
    }

OF_CRC_LENGTHS = {**ENDED, **REMAINDERS, **GROUPED}
