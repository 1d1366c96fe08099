"""Q-4: commands in ACTIVE whose CRC_A is right, but with a byte less or more."""

from rules.crc import check_of
from rules.naming import each
from tag.bits import bytes_of
from tag.frames import COMMANDS

NAMES = [name for name, length in COMMANDS.values()]
MORE = ["one-byte", "two-bytes", "00h-00h"]

RULES = {**each("crc.cut-by-a-byte", NAMES, "under 3 bytes: silence; Bad [...] CRC: NAK 1h ({})")}
for _name in NAMES:
    RULES.update(each(f"crc.{_name}.and-then", MORE[:2], "Bad [...] CRC: NAK 1h ({} behind the check)"))
    # Behind its own check any message has the check 0000h.
    RULES[f"crc.{_name}.and-then/{MORE[2]}"] = "wrong length: NAK 0h (00h 00h behind the check)"


def met(step):
    if not step.frame or step.state != "ACTIVE" or len(step.frame.bits) % 8 or not step.frame.parity_good:
        return
    frame = bytes_of(step.frame.bits)
    name, length = COMMANDS.get(frame[0], (None, len(frame)))
    check = check_of(frame[:length]).to_bytes(2, "little")
    begun, behind = frame[length:length + 2], frame[length + 2:]
    if begun == check[:1]:
        yield f"crc.cut-by-a-byte/{name}"
    elif begun == check and behind == bytes(2):
        yield f"crc.{name}.and-then/00h-00h"
    elif begun == check and len(behind) in (1, 2):
        yield f"crc.{name}.and-then/{MORE[len(behind) - 1]}"
