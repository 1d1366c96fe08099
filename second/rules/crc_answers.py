"""Q-4: the CRC_A behind answers."""

from rules.crc import of_steps, rules_of_steps
from rules.naming import each

DATA_COMMANDS = ["READ", "FAST_READ", "GET_VERSION", "READ_CNT", "PWD_AUTH"]
SAKS = {("READY1", "READY2"): "SAK-04h", ("READY2", "ACTIVE"): "SAK-00h"}
PAGES = {45: [1, 2, 3, 4, 15, 16, 17, 31, 32, 33, 42, 43, 44, 45],
         135: [1, 2, 3, 4, 63, 64, 65, 127, 128, 129, 132, 133, 134, 135],
         231: range(1, 232)}
LOW_FIRST = "CRC_A: [...] low byte first, after all data answers in ACTIVE ({})"

RULES = {
    **each("crc.answer.of", [*SAKS.values(), *DATA_COMMANDS, "READ-00h-in-READY1", "READ-00h-in-READY2"], LOW_FIRST),
    **each("crc.answer.one-bit", range(128), "Q-4: The same CRC_A for every input (16 bytes, bit {} of them alone)"),
    **rules_of_steps("crc.answer", "an answer"),
}
for _size, _pages in PAGES.items():
    RULES.update(each(f"crc.answer.pages.N-{_size}", _pages, LOW_FIRST.format("FAST_READ of {} pages")))


def met(step):
    kind = kind_of(step)
    if kind is None:
        return
    data = bytes.fromhex(step.answer.split()[2].decode("ascii"))[:-2]
    yield f"crc.answer.of/{kind}"
    yield from of_steps("crc.answer", data)
    size = step.image.layout.size
    if kind == "FAST_READ" and len(data) // 4 in PAGES[size]:
        yield f"crc.answer.pages.N-{size}/{len(data) // 4}"
    bits = int.from_bytes(data, "little")
    if len(data) == 16 and bits and bits & bits - 1 == 0:
        yield f"crc.answer.one-bit/{bits.bit_length() - 1}"


def kind_of(step):
    """What an answer is, if it is one with CRC_A; else None."""
    if not step.frame or step.nak is not None:
        return None
    if step.reads_at_once:
        return f"READ-00h-in-{step.state}"
    name, _ = step.command
    return name if name in DATA_COMMANDS else SAKS.get((step.state, step.after.tag.radio.state))
