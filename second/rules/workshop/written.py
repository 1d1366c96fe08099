"""Q-7: the reading that is written: seconds and watts, byte for byte."""

from rules.naming import each

FULL = 2 ** 32 - 1
HALF = 2 ** 31
NAMES = ["seconds", "watts"]
BYTES = ["byte-0", "byte-1", "byte-2", "byte-3"]
SPEAKING_BYTES = [0x03, 0x08, 0x0B, 0xD5]

RULES = {
    **{key: sentence for name in NAMES for key, sentence in {
        **each(f"written.{name}", ["0", "4294967295", "from-2^31", "four-bytes"],
               f"{name}, [...] four bytes low first ({{}})"),
        **each(f"written.{name}.alone", BYTES, f"{name}, [...] four bytes low first ({{}} alone isn't 00h)"),
        **each(f"written.{name}.zero", BYTES, f"{name}, [...] four bytes low first ({{}} alone is 00h)"),
        **{key: sentence for byte in BYTES for key, sentence in each(
            f"written.{name}.{byte}", ["00h", "FFh", "FEh", "other"],
            f"{name}, [...] four bytes low first ({byte} is {{}})").items()},
    }.items()},
    **each("written.both", ["0", "4294967295", "0-and-4294967295", "4294967295-and-0", "equal", "eight-bytes"],
           "seconds, then watts ({})"),
    **each("written.order", ["seconds-high-first", "watts-high-first", "seconds-halves-exchanged",
                             "watts-halves-exchanged", "watts-first", "eight-high-first"],
           "seconds, then watts, each four bytes low first: {} is another area"),
    **each("written.speaks", [f"{byte:02X}h" for byte in SPEAKING_BYTES],
           "the eleven bytes, whatever they would mean as a type or a length ({})"),
    **each("pair", ["equal", "equal-elsewhere", "exchanged", "carry", "other"],
           "two readings give equal bytes only if they are equal ({})"),
    **{key: sentence for name in NAMES for key, sentence in each(
        f"pair.{name}", [f"bit-{bit}" for bit in range(32)],
        "two readings give equal bytes only if they are equal: {} is another").items()},
}


def met(step):
    if step.written is None:
        return
    numbers = (step.seconds, step.watts)
    for name, number in zip(NAMES, numbers):
        yield from of_number(name, number)
    yield from of_both(*numbers)
    yield from of_order(*(number.to_bytes(4, "little") for number in numbers))
    if step.before.outcome == "area":
        yield from of_pair(step, step.before.written)


def of_number(name, number):
    parts = number.to_bytes(4, "little")
    if number in (0, FULL):
        yield f"written.{name}/{number}"
    if number >= HALF:
        yield f"written.{name}/from-2^31"
    if len(set(parts)) == 4 and 0 not in parts:
        yield f"written.{name}/four-bytes"
    for byte, part in zip(BYTES, parts):
        yield f"written.{name}.{byte}/" + (f"{part:02X}h" if part in (0x00, 0xFE, 0xFF) else "other")
    for stem, places in [("alone", [byte for byte, part in zip(BYTES, parts) if part]),
                         ("zero", [byte for byte, part in zip(BYTES, parts) if not part])]:
        if len(places) == 1:
            yield f"written.{name}.{stem}/{places[0]}"


def of_both(seconds, watts):
    if seconds in (0, FULL) and watts in (0, FULL):
        yield "written.both/" + (f"{seconds}" if seconds == watts else f"{seconds}-and-{watts}")
    elif seconds == watts:
        yield "written.both/equal"
    eight = seconds.to_bytes(4, "little") + watts.to_bytes(4, "little")
    if len(set(eight)) == 8:
        yield "written.both/eight-bytes"
    for byte in SPEAKING_BYTES:
        if byte in eight:
            yield f"written.speaks/{byte:02X}h"


def of_order(seconds, watts):
    """Which other orders of the bytes would be another area."""
    right = seconds + watts
    for name, other in [("seconds-high-first", seconds[::-1] + watts),
                        ("watts-high-first", seconds + watts[::-1]),
                        ("seconds-halves-exchanged", seconds[2:] + seconds[:2] + watts),
                        ("watts-halves-exchanged", seconds + watts[2:] + watts[:2]),
                        ("watts-first", watts + seconds), ("eight-high-first", right[::-1])]:
        if other != right:
            yield f"written.order/{name}"


def of_pair(step, before):
    """Two `reading` lines, one after the other."""
    apart = [step.seconds ^ before.seconds, step.watts ^ before.watts]
    if not any(apart):
        yield "pair/equal" if step.lent == before.found else "pair/equal-elsewhere"
    elif step.lent != before.found:
        return
    elif (step.seconds, step.watts) == (before.watts, before.seconds):
        yield "pair/exchanged"
    elif is_one_bit(apart):
        name, bits = ("seconds", apart[0]) if apart[0] else ("watts", apart[1])
        yield f"pair.{name}/bit-{bits.bit_length() - 1}"
    else:
        by_one = abs(step.seconds - before.seconds) + abs(step.watts - before.watts) == 1
        yield "pair/carry" if by_one and max(apart) > 255 else "pair/other"


def is_one_bit(apart):
    """Whether the two numbers differ in a single bit of one of them."""
    return sum(bin(number).count("1") for number in apart) == 1
