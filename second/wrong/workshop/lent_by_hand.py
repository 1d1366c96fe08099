"""Wrong by hand: writers that take other areas, or leave another rest."""

TESTED = "if len(area) < LEAST_BYTES:\n        raise Refused(23)"
DUE = "bytes([MESSAGE, 0x0B]) + reading_of(seconds, watts) + bytes([TERMINATOR])"
WRITTEN = f"area[:LEAST_BYTES] = {DUE}"


def instead(right, wrong):
    return "workshop.writer", right, wrong


def refused_if(condition):
    """Another test of which area is too short."""
    return instead(TESTED, f"if {condition}:\n        raise Refused(23)")


def refused_by(number):
    return instead("Refused(23)", f"Refused({number})")


def without_test(statement):
    """No area is refused, and something else is done with it; `due` are the fourteen
    bytes."""
    return instead(f"{TESTED}\n    {WRITTEN}", f"due = {DUE}\n    {statement}")


def before_refusal(statement):
    """Something is done to an area that is refused."""
    return instead(TESTED, TESTED.replace("raise", f"{statement}\n        raise"))


def written(statement):
    """The fourteen bytes, `due`, are written otherwise."""
    return instead(WRITTEN, f"due = {DUE}\n    {statement}")


def behind(statement):
    """Something is done behind what is written."""
    return written(f"area[:14] = due\n    {statement}")


def at(place):
    """Written at another place, where it fits there."""
    return written(f"at = {place}\n    at = at if 0 <= at <= len(area) - 14 else 0\n    area[at:at + 14] = due")


def unless(condition):
    """Nothing is written where the area is like this."""
    return written(f"area[:14] = area[:14] if {condition} else due")


LENGTHS_BY_HAND = {
    "13 bytes are enough": without_test(
        "if len(area) < 13:\n        raise Refused(23)\n    area[:14] = due[:len(area)]"),
    "13 bytes are enough, and become 14": refused_if("len(area) < LEAST_BYTES - 1"),
    "an area takes what fits": without_test("area[:14] = due[:len(area)]"),
    "an area takes what fits, if it has any bytes": without_test(
        "if not area:\n        raise Refused(23)\n    area[:14] = due[:len(area)]"),
    "an area that is too short becomes longer": without_test("area[:14] = due"),
    "an area that is too short is given as it is": without_test("area[:14] = due if len(area) > 13 else area"),
    "14 bytes are too few": refused_if("len(area) <= LEAST_BYTES"),
    "16 bytes are needed": refused_if("len(area) < 16"),
    "144 bytes are needed": refused_if("len(area) < 144"),
    "pages that aren't whole are refused": refused_if("len(area) < LEAST_BYTES or len(area) % 4"),
    "144, 504 and 888 bytes alone are taken": refused_if("len(area) not in (144, 504, 888)"),
    "more than 888 bytes are refused": refused_if("not LEAST_BYTES <= len(area) <= 888"),
    "more than 1,024 bytes are refused": refused_if("not LEAST_BYTES <= len(area) <= 1024"),
    "an area as long as an image is refused": refused_if(
        "len(area) < LEAST_BYTES or len(area) in (184, 544, 928)"),
    "an area's length is taken in a byte": refused_if("len(area) % 256 < LEAST_BYTES"),
    "an area that holds a longer message is refused": refused_if(
        "len(area) < LEAST_BYTES or area[0] == MESSAGE and area[1] > 11"),
    "an area that begins with FEh is refused": refused_if("len(area) < LEAST_BYTES or area[0] == TERMINATOR"),
    "a reading of second 0 is refused": refused_if("len(area) < LEAST_BYTES or seconds == 0"),
    "a reading of 0 watts is refused": refused_if("len(area) < LEAST_BYTES or watts == 0"),
    "a reading of the last second is refused": refused_if("len(area) < LEAST_BYTES or seconds == 2 ** 32 - 1"),
    "a reading of the most watts is refused": refused_if("len(area) < LEAST_BYTES or watts == 2 ** 32 - 1"),
    "an area without bytes is 1": refused_by("23 if area else 1"),
    "an area of 13 bytes is 21": refused_by("21 if len(area) == 13 else 23"),
    **{f"an area that is too short is {number}": refused_by(number) for number in (1, 2, 20, 21, 22, 24, 35)},
    "what fits is written before it is refused": before_refusal(
        f"area[:] = ({DUE})[:len(area)]"),
    "an area is cleared before it is refused": before_refusal("area[:] = bytes(len(area))"),
}

RESTS_BY_HAND = {
    "the rest is cleared": behind("area[14:] = bytes(len(area) - 14)"),
    "the rest is filled with FEh": behind("area[14:] = b'\\xFE' * (len(area) - 14)"),
    "the rest is filled with FFh": behind("area[14:] = b'\\xFF' * (len(area) - 14)"),
    "the rest is cleared to the end of the page": behind("area[14:16] = bytes(len(area[14:16]))"),
    "the rest is cleared to the end of the message that was there": written(
        "end = area[1] + 2 if area[0] == MESSAGE and area[1] < 255 else 0\n    area[:14] = due\n"
        "    area[14:end] = bytes(len(area[14:end]))"),
    "00h stands behind FEh": behind("area[14:15] = bytes(len(area[14:15]))"),
    "00h stands in place of FEh behind it": behind("area[14:15] = area[14:15].replace(b'\\xFE', b'\\0')"),
    "FEh stands twice": behind("area[14:15] = b'\\xFE' * len(area[14:15])"),
    "FEh stands at the end of the area": written("area[:13] = due[:13]\n    area[-1] = TERMINATOR"),
    "FEh stands at the end of the area too": behind("area[-1] = TERMINATOR"),
    "FEh stands behind 00h at the end of the area too": behind("area[-1] = area[-1] or TERMINATOR"),
    "the rest moves on": written("area[:] = (due + area)[:len(area)]"),
    "the rest moves on by a byte": written("area[:] = (due + area[13:])[:len(area)]"),
    "the rest moves on, and the area grows": written("area[:0] = due"),
    "the rest is cut off": behind("del area[14:]"),
    "the last byte is cut off": behind("del area[-1:]"),
    "the last byte is cleared": behind("area[-1] = area[-1] if len(area) == 14 else 0"),
    "the last byte is never 00h": behind("area[-1] = area[-1] or 1"),
    "the rest is turned round": behind("area[14:] = area[:13:-1]"),
    "the reading is written again into the rest": behind("area[14:28] = due[:len(area) - 14]"),
    "a reading in the rest is cleared": behind(
        "area[14:] = area[14:] if area[14:16] != due[:2] else bytes(len(area) - 14)"),
    **{f"the rest ends at byte {end}": behind(f"del area[{end}:]") for end in (16, 144, 256, 504, 888, 1024)},
    **{f"the rest is cleared from byte {end} on": behind(f"area[{end}:] = bytes(len(area[{end}:]))")
       for end in (15, 144, 256, 504, 888, 1024)},
}

PLACES_BY_HAND = {
    "an image's length is written at page 04h": at("16 * (len(area) in (184, 544, 928))"),
    "a reading is written at page 04h where it fits": at("16"),
    "a reading is written a byte late where it fits": at("1"),
    "a reading is written at the end": at("len(area) - 14"),
    "a reading is written behind 00h": at("len(area) - len(area.lstrip(b'\\0'))"),
    "a reading is written over the first 03h": at("area.find(MESSAGE)"),
    "a reading is written over the first FEh": at("area.find(TERMINATOR)"),
    "a reading is written behind a factory's block": at("5 if area[:2] == b'\\1\\3' else 0"),
    "a reading is written behind a reading": at("13 if area.startswith(due[:5]) else 0"),
    "whole pages alone are written": written("area[:12] = due[:12]"),
}

HELD_BY_HAND = {
    "an area that holds a reading stays": unless("area.startswith(due[:5])"),
    "an area that holds a message stays": unless("area[0] == MESSAGE"),
    "an area that begins with FEh stays": unless("area[0] == TERMINATOR"),
    "an area of 00h stays": unless("not any(area)"),
    "an area of FFh stays": unless("set(area) == {0xFF}"),
    "a newer reading stays": unless("area.startswith(due[:5]) and area[8:4:-1] > due[8:4:-1]"),
    "an older reading stays": unless("area.startswith(due[:5]) and area[8:4:-1] < due[8:4:-1]"),
    "a reading of the same second stays": unless("area[:9] == due[:9]"),
    "a reading of the same watts stays": unless("area.startswith(due[:5]) and area[9:13] == due[9:13]"),
    "a reading keeps what is behind it": written("area[:14] = due if not area.startswith(due[:5]) else"
                                                 " due[:13] + area[13:14]"),
    "a message keeps its length": written("length = area[1] if area[0] == MESSAGE else 11\n"
                                          "    area[:14] = due[:1] + bytes([length]) + due[2:]"),
    "a message keeps its length of three bytes": written(
        "area[:16] = bytes(due[:1] + b'\\xFF\\0' + due[1:])[:len(area)] if area[:2] == b'\\3\\xFF'"
        " else due + area[14:16]"),
    "the watts of a reading are added": written(
        "old = area[9:13] if area.startswith(due[:5]) else b''\n"
        "    watts = (watts + int.from_bytes(old, 'little')) % 2 ** 32\n"
        "    area[:14] = due[:9] + watts.to_bytes(4, 'little') + due[13:]"),
    "bits are set, and none is cleared": written("area[:14] = bytes(one | new for one, new in zip(area, due))"),
    "bits are cleared, and none is set": written("area[:14] = bytes(one & new for one, new in zip(area, due))"),
    "bits are turned": written("area[:14] = bytes(one ^ new for one, new in zip(area, due))"),
    "bytes that differ alone are written": written(
        "for place in range(14):\n        if area[place] != due[place]:\n            area[place] = due[place]"),
    "a single byte that differs stays": unless("sum(one != new for one, new in zip(area, due)) == 1"),
    "writing ends at the first byte that is equal": written(
        "equal = [one == new for one, new in zip(area, due)]\n"
        "    end = equal.index(True) if True in equal else 14\n    area[:end] = due[:end]"),
    "bytes that are equal are cleared": written(
        "area[:14] = bytes(0 if one == new else new for one, new in zip(area, due))"),
    **{f"byte {place} stays": written(f"old = area[{place}]\n    area[:14] = due\n    area[{place}] = old")
       for place in range(14)},
    **{f"byte {place} stays where all others are equal": unless(
        f"area[:{place}] + area[{place + 1}:14] == due[:{place}] + due[{place + 1}:]") for place in range(14)},
}

LENT_BY_HAND = {**LENGTHS_BY_HAND, **RESTS_BY_HAND, **PLACES_BY_HAND, **HELD_BY_HAND}
