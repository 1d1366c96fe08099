"""Q-6: what the first block of type 03h holds, and how old its reading is."""

from rules.naming import SIZES, each
from rules.workshop.blocks import BEGINNING, is_reading

FULL = 2 ** 32 - 1
HALF = 2 ** 31

RULES = {
    **each("message.one-byte", ["0", "1", "2", "3", "4-9", "10", "11", "12", "13-253", "254"],
           "exactly D5 00 08 and eight bytes (one-byte length {})"),
    **each("message.three-byte", ["0", "1-9", "10", "11", "12", "13-253", "254", "255", "256", "257-266", "267",
                                  "268-and-more"],
           "exactly D5 00 08 and eight bytes (length of FFh and two: {})"),
    **each("not-a-reading", ["10-begin-right", "12-begin-right", "more-begin-right", "reading-at-its-end",
                             "byte-0", "byte-1", "byte-2", "other-bytes"],
           "22 not a reading ({})"),
    **{key: sentence for size in SIZES for key, sentence in {
        **each(f"not-a-reading.{size}", ["empty", "shorter", "longer", "11-bytes"], "22 not a reading ({})"),
        **each(f"reading.{size}", ["one-byte", "three-byte"], "lengths are one byte or FFh and two ({})"),
        **each(f"reading.{size}", [f"at-byte-{byte}" for byte in range(4)],
               "from page 04h through the user pages: it begins {} of a page"),
        **each(f"reading.{size}", ["first", "last", "between"],
               "from page 04h through the user pages: it is {} there"),
        **each(f"verdict.{size}", ["live", "old", "ahead"], "the answer is live [...], old [...], ahead ({})"),
    }.items()},
    **each("reading.place", ["256-511", "512-and-more"], "through the user pages: it begins at byte {}"),
    **each("live", ["0", "1", "2-898", "899", "900"], "live if the reading is 0 to 900 seconds old ({})"),
    **each("old", ["901", "902-and-more", "live-in-8-bits", "live-in-16-bits", "from-2^31", "4294967295"],
           "old if more ({})"),
    **each("ahead", ["1", "2-899", "900", "901", "more", "live-if-it-wraps", "from-2^31", "4294967295"],
           "ahead if it lies in the future (by {})"),
    **each("second", ["0", "4294967295", "from-2^31"], "seconds, [...] four bytes ({})"),
    **each("present", ["0", "4294967295", "from-2^31"], "Given the present second ({})"),
    **each("order", ["high-first", "halves-exchanged", "watts-first"],
           "seconds, then watts, each four bytes low first: {} is another answer"),
    **{key: sentence for word in ("live", "old", "ahead") for key, sentence in each(
        f"watts.{word}", ["0", "4294967295", "from-2^31", "four-bytes", "byte-0-alone", "byte-1-alone",
                          "byte-2-alone", "byte-3-alone"],
        "The watts come back with each of the three ({})").items()},
}


def met(step):
    if step.area is None or step.walk.message is None:
        return
    block, content = step.walk.blocks[-1], step.walk.message
    yield f"message.{block.form}/{name_of_length(block)}"
    if not is_reading(content):
        yield from of_no_reading(step.size, content)
        return
    yield f"reading.{step.size}/{block.form}"
    yield f"reading.{step.size}/at-byte-{block.start % 4}"
    yield f"reading.{step.size}/" + ("first" if block.start == 0 else "last" if block.behind == len(step.area)
                                     else "between")
    if block.start > 255:
        yield "reading.place/" + ("256-511" if block.start < 512 else "512-and-more")
    yield f"verdict.{step.size}/{step.outcome}"
    seconds, watts = (int.from_bytes(part, "little") for part in (content[3:7], content[7:]))
    yield from of_age(step.present - seconds)
    yield from of_numbers(step.present, seconds)
    yield from of_order(step.present, content)
    yield from of_watts(step.outcome, watts)


def name_of_length(block):
    length = block.length
    if block.form == "one-byte":
        return "4-9" if 4 <= length <= 9 else "13-253" if 13 <= length <= 253 else str(length)
    if length in (0, 10, 11, 12, 254, 255, 256, 267):
        return str(length)
    return ("1-9" if length < 10 else "13-253" if length < 254 else "257-266" if length < 267
            else "268-and-more")


def of_no_reading(size, content):
    """Why a message is no reading."""
    length = len(content)
    yield f"not-a-reading.{size}/" + ("empty" if length == 0 else "shorter" if length < 11
                                      else "longer" if length > 11 else "11-bytes")
    if content.startswith(BEGINNING) and length >= 10:
        yield "not-a-reading/" + (f"{length}-begin-right" if length in (10, 12) else "more-begin-right")
    if length > 11 and is_reading(content[-11:]):
        yield "not-a-reading/reading-at-its-end"
    if length == 11:
        wrong = [place for place in range(3) if content[place] != BEGINNING[place]]
        yield "not-a-reading/" + (f"byte-{wrong[0]}" if len(wrong) == 1 else "other-bytes")


def of_age(age):
    if age < 0:
        yield from of_future(-age)
    elif age <= 900:
        yield "live/" + ("2-898" if 2 <= age <= 898 else str(age))
    else:
        yield "old/901" if age == 901 else "old/902-and-more"
        for name, holds in [("live-in-8-bits", age < 65536 and age % 256 <= 900 % 256),
                            ("live-in-16-bits", age > 65535 and age % 65536 <= 900),
                            ("from-2^31", age >= HALF), ("4294967295", age == FULL)]:
            if holds:
                yield f"old/{name}"


def of_future(ahead):
    yield "ahead/" + (str(ahead) if ahead in (1, 900, 901) else "2-899" if ahead < 900 else "more")
    for name, holds in [("live-if-it-wraps", ahead >= 2 ** 32 - 900), ("from-2^31", ahead >= HALF),
                        ("4294967295", ahead == FULL)]:
        if holds:
            yield f"ahead/{name}"


def of_numbers(present, seconds):
    for stem, number in (("present", present), ("second", seconds)):
        if number in (0, FULL):
            yield f"{stem}/{number}"
        if number >= HALF:
            yield f"{stem}/from-2^31"


def of_order(present, content):
    """Which other orders of the bytes would give another answer."""
    seconds, watts = content[3:7], content[7:]
    right = judged(present, seconds)
    for name, other in [("high-first", seconds[::-1]), ("halves-exchanged", seconds[2:] + seconds[:2]),
                        ("watts-first", watts)]:
        if judged(present, other) != right:
            yield f"order/{name}"


def judged(present, seconds):
    age = present - int.from_bytes(seconds, "little")
    return "ahead" if age < 0 else "old" if age > 900 else "live"


def of_watts(word, watts):
    parts = watts.to_bytes(4, "little")
    if watts in (0, FULL):
        yield f"watts.{word}/{watts}"
    if watts >= HALF:
        yield f"watts.{word}/from-2^31"
    if len(set(parts)) == 4 and 0 not in parts:
        yield f"watts.{word}/four-bytes"
    alone = [place for place in range(4) if parts[place]]
    if len(alone) == 1:
        yield f"watts.{word}/byte-{alone[0]}-alone"
