"""LINES.md: the lines `reading`, good and bad."""

from rules.errors import longer_than, wrong_hex, wrong_number, wrong_words
from rules.lines import of_hex
from rules.naming import each
from rules.workshop.blocks import WRITTEN_LENGTH
from rules.workshop.lines import number_rules, of_number
from workshop.reading import LARGEST_IMAGE, LARGEST_SECOND, TABLE

NUMBERS = ["seconds", "watts"]
LONGEST_LINE = len("reading ") + 10 + 1 + 10 + 1 + 2 * LARGEST_IMAGE

RULES = {
    **number_rules("reading.seconds", "SECONDS"),
    **number_rules("reading.watts", "WATTS"),
    **each("reading.form.hex", ["lower", "upper", "mixed"],
           "HEX is bytes in pairs of hex digits, either case in ({})"),
    "reading.limit/area-1100": "An AREA [...] of at most 1,100 bytes",
    f"reading.limit/line-{LONGEST_LINE}": "`reading SECONDS WATTS AREA`, the longest",
    **each("reading.capitals-for", ["lower", "upper", "mixed"],
           "HEX is bytes in pairs of hex digits, capitals out ({} in)"),
    **each("error.reading", ["no-word", "one-word", "two-words", "four-words", "five-words-and-more"],
           "`reading SECONDS WATTS AREA`: {}"),
    **each("error.reading", ["tab", "carriage-return", "nul", "above-127"], "Any other line ({} in a word)"),
    **each("error.reading.empty", ["seconds", "watts", "area", "behind"],
           "a doubled [...] or trailing space (in place of {})"),
    **each("error.reading", ["area-first", "area-second", "without-watts"],
           "`reading SECONDS WATTS AREA`: in this order ({})"),
    **{key: sentence for name in NUMBERS for key, sentence in each(
        f"error.reading.{name}", ["dash", "bad-number", "number-too-long", f"{LARGEST_SECOND + 1}",
                                  "number-too-large"],
        "SECONDS and WATTS are decimal, of one to ten digits, at most 4294967295 ({})").items()},
    **each("error.reading.area", ["dash-and-more", "bad-digit", "odd-digit", "1101", "too-long"],
           "An AREA [...] HEX of at most 1,100 bytes ({})"),
}


def met(step):
    word, *words = step.text.split(b" ")
    if step.word == "reading":
        yield from of_good_line(step, *(part.decode("ascii") for part in words))
    elif step.error == "not-how" and word == b"reading":
        yield f"error.{name_of_fault(words)}"
        if len(words) == 2 and is_area(words[1]):
            yield "error.reading/without-watts"


def of_good_line(step, seconds, watts, area):
    yield from of_number("reading.seconds", seconds)
    yield from of_number("reading.watts", watts)
    letters = [key.split("/")[1] for key in of_hex(area)]
    yield from (f"reading.form.hex/{kind}" for kind in letters)
    if step.written and any(digit in "ABCDEF" for digit in step.written.area[WRITTEN_LENGTH:].hex().upper()):
        yield from (f"reading.capitals-for/{kind}" for kind in letters)
    if len(step.lent) == LARGEST_IMAGE:
        yield "reading.limit/area-1100"
    if len(step.text) == LONGEST_LINE:
        yield f"reading.limit/line-{LONGEST_LINE}"


def name_of_fault(words):
    """What is wrong behind `reading`; of several faults, the first."""
    fault = wrong_words(b"reading", words, TABLE)
    if fault in ("doubled-space", "trailing-space"):
        return "reading.empty/" + ["seconds", "watts", "area", "behind"][min(words.index(b""), 3)]
    if fault in ("missing-word", "extra-word"):
        return "reading/" + ["no-word", "one-word", "two-words", "", "four-words", "five-words-and-more"][
            min(len(words), 5)]
    if fault:
        return f"reading/{fault}"
    if is_area(words[0]) or is_area(words[1]):
        return "reading/area-first" if is_area(words[0]) else "reading/area-second"
    return name_of_fault_in(*(part.decode("ascii") for part in words))


def is_area(word):
    """Whether a word can be an area, and is too long for a number."""
    return len(word) > 20 and wrong_hex(word.decode("latin-1")) is None


def name_of_fault_in(seconds, watts, area):
    for name, number in (("seconds", seconds), ("watts", watts)):
        fault = "dash" if number == "-" else wrong_number(number, 10, LARGEST_SECOND)
        if fault:
            return f"reading.{name}/{fault}"
    return "reading.area/" + ("dash-and-more" if "-" in area else wrong_hex(area)
                              or longer_than(LARGEST_IMAGE, area, "1101", "too-long"))
