"""LINES.md: lines of `workshop` that are answered by one of the three `error: ..` lines."""

from rules import errors
from rules.errors import longer_than, wrong_hex, wrong_number, wrong_words
from rules.naming import each
from rules.workshop.reading_lines import LONGEST_LINE as LONGEST_GOOD_LINE
from workshop.reading import LARGEST_IMAGE, LARGEST_SECOND, TABLE

CORRIDOR_WORDS = [b"image", b"buffer", b"field", b"frame", b"show", b"tag", b"bus", b"read"]

# What the last word is called.
BYTES_BEHIND = {b"screen": "image", b"reading": "area"}

RULES = {
    **errors.rules_of(TABLE),
    **each(f"error.at-{TABLE.longest}-and-return", ["no-such-command", "not-how"],
           f"the longest line is [...] {TABLE.longest:,} characters: the carriage return is none ({{}})"),
    "error.no-such-command/of-the-corridor": "any other line than those below: a command of `corridor`",
    "error.not-how/longer-than-any-good-line": "where what follows it is wrong, up to 18,597 characters",
    "error.not-how/dash-for-a-number": "SECONDS [...] decimal: `-` is no number",
    "error.not-how/dash-and-more": "`-` for none: alone",
    "error.not-how/words-exchanged": "`screen SECONDS IMAGE`, `reading SECONDS WATTS AREA`: in this order",
    "error.not-how/4294967296": "at most 4294967295",
    "error.not-how/number-too-large": "at most 4294967295",
    "error.not-how/number-too-long": "of one to ten digits, even of zeros",
    **each("error.not-how", ["image-1101", "image-too-long"], "An IMAGE [...] of at most 1,100 bytes ({})"),
    **each("error.not-how", ["area-1101", "area-too-long"], "an AREA [...] of at most 1,100 bytes ({})"),
}


def met(step):
    if step.word is not None:
        return
    yield from errors.met(step, why_not_how)
    if step.error == "too-long":
        yield f"error.too-long.before/{errors.before_what(step)}"
        return
    if step.error == "not-how" and len(step.text) > LONGEST_GOOD_LINE:
        yield "error.not-how/longer-than-any-good-line"
    if step.text.split(b" ")[0] in CORRIDOR_WORDS:
        yield "error.no-such-command/of-the-corridor"
    if len(step.text) == TABLE.longest and step.line != step.text:
        yield f"error.at-{TABLE.longest}-and-return/{step.error}"


def why_not_how(word, rest):
    """What is wrong behind a command word; of several faults, one."""
    return wrong_words(word, rest, TABLE) or wrong_arguments(word, [part.decode("ascii") for part in rest])


def wrong_arguments(word, words):
    """The first fault in the words behind `screen` or `reading`: numbers, and bytes
    behind them."""
    *numbers, data = words
    if "-" in numbers:
        return "dash-for-a-number"
    if any(is_bytes(number) for number in numbers) and not wrong_number(data, 10, LARGEST_SECOND):
        return "words-exchanged"
    for number in numbers:
        fault = wrong_number(number, 10, LARGEST_SECOND)
        if fault:
            return fault
    if "-" in data:
        return "dash-and-more"
    name = BYTES_BEHIND[word]
    return wrong_hex(data) or longer_than(LARGEST_IMAGE, data, f"{name}-1101", f"{name}-too-long")


def is_bytes(word):
    return wrong_hex(word) is None and len(word) > 20
