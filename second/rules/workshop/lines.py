"""LINES.md: the lines of `workshop`."""

from rules import skipped
from rules.lines import of_hex
from rules.naming import each
from workshop.reading import LARGEST_IMAGE, LARGEST_SECOND


def number_rules(stem, word):
    """The rules of how a number is written that is this word of a line."""
    return {
        **each(f"{stem}.digits", range(1, 11), word + " [...] decimal, of one to ten digits ({})"),
        f"{stem}.number/leading-zero": "leading zeros are fine",
        f"{stem}.number/zeros": "leading zeros are fine: nothing but zeros",
        f"{stem}.number/ten-digits-of-few":
            "of one to ten digits, leading zeros are fine: ten of a small number",
        f"{stem}.number/4294967295": "at most 4294967295",
    }


RULES = {
    **each("line", ["screen", "screen-without-bytes", "reading", "reading-without-bytes", "help"],
           "the table of lines: {}"),
    **skipped.RULES,
    **each("form.hex", ["lower", "upper", "mixed"], "HEX is bytes in pairs of hex digits, either case in ({})"),
    **number_rules("form", "SECONDS"),
    "limit/image-1100": "An IMAGE [...] of at most 1,100 bytes",
    **each("answer.digits", range(1, 11), "WATTS are decimal, of one to ten digits ({})"),
}


def met(step):
    if step.word is None:
        return
    without_bytes = step.text.endswith(b" -")
    yield f"line/{step.word}" + ("-without-bytes" if without_bytes else "")
    if step.word == "screen":
        yield from of_screen(step)


def of_screen(step):
    _, seconds, image = step.text.decode("ascii").split(" ")
    yield from of_hex(image)
    yield from of_number("form", seconds)
    if len(step.image) == LARGEST_IMAGE:
        yield "limit/image-1100"
    if step.refused is None:
        yield f"answer.digits/{len(step.answer.split(b' ')[1])}"


def of_number(stem, word):
    yield f"{stem}.digits/{len(word)}"
    if len(word) > 1 and word[0] == "0":
        yield f"{stem}.number/" + ("leading-zero" if int(word) else "zeros")
    if len(word) == 10 and int(word) < 10000:
        yield f"{stem}.number/ten-digits-of-few"
    if int(word) == LARGEST_SECOND:
        yield f"{stem}.number/4294967295"
