"""Q-3: the characters of the mirror, and whether the counter's may be shown."""

from rules.mirror import LENGTHS, MODES, Chosen, is_shown, pages_given
from rules.naming import each

DIGITS = "0123456789ABCDEF"
WITH_COUNTER = ["counter", "both"]
TOLD = ["on", "on-authenticated", "on-under-password-authenticated"]
HIDDEN = ["on-under-password", "off", "off-authenticated", "off-under-password", "off-under-password-authenticated"]
COUNTS = ["READ-counts", "FAST_READ-counts", "later", "carries-into-byte-1", "carries-into-byte-2",
          "reaches-FFFFFFh", "stays-at-FFFFFFh", "turned-on-since"]

RULES = {}
for _part in ("UID", "counter"):
    for _half in ("high", "low"):
        RULES.update(each(f"mirror.digit.{_part}.{_half}-half", DIGITS, "Q-3: upper-case hex ({})"))
for _mode in WITH_COUNTER:
    RULES.update(each(f"mirror.counter.{_mode}", TOLD,
                      "Q-3: no mirror with the counter in it when the counter is off, or is under password and "
                      "the tag isn't authenticated: it is shown ({})"))
    RULES.update(each(f"mirror.counter.{_mode}", HIDDEN,
                      "Q-3: no mirror at all: one with the counter in it when the counter is off, or is under "
                      "password and the tag isn't authenticated ({})"))
    RULES.update(each(f"mirror.counter.{_mode}", ["PROT-set", "PROT-clear"],
                      "Q-3: under password and the tag isn't authenticated: PROT is no matter ({})"))
    RULES.update(each(f"mirror.count.{_mode}", COUNTS,
                      "Q-3: counter high byte first and after this READ has counted ({})"))
RULES.update(each("mirror.counter.UID", TOLD + HIDDEN,
                  "Q-3: So does a mirror with the counter in it: this has none in it, and is shown ({})"))
RULES.update(each("mirror.BCC0-left-out", ["UID", "both"],
                  "Q-3: UID bytes 0-2 are image bytes 0-2, UID bytes 3-6 image bytes 4-7: byte 3 is none ({})"))
RULES.update(each("mirror.READ_CNT", MODES, "Q-3: READ and FAST_READ show the characters: READ_CNT doesn't ({})"))


def met(step):
    if step.command[0] == "READ_CNT":
        yield from of_read_cnt(step)
        return
    pages = pages_given(step)
    if not pages:
        return
    chosen = Chosen(step.image)
    if chosen.mode and chosen.fits and set(chosen.pages) & set(pages):
        yield f"mirror.counter.{chosen.mode}/{access_of(step)}"
        if is_shown(chosen, step.before.tag.radio):
            yield from of_shown(step, chosen, pages)
        elif access_of(step) == "on-under-password":
            yield f"mirror.counter.{chosen.mode}/" + ("PROT-set" if step.image.prot() else "PROT-clear")


def of_read_cnt(step):
    chosen = Chosen(step.image)
    if step.nak is None and is_shown(chosen, step.before.tag.radio):
        yield f"mirror.READ_CNT/{chosen.mode}"


def access_of(step):
    words = ["on" if step.image.counter_on() else "off"]
    if step.image.counter_under_password():
        words.append("under-password")
    if step.before.tag.radio.authenticated:
        words.append("authenticated")
    return "-".join(words)


def of_shown(step, chosen, pages):
    uid = bytes(step.image.uid()).hex().upper()
    counter = f"{step.after.tag.image.counter():06X}"
    if chosen.mode != "counter":
        yield from of_digits("UID", uid, chosen.start, pages)
        if step.image.pages[0][3] != step.image.pages[1][0]:
            yield f"mirror.BCC0-left-out/{chosen.mode}"
    if chosen.mode != "UID":
        at = chosen.end - LENGTHS["counter"]
        yield from of_digits("counter", counter, at, pages)
        if set(range(at // 4, (chosen.end + 3) // 4)) <= set(pages):
            yield from of_count(step, f"mirror.count.{chosen.mode}")


def of_digits(part, digits, start, pages):
    """Those digits that are in the pages given."""
    for number, digit in enumerate(digits):
        if (start + number) // 4 in pages:
            yield f"mirror.digit.{part}.{'low' if number % 2 else 'high'}-half/{digit}"


def of_count(step, stem):
    """What this READ does to the number that it shows."""
    if step.before.tag.radio.read_answered:
        yield f"{stem}/later" if step.memory.first_read_found_on else f"{stem}/turned-on-since"
        return
    value = step.image.counter()
    if value == 0xFFFFFF:
        yield f"{stem}/stays-at-FFFFFFh"
        return
    yield f"{stem}/{step.command[0]}-counts"
    if value == 0xFFFFFE:
        yield f"{stem}/reaches-FFFFFFh"
    elif value % 0x10000 == 0xFFFF:
        yield f"{stem}/carries-into-byte-2"
    elif value % 0x100 == 0xFF:
        yield f"{stem}/carries-into-byte-1"
