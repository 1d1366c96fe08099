"""Q-7: what is written, read back by the screen."""

from rules.naming import SIZES, each
from rules.workshop.blocks import WRITTEN_LENGTH, is_reading, walk_of

FULL = 2 ** 32 - 1
AGES = ["ahead-by-1", "ahead-by-more", "0", "1-899", "900", "901", "902-and-more"]

RULES = {
    **{key: sentence for size in SIZES for key, sentence in {
        **each(f"back.{size}.age", AGES, "it is read back by the screen with the same time and watts ({})"),
        **each(f"back.{size}.area", ["all-user-pages", "14", "15-and-more"],
               "Written at page 04h of any right-length image (the area lent: {})"),
        **each(f"back.{size}.held", ["zeros", "FFh", "message", "block", "FEh", "passes"],
               "Written at page 04h of any right-length image, whatever was there ({})"),
        **each(f"back.{size}.behind", ["zeros", "reading", "other-message", "passes", "FEh", "end"],
               "FEh, and the rest as found: behind it {}"),
    }.items()},
    **each("back.second", ["0", "4294967295", "other"], "with the same time ({})"),
    **each("back.watts", ["0", "4294967295", "other"], "with the same time and watts ({})"),
}


def met(step):
    written = step.before.written
    if step.area is None or written is None or not step.area.startswith(written.area):
        return
    yield f"back.{step.size}.age/{name_of_age(step.present - written.seconds)}"
    lent = len(written.area)
    yield f"back.{step.size}.area/" + ("all-user-pages" if lent == len(step.area)
                                       else "14" if lent == WRITTEN_LENGTH else "15-and-more")
    held = name_of_held(written.found + step.area[lent:])
    if held:
        yield f"back.{step.size}.held/{held}"
    yield f"back.{step.size}.behind/{name_of_behind(step.area)}"
    for stem, number in (("second", written.seconds), ("watts", written.watts)):
        yield f"back.{stem}/" + (str(number) if number in (0, FULL) else "other")


def name_of_age(age):
    if age < 0:
        return "ahead-by-1" if age == -1 else "ahead-by-more"
    return "902-and-more" if age > 901 else "1-899" if 0 < age < 900 else str(age)


def name_of_held(area):
    """What the user pages began with before; None for a row of 00h before something
    else."""
    if not any(area):
        return "zeros"
    if set(area) == {0xFF}:
        return "FFh"
    if area[0] == 0x00:
        return None
    walk = walk_of(area)
    if area[0] == 0xFE:
        return "FEh"
    if walk.stop == "passes" and walk.at == 0:
        return "passes"
    return "message" if area[0] == 0x03 else "block"


def name_of_behind(area):
    """What the screen would find behind FEh, if it looked there."""
    if not any(area[WRITTEN_LENGTH:]):
        return "zeros"
    behind = walk_of(area, WRITTEN_LENGTH)
    if behind.stop == "message":
        return "reading" if is_reading(behind.message) else "other-message"
    return behind.stop
