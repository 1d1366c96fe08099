"""LINES.md: nothing is kept from one line to the next."""

from rules.naming import each
from rules.workshop.blocks import WRITTEN_LENGTH

OUTCOMES = ["live", "old", "ahead", "1", "20", "21", "22", "area", "23", "help", "error"]
KEEPS_NOTHING = "keeps nothing from one line to the next"

RULES = {
    **{key: sentence for outcome in OUTCOMES for key, sentence in each(
        f"after.{outcome}", OUTCOMES, KEEPS_NOTHING + " ({})").items()},
    **each("again", ["line", "image", "second"], KEEPS_NOTHING + ": the same {} again"),
    **each("image-after", ["longer", "shorter", "none"], KEEPS_NOTHING + ": the image is {}"),
    **each("again.reading", ["line", "numbers", "second", "watts", "area", "area-as-answered"],
           KEEPS_NOTHING + ": the same {} again"),
    **each("area-after", ["longer", "shorter", "too-short", "none"], KEEPS_NOTHING + ": the area is {}"),
    **each("screen-after-reading", ["as-it-was", "as-answered", "same-second", "of-the-watts",
                                    "area-for-image"], KEEPS_NOTHING + ": an image behind an area ({})"),
    **each("reading-after-screen", ["its-user-pages", "same-second", "image-for-area"],
           KEEPS_NOTHING + ": an area behind an image ({})"),
}


def met(step):
    before = step.before
    if before.outcome is None:
        return
    yield f"after.{before.outcome}/{step.outcome}"
    pairs = {("screen", "screen"): of_two_screens, ("reading", "reading"): of_two_readings,
             ("reading", "screen"): of_screen_after_reading, ("screen", "reading"): of_reading_after_screen}
    if (before.word, step.word) in pairs:
        yield from pairs[before.word, step.word](step, *before.arguments)


def of_two_screens(step, present, image):
    """Two `screen` lines, one after the other."""
    if (step.present, step.image) == (present, image):
        yield "again/line"
    elif step.image == image:
        yield "again/image"
    elif step.present == present:
        yield "again/second"
    if len(step.image) < len(image):
        yield "image-after/shorter" if step.image else "image-after/none"
    elif len(step.image) > len(image):
        yield "image-after/longer"


def of_two_readings(step, seconds, watts, area):
    """Two `reading` lines, one after the other."""
    same = [name for name, holds in [("second", step.seconds == seconds), ("watts", step.watts == watts),
                                     ("area", step.lent == area)] if holds]
    if len(same) == 3:
        yield "again.reading/line"
    elif same == ["second", "watts"]:
        yield "again.reading/numbers"
    else:
        yield from (f"again.reading/{name}" for name in same)
    if step.before.outcome == "area" and step.lent == step.before.written.area:
        yield "again.reading/area-as-answered"
    if len(step.lent) > len(area):
        yield "area-after/longer"
    elif len(step.lent) < len(area):
        yield "area-after/" + ("shorter" if step.refused is None else "too-short" if step.lent else "none")


def of_screen_after_reading(step, seconds, watts, area):
    """The image is shown as the line has it, whatever was written before."""
    if step.area is not None and step.before.outcome == "area":
        written = step.before.written
        if step.area == written.area:
            yield "screen-after-reading/as-answered"
        elif step.area == written.found:
            yield "screen-after-reading/as-it-was"
    if step.image == area:
        yield "screen-after-reading/area-for-image"
    if step.present in (seconds, watts):
        yield "screen-after-reading/" + ("same-second" if step.present == seconds else "of-the-watts")


def of_reading_after_screen(step, present, image):
    """The area is written into as the line has it, whatever was shown before."""
    if step.before.outcome != "1" and image[16:].startswith(step.lent) and len(step.lent) >= WRITTEN_LENGTH:
        yield "reading-after-screen/its-user-pages"
    if step.lent == image:
        yield "reading-after-screen/image-for-area"
    if step.seconds == present:
        yield "reading-after-screen/same-second"
