"""Q-3: which READ and FAST_READ show the mirror, and how much of it."""

from rules.mirror import MODES, Chosen, is_shown, pages_given
from rules.naming import SIZES, each
from rules.reads import border_of
from rules.reads_at_once import READY

PARTS = ["none-before", "front", "inside", "all", "back", "last-page", "none-behind"]
# READ gives four pages: both together have five or six, the others at most five.
PARTS_BY_READ = {mode: [part for part in PARTS if part != ("all" if mode == "both" else "inside")] for mode in MODES}
AT_BORDER = ["READ-rolls-before-it", "READ-rolls-inside", "READ-rolls-behind-it", "FAST_READ-up-to-it"]
PAST_AUTH0 = ["authenticated", "PROT-clear"]

RULES = {}
for _mode in MODES:
    RULES.update(each(f"mirror.READ.{_mode}", PARTS_BY_READ[_mode],
                      "Q-3: READ and FAST_READ show the characters: those of their pages ({})"))
    RULES.update(each(f"mirror.FAST_READ.{_mode}", PARTS,
                      "Q-3: READ and FAST_READ show the characters: those of their pages ({})"))
    RULES.update(each(f"mirror.all-pages.{_mode}", SIZES,
                      "Q-3: FAST_READ shows the characters: of pages 0 to N-1 (N = {})"))
    RULES.update(each(f"mirror.border.{_mode}", AT_BORDER,
                      "Q-3: four pages (a+i) mod B: no character of a page at or past B ({})"))
    RULES[f"mirror.border.{_mode}/NAK"] = "Q-3: NAK 0h unless s <= e < B, with characters or without"
    RULES.update(each(f"mirror.past-AUTH0.{_mode}", PAST_AUTH0,
                      "Q-3: B is N: characters of pages from AUTH0 on are shown ({})"))
    for _ready in READY:
        RULES.update(each(f"mirror.{_ready}.read-00h.{_mode}", ["from-04h", "below-04h"],
                          "Q-3: READ 00h gives no user page, so that it shows no character ({})"))
RULES.update(each("mirror.rolls-at-N", SIZES, "Q-3: four pages (a+i) mod N: stored bytes behind it (N = {})"))


def met(step):
    if step.command[0] not in ("READ", "FAST_READ"):
        return
    chosen = Chosen(step.image)
    if step.reads_at_once:
        yield from of_read_at_once(step, chosen)
    elif is_shown(chosen, step.before.tag.radio):
        yield from of_nak(step, chosen) if step.nak is not None else of_read(step, chosen)


def of_read_at_once(step, chosen):
    if chosen.mode and step.nak is None:
        stem = f"mirror.{step.state}.read-00h.{chosen.mode}"
        if chosen.start == 4 * 0x04:
            yield f"{stem}/from-04h"
        elif chosen.page < 4:
            yield f"{stem}/below-04h"


def of_nak(step, chosen):
    """A FAST_READ of the mirror's first page and on to page B, which is one of the mirror's
    too."""
    name, arguments = step.command
    if name == "FAST_READ" and arguments[0] <= chosen.page and arguments[1] == border_of(step) in chosen.pages:
        yield f"mirror.border.{chosen.mode}/NAK"


def of_read(step, chosen):
    pages, name, mode = pages_given(step), step.command[0], chosen.mode
    border, size = border_of(step), step.image.layout.size
    if pages[-1] < pages[0]:
        yield from of_rolling(chosen, pages[0], border, size)
        return
    part = part_of(chosen.pages, pages)
    if part in (PARTS if name == "FAST_READ" else PARTS_BY_READ[mode]):
        yield f"mirror.{name}.{mode}/{part}"
    if len(pages) == size:
        yield f"mirror.all-pages.{mode}/{size}"
    if name == "FAST_READ" and pages[-1] == border - 1 and border in chosen.pages[1:]:
        yield f"mirror.border.{mode}/FAST_READ-up-to-it"
    if part and step.image.auth0() in chosen.pages and step.image.auth0() in pages:
        yield f"mirror.past-AUTH0.{mode}/" + ("PROT-clear" if not step.image.prot() else "authenticated")


def of_rolling(chosen, first, border, size):
    """A READ that goes on with page 00h."""
    if border == size:
        yield f"mirror.rolls-at-N/{size}"
    elif border == chosen.pages[0]:
        yield f"mirror.border.{chosen.mode}/READ-rolls-before-it"
    elif border in chosen.pages:
        yield f"mirror.border.{chosen.mode}/READ-rolls-inside"
    elif border == chosen.pages[-1] + 1 and first in chosen.pages:
        yield f"mirror.border.{chosen.mode}/READ-rolls-behind-it"


def part_of(mirrored, pages):
    """How the pages that are given lie to those that have characters; None where they
    are far from them."""
    first, last = pages[0], pages[-1]
    if last < mirrored[0]:
        return "none-before" if last == mirrored[0] - 1 else None
    if first > mirrored[-1]:
        return "none-behind" if first == mirrored[-1] + 1 else None
    if first <= mirrored[0]:
        return "all" if last >= mirrored[-1] else "front"
    if first == mirrored[-1]:
        return "last-page"
    return "back" if last >= mirrored[-1] else "inside"
