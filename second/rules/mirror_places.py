"""Q-3: where the mirror begins and ends: a rule over start and length."""

from rules.mirror import LENGTHS, MODES, Chosen, is_shown, is_told, pages_given
from rules.naming import SIZES, each, kind_of_page, page_names

BELOW = [*page_names(0, 1, 2, 3), "03h-byte-3"]
BEHIND = ["last-user-page", "lock-page", "settings-1", "settings-2", "pwd", "pack", "at-N", "above-N", "FFh"]
OF_SIZE = [f"N-{size}" for size in SIZES]

RULES = {
    **each("mirror.none", OF_SIZE, "Q-3: bits 7-6 choose none, whatever the start is ({})"),
    "mirror.none/all-other-bits-set": "Q-3: bits 7-6 choose none",
}
for _mode in MODES:
    RULES.update(each(f"mirror.whole.{_mode}", OF_SIZE,
                      f"Q-3: {_mode} ({LENGTHS[_mode]} characters): all are shown ({{}})"))
    RULES.update(each(f"mirror.whole.{_mode}", [f"byte-{byte}" for byte in range(4)],
                      "Q-3: bits 5-4 give the byte in the page, and byte 2 the page ({})"))
    RULES.update(each(f"mirror.from-04h.{_mode}", OF_SIZE,
                      "Q-3: A page below 04h means no mirror: 04h doesn't ({})"))
    RULES.update(each(f"mirror.below-04h.{_mode}", BELOW,
                      "Q-3: A page below 04h [...] means no mirror at all ({})"))
    RULES.update(each(f"mirror.last.{_mode}", OF_SIZE,
                      "Q-3: any character past the user pages: the last is in the last user byte ({})"))
    RULES.update(each(f"mirror.one-too-far.{_mode}", OF_SIZE,
                      "Q-3: any character past the user pages [...] means no mirror at all: one is ({})"))
    RULES.update(each(f"mirror.bytes-left.{_mode}", range(1, 4),
                      "Q-3: any character past the user pages: none is ({} bytes are left)"))
    RULES.update(each(f"mirror.too-far.{_mode}", range(2, 5),
                      "Q-3: any character past the user pages means no mirror at all ({} are)"))
    RULES.update(each(f"mirror.begins-behind.{_mode}", BEHIND,
                      "Q-3: any character past the user pages means no mirror at all ({})"))


def met(step):
    pages = pages_given(step)
    if not pages:
        return
    chosen = Chosen(step.image)
    if chosen.mode is None:
        yield from of_none(step, chosen, pages)
    elif is_shown(chosen, step.before.tag.radio):
        if set(chosen.pages) <= set(pages):
            yield from of_whole(chosen)
    elif chosen.mode == "UID" or is_told(step.before.tag.radio):
        yield from of_misplaced(step, chosen, pages)


def of_none(step, chosen, pages):
    """Where all that could be chosen would be shown, were it chosen."""
    length = LENGTHS["both"]
    would_fit = chosen.page >= 4 and chosen.start + length <= 4 * chosen.layout.lock_page
    if would_fit and chosen.page in pages and is_told(step.before.tag.radio):
        yield f"mirror.none/N-{chosen.layout.size}"
        if (chosen.byte, chosen.low_bits) == (3, 0xF):
            yield "mirror.none/all-other-bits-set"


def of_whole(chosen):
    size, left = f"N-{chosen.layout.size}", -chosen.too_far
    yield f"mirror.whole.{chosen.mode}/{size}"
    yield f"mirror.whole.{chosen.mode}/byte-{chosen.byte}"
    if chosen.start == 4 * 0x04:
        yield f"mirror.from-04h.{chosen.mode}/{size}"
    if left == 0:
        yield f"mirror.last.{chosen.mode}/{size}"
    elif left < 4:
        yield f"mirror.bytes-left.{chosen.mode}/{left}"


def of_misplaced(step, chosen, pages):
    """Pages that would have characters, if the start weren't wrong; all pages, if
    there are no such pages."""
    layout, mode = chosen.layout, chosen.mode
    if chosen.page >= layout.lock_page:
        if len(pages) == layout.size:
            kind = "FFh" if chosen.page == 0xFF else kind_of_page(layout, chosen.page)
            yield f"mirror.begins-behind.{mode}/{kind}"
    elif not set(chosen.pages) & set(pages):
        return
    elif chosen.page < 4:
        yield f"mirror.below-04h.{mode}/{chosen.page:02X}h"
        if chosen.start == 4 * 0x03 + 3:
            yield f"mirror.below-04h.{mode}/03h-byte-3"
    else:
        yield from of_too_far(chosen)


def of_too_far(chosen):
    if chosen.too_far == 1:
        yield f"mirror.one-too-far.{chosen.mode}/N-{chosen.layout.size}"
    elif chosen.too_far <= 4:
        yield f"mirror.too-far.{chosen.mode}/{chosen.too_far}"
    if chosen.page == chosen.layout.lock_page - 1:
        yield f"mirror.begins-behind.{chosen.mode}/last-user-page"
