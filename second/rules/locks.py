"""Static and dynamic locks: what they lock, and how WRITE sets them."""

from rules.naming import each, page_names
from tag.bits import bits_of
from tag.layout import LAYOUTS
from tag.locks import STATIC


def lock_rules(stem, lock_names, block_names, locked, behind, before, foreign):
    return {
        **each(f"{stem}.locks", page_names(*locked), "the lock of {}: WRITE gets NAK 0h"),
        **each(f"{stem}.free-behind", page_names(*behind), "the page before {} is locked, it isn't"),
        **each(f"{stem}.free-before", page_names(*before), "the page behind {} is locked, it isn't"),
        **each(f"{stem}.gains", lock_names, "WRITE sets the lock bit {}"),
        **each(f"{stem}.blocked", lock_names,
               "A lock bit whose block bit was set before the write isn't set ({})"),
        **each(f"{stem}.block-gains", block_names, "WRITE sets the block bit {}"),
        **each(f"{stem}.both-at-once", block_names,
               "block bit was set before the write: here it is set with its lock ({})"),
        **each(f"{stem}.not-gained", foreign, "bits of {} aren't lock bits: not gained"),
        **each(f"{stem}.left-alone", foreign, "bits of {} aren't lock bits: kept"),
        f"{stem}.keeps/set-bits": "gains: set bits stay set",
    }


def dynamic_rules(size, lock_bits, pages_each, last_user_page):
    firsts = [16 + pages_each * bit for bit in range(lock_bits)]
    lasts = [min(first + pages_each - 1, last_user_page) for first in firsts]
    return lock_rules(f"dynamic{size}", range(lock_bits), range(lock_bits // 2),
                      sorted(firsts + lasts), firsts + [last_user_page + 1], [15] + lasts[:-1],
                      ["byte-1", "byte-2", "byte-3"])


STATIC_RULES = lock_rules("static", page_names(*range(3, 16)), range(3), range(3, 16),
                          range(4, 16), range(2, 15), ["byte-0", "byte-1"])
RULES_45 = dynamic_rules(45, 12, 2, 0x27)
RULES_135 = dynamic_rules(135, 8, 16, 0x81)
RULES_231 = dynamic_rules(231, 14, 16, 0xE1)


def names_of_bits(plan, name_of_lock):
    """What the keys call each bit: a lock by its page or number, block bits from 0 up."""
    names = {place: name_of_lock(place) for place in plan.locks}
    names.update((place, number) for number, place in enumerate(sorted(plan.blocks)))
    return names


NAMES = {"static": names_of_bits(STATIC, lambda place: f"{STATIC.locks[place][0]:02X}h")}
for _layout in LAYOUTS.values():
    NAMES[f"dynamic{_layout.size}"] = names_of_bits(_layout.dynamic, lambda place: place)


def met(step):
    name, arguments = step.command
    if name != "WRITE":
        return
    page, *data = arguments
    if step.acked:
        yield from of_neighbours(step.image, page)
        if page == 2:
            yield from of_gains("static", STATIC, step.image.pages[2], data)
        if page == step.image.layout.lock_page:
            yield from of_gains(dynamic_stem(step), step.image.layout.dynamic,
                                step.image.pages[page], data)
    elif is_refused_by_lock(step, page):
        plan = STATIC if page < 16 else step.image.layout.dynamic
        if any(page in (pages[0], pages[-1]) for pages in plan.locks.values()):
            yield f"{'static' if page < 16 else dynamic_stem(step)}.locks/{page:02X}h"


def dynamic_stem(step):
    return f"dynamic{step.image.layout.size}"


def is_refused_by_lock(step, page):
    under_password = page >= step.image.auth0() and not step.before.tag.radio.authenticated
    return page in step.image.locked_pages() and not under_password


def of_neighbours(image, page):
    """A page that is written next to one that is locked."""
    locked, dynamic = image.locked_pages(), f"dynamic{image.layout.size}"
    if page - 1 in locked:
        yield f"{'static' if page < 16 else dynamic}.free-behind/{page:02X}h"
    if page + 1 in locked:
        yield f"{'static' if page < 15 else dynamic}.free-before/{page:02X}h"


def of_gains(stem, plan, page, data):
    """Which bits a WRITE sets, and which it leaves."""
    old, new, names = bits_of(page), bits_of(data), NAMES[stem]
    fresh = {place for place in range(32) if new[place] and not old[place]}
    blocked = {lock for block, locks in plan.blocks.items() if old[block] for lock in locks}
    for place in fresh & set(plan.locks):
        yield f"{stem}.{'blocked' if place in blocked else 'gains'}/{names[place]}"
    for place in fresh & set(plan.blocks):
        yield f"{stem}.block-gains/{names[place]}"
        if fresh & plan.blocks[place]:
            yield f"{stem}.both-at-once/{names[place]}"
    for place in set(range(32)) - set(plan.locks) - set(plan.blocks):
        if place in fresh:
            yield f"{stem}.not-gained/byte-{place // 8}"
        elif old[place] and not new[place]:
            yield f"{stem}.left-alone/byte-{place // 8}"
    if any(before and not wish for before, wish in zip(old, new)):
        yield f"{stem}.keeps/set-bits"
