"""Q-6: the end of the user pages, for each size."""

from rules.naming import SIZES, each
from rules.workshop.blocks import is_reading

CUT_LENGTHS = ["type-last", "FFh-last", "FFh-one-left"]
PASSING = ["one-byte-by-1", "one-byte-by-more", "three-byte-by-1", "three-byte-by-more", "three-byte-FFFFh",
           "one-byte-last", "three-byte-last"]
FITTING = ["one-byte-of-0", "one-byte", "three-byte-of-0", "three-byte"]

RULES = {}
for _size in SIZES:
    for _kind in ("03h", "other"):
        RULES.update(each(f"passes.{_size}.{_kind}", CUT_LENGTHS,
                          "21 a length [...] passes the user pages ({})"))
        RULES.update(each(f"passes.{_size}.{_kind}", PASSING,
                          "21 [...] the bytes it counts [pass] the user pages ({})"))
        RULES.update(each(f"fits.{_size}.{_kind}", FITTING,
                          "21 [...] passes the user pages: it ends with their last byte ({})"))
    RULES[f"passes.{_size}.03h/a-reading-but-for-it"] = "21 [...] passes the user pages: it would be a reading"
    RULES.update(each(f"ends.{_size}", ["00h-last", "block-last", "FEh-last", "FEh-before-last"],
                      "20 no such block ({})"))


def met(step):
    if step.area is None:
        return
    walk = step.walk
    if walk.stop == "passes":
        yield from of_passing(step)
    for block in walk.blocks:
        if block.behind == len(walk.area):
            kind = "03h" if block.kind == 0x03 else "other"
            yield f"fits.{step.size}.{kind}/{block.form}" + ("" if block.length else "-of-0")
    if walk.stop == "end":
        yield f"ends.{step.size}/" + ("00h-last" if walk.area[-1] == 0 and walk.nulls[-1:] == [walk.at - 1]
                                      else "block-last")
    elif walk.stop == "FEh" and len(walk.area) - walk.at <= 2:
        yield f"ends.{step.size}/" + ("FEh-last" if walk.at == len(walk.area) - 1 else "FEh-before-last")


def of_passing(step):
    walk = step.walk
    block = walk.blocks[-1]
    kind = "03h" if block.kind == 0x03 else "other"
    yield f"passes.{step.size}.{kind}/{name_of_passing(block, len(walk.area))}"
    if block.behind and block.content.start == len(walk.area):
        yield f"passes.{step.size}.{kind}/{block.form}-last"
    if kind == "03h" and block.behind:
        whole = step.image[16:]
        if block.behind <= len(whole) and is_reading(whole[block.content]):
            yield f"passes.{step.size}.03h/a-reading-but-for-it"


def name_of_passing(block, end):
    if block.behind is None:
        return block.form
    if block.length == 0xFFFF:
        return "three-byte-FFFFh"
    return f"{block.form}-by-" + ("1" if block.behind == end + 1 else "more")
