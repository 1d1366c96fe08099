"""READ and FAST_READ."""

from rules.naming import SIZES, each, kind_of_page

PAST_BORDER = ["at-N", "above-N", "at-AUTH0", "above-AUTH0", "AUTH0-is-0"]
PAST_AUTH0 = ["authenticated", "PROT-clear", "AUTH0-not-below-N"]

RULES = {
    "read/inside": "READ 30h a: four pages (a+i) mod B",
    "read/up-to-the-border": "READ 30h a: four pages (a+i) mod B, the last of them B-1",
    **each("read.rolls", ["at-N", "at-AUTH0"], "four pages (a+i) mod B: rolls over {}"),
    **each("read.rolls", ["border-1", "border-2", "border-3"], "four pages (a+i) mod B ({})"),
    **each("read.nak", PAST_BORDER, "NAK 0h unless a < B ({})"),
    "fast/single": "FAST_READ 3Ah s e: s = e",
    "fast/inside": "FAST_READ 3Ah s e: pages s to e",
    "fast/up-to-the-border": "FAST_READ 3Ah s e: e = B-1",
    **each("fast.whole", SIZES, "FAST_READ 3Ah s e: pages 0 to N-1 (N = {})"),
    "fast.nak/s-above-e": "NAK 0h unless s <= e",
    **each("fast.nak", PAST_BORDER, "NAK 0h unless s <= e < B ({})"),
    **each("read.zeros", ["pwd", "pack"], "PWD and PACK pages always read as zeros ({})"),
    **each("fast.zeros", ["pwd", "pack"], "PWD and PACK pages always read as zeros ({})"),
    **each("read.past-AUTH0", PAST_AUTH0,
           "B be AUTH0 if PROT is set, the tag isn't authenticated and AUTH0 < N; else N ({})"),
    **each("fast.past-AUTH0", PAST_AUTH0,
           "B be AUTH0 if PROT is set, the tag isn't authenticated and AUTH0 < N; else N ({})"),
}


def met(step):
    name, arguments = step.command
    if name == "READ":
        yield from of_read(step, *arguments)
    elif name == "FAST_READ":
        yield from of_fast_read(step, *arguments)


def border_of(step):
    image, size = step.image, step.image.layout.size
    open_to_all = not image.prot() or step.before.tag.radio.authenticated
    return size if open_to_all else min(image.auth0(), size)


def of_read(step, first):
    border = border_of(step)
    if step.nak == 0:
        yield "read.nak/" + past_border(step, first, border)
        return
    if first + 4 < border:
        yield "read/inside"
    elif first + 4 == border:
        yield "read/up-to-the-border"
    else:
        yield "read.rolls/at-N" if border == step.image.layout.size else "read.rolls/at-AUTH0"
        if border < 4:
            yield f"read.rolls/border-{border}"
    yield from of_pages(step, "read", [(first + i) % border for i in range(4)])


def of_fast_read(step, start, end):
    border, size = border_of(step), step.image.layout.size
    if step.nak == 0:
        yield "fast.nak/" + (past_border(step, end, border) if end >= border else "s-above-e")
        return
    if start == end:
        yield "fast/single"
    elif (start, end) == (0, size - 1):
        yield f"fast.whole/{size}"
    else:
        yield "fast/up-to-the-border" if end == border - 1 else "fast/inside"
    yield from of_pages(step, "fast", range(start, end + 1))


def past_border(step, page, border):
    if border == step.image.layout.size:
        return "at-N" if page == border else "above-N"
    if border == 0:
        return "AUTH0-is-0"
    return "at-AUTH0" if page == border else "above-AUTH0"


def of_pages(step, stem, pages):
    """Zeros, and the border, for pages that were answered."""
    image, layout = step.image, step.image.layout
    for page in {layout.pwd, layout.pack} & set(pages):
        yield f"{stem}.zeros/{kind_of_page(layout, page)}"
    if max(pages) >= image.auth0():
        authenticated = step.before.tag.radio.authenticated
        yield f"{stem}.past-AUTH0/" + ("authenticated" if authenticated else "PROT-clear")
    elif image.prot() and image.auth0() >= layout.size:
        yield f"{stem}.past-AUTH0/AUTH0-not-below-N"
