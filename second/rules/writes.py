"""WRITE: which pages, and what becomes of them."""

from rules.naming import WRITABLE, each, kind_of_page

RULES = {
    **each("write.never", ["page-0", "page-1", "at-N", "above-N"],
           "WRITE: NAK 0h if a < 2 or a >= N ({})"),
    **each("write.under-password", WRITABLE, "NAK 0h [...] if under password ({})"),
    **each("write.locked", ["page-3", "user-static", "user-dynamic"],
           "NAK 0h [...] if a is a locked page 3 or user page ({})"),
    **each("write.settings-lock", ["settings-1", "settings-2"],
           "NAK 0h [...] a settings page with the settings lock set ({})"),
    **each("write.ack", WRITABLE, "else ACK ({})"),
    **each("write.ack-authenticated", WRITABLE,
           "under password when its number is at least AUTH0 and the tag isn't authenticated: it is ({})"),
    **each("write.ack-despite-settings-lock", ["lock-page", "pwd", "pack"],
           "a settings page with the settings lock set: this is none ({})"),
    **each("write.under-password", ["PROT-set", "PROT-clear"],
           "under password when its number is at least AUTH0 and the tag isn't authenticated: PROT is no matter ({})"),
    "write.edge/at-AUTH0": "under password when its number is at least AUTH0: it is AUTH0",
    "write.edge/below-AUTH0": "under password when its number is at least AUTH0: it is one less",
    "page3/gains": "page 3 gains the set bits",
    "page3/nothing-new": "page 3 gains the set bits: none is new",
    "page3/keeps": "page 3 gains the set bits: it loses none",
}


def met(step):
    name, arguments = step.command
    if name != "WRITE":
        return
    page, *data = arguments
    if step.acked:
        yield from of_ack(step.image, page)
        if page == 3:
            yield from of_page_3(step.image.pages[3], data)
    else:
        yield from of_nak(step, page)


def of_nak(step, page):
    image, kind = step.image, kind_of_page(step.image.layout, page)
    if page < 2 or page >= image.layout.size:
        yield f"write.never/{kind}"
    elif page >= image.auth0() and not step.before.tag.radio.authenticated:
        if page == image.auth0():
            yield "write.edge/at-AUTH0"
        yield f"write.under-password/{kind}"
        yield "write.under-password/" + ("PROT-set" if image.prot() else "PROT-clear")
    elif page in image.layout.settings:
        yield f"write.settings-lock/{kind}"
    else:
        yield f"write.locked/{kind}"


def of_ack(image, page):
    kind = kind_of_page(image.layout, page)
    yield f"write.ack/{kind}"
    if page >= image.auth0():
        yield f"write.ack-authenticated/{kind}"
    if page + 1 == image.auth0():
        yield "write.edge/below-AUTH0"
    if image.settings_lock() and kind in ("lock-page", "pwd", "pack"):
        yield f"write.ack-despite-settings-lock/{kind}"


def of_page_3(old, data):
    yield "page3/gains" if any(new & ~was for was, new in zip(old, data)) else "page3/nothing-new"
    if any(was & ~new for was, new in zip(old, data)):
        yield "page3/keeps"
