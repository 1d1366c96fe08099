"""Q-3: what the mirror leaves as it is: "memory and bus reads don't change"."""

from rules.mirror import MODES, Chosen, is_shown, pages_given
from rules.naming import each
from tag.regions import WINDOW_START

BITS = [f"bit-{bit}-{value}" for bit in range(4) for value in ("clear", "set")]
CHANGES = ["switched-on", "switched-off", "moved-to-another-page", "moved-in-its-page", "other-mode"]

RULES = {
    **each("mirror.show", MODES, "Q-3: memory [...] doesn't change: `show HH` of a page with characters ({})"),
    **each("mirror.bus-read", MODES, "Q-3: bus reads don't change ({})"),
    **each("mirror.WRITE", MODES, "Q-3: a WRITE to a page with characters is stored as ever ({})"),
    **each("mirror.bus-store", MODES, "Q-3: a byte stored where a character is shown is stored as ever ({})"),
    **each("mirror.by-WRITE", CHANGES, "Q-3: the first settings page by WRITE: effect is at once ({})"),
    **each("mirror.by-bus", CHANGES, "Q-3: the first settings page by the two wires ({})"),
    "mirror.by-WRITE/settings-lock": "Q-3: a settings page with the settings lock set: the mirror stays",
    **each("mirror.other-bits", BITS, "Q-3: bits 7-6 choose, bits 5-4 give the byte: {} is no matter"),
    "mirror.other-bits/byte-1": "Q-3: byte 0 and byte 2: byte 1 is no matter",
    **each("mirror.settings-shown", ["READ", "FAST_READ"], "Q-3: the settings page itself is no user page ({})"),
}


def met(step):
    if step.image.layout is None:
        return
    chosen = Chosen(step.image)
    shown = is_shown(chosen, step.before.tag.radio)
    yield from of_settings(step, chosen)
    if shown and step.word == "show" and step.arguments and step.arguments[0] in chosen.pages:
        yield f"mirror.show/{chosen.mode}"
    elif shown and step.event:
        yield from of_event(step, chosen)
    elif shown and step.command[0] == "WRITE" and step.acked and step.command[1][0] in chosen.pages:
        yield f"mirror.WRITE/{chosen.mode}"
    elif shown:
        yield from of_read(step, chosen, pages_given(step))


def of_event(step, chosen):
    bus = step.before.tag.bus
    characters = range(WINDOW_START + chosen.start, WINDOW_START + chosen.end)
    if step.event in ("read-ack", "read-nak") and bus.phase == "read" and bus.counter in characters:
        yield f"mirror.bus-read/{chosen.mode}"
    elif step.event == "stop" and any(bus.place_of(number) in characters for number in range(len(bus.gathered))):
        yield f"mirror.bus-store/{chosen.mode}"


def of_settings(step, chosen):
    """A step that changes the mirror's settings, or would if they weren't locked."""
    name, arguments = step.command
    settings = step.image.layout.settings[0]
    if name == "WRITE" and step.nak == 0 and arguments[0] == settings:
        if step.image.settings_lock() and chosen.mode:
            yield "mirror.by-WRITE/settings-lock"
        return
    if step.after.tag.image.length == step.image.length and step.word != "image":
        change = change_of(chosen, Chosen(step.after.tag.image))
        if change:
            yield ("mirror.by-bus/" if step.event else "mirror.by-WRITE/") + change


def change_of(before, after):
    """What becomes of a mirror that fits, or of one that then does; of several, one."""
    if not before.mode:
        return "switched-on" if after.mode and after.fits else None
    if not after.mode:
        return "switched-off" if before.fits else None
    if before.mode != after.mode:
        return "other-mode"
    if before.page != after.page:
        return "moved-to-another-page"
    return "moved-in-its-page" if before.byte != after.byte else None


def of_read(step, chosen, pages):
    if set(chosen.pages) & set(pages):
        for bit in range(4):
            yield f"mirror.other-bits/bit-{bit}-" + ("set" if chosen.low_bits >> bit & 1 else "clear")
        if chosen.byte_1 not in (0x00, chosen.page):
            yield "mirror.other-bits/byte-1"
    if step.image.layout.settings[0] in pages:
        yield f"mirror.settings-shown/{step.command[0]}"
