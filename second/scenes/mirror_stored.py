"""What the mirror leaves as it is: the stored bytes, and what shows and changes them."""

from itertools import cycle

from rules.mirror import LENGTHS, MODES
from scenes.images import access_byte, mirror_bytes
from scenes.mirror import any_mode, any_start, choose, into_new_field, pages_of, read, read_around


def stored_bytes(s, size, mode):
    """Bytes under the mirror, written by both sides: the two wires and `show` tell
    them, READ does when the mirror is off."""
    dice, start = s.dice, any_start(s, size, mode)
    s.image(size, mirror=mirror_bytes(mode, start))
    pages = pages_of(mode, start)
    s.active()
    read_around(s)
    read_by_wire(s, start - 1, 1 + LENGTHS[mode])
    for page, phase in zip(pages, cycle(["rest", "read"])):
        s.command(0xA2, page, *dice.four())
        read_around(s)
        s.to_phase(phase)
        s.say(f"show {page:02X}")
        s.ask()
    read_by_wire(s, start - 1, 1 + LENGTHS[mode])
    store_by_wire(s, start, dice.bytes(LENGTHS[mode]))
    read_around(s)
    s.say("show")
    choose(s, None, start)
    s.command(0x3A, pages[0], pages[-1])


def read_by_wire(s, offset, amount):
    s.address(0x4000 + offset)
    s.read_on(amount)
    s.say("bus")


def store_by_wire(s, offset, data):
    """In one write, or in two where it would roll over within its 64-byte page. Another
    stop finds nothing gathered, and the data memory has none of it."""
    in_page = 64 - offset % 64
    for at, part in ((offset, data[:in_page]), (offset + in_page, data[in_page:])):
        if part:
            s.address(0x4000 + at)
            s.send(*part)
            for _ in range(2):
                s.stop()
                s.say("bus")
            s.recall(at, len(part))


def chosen_by(s, size, change):
    """A mirror switched on, moved, made another and switched off, while the tag is in
    ACTIVE."""
    s.image(size)
    s.active()
    mode, other = s.dice.some(2, MODES)
    here, there = [any_start(s, size, "both") for _ in range(2)]
    for mode_now, start in [(None, here), (mode, here), (mode, here ^ 1), (mode, there), (other, there),
                            (None, there)]:
        change(s, mode_now, start)
        read(s, 0x3A, start // 4, start // 4 + 5)
        read(s, 0x30, s.layout.settings[0])


def choose_by_wire(s, mode, start):
    store_by_wire(s, 4 * s.layout.settings[0], mirror_bytes(mode, start))


def locked_settings(s, size, mode):
    """With the settings lock set a WRITE changes no mirror; the two wires do."""
    s.image(size, mirror=mirror_bytes(mode, any_start(s, size, mode)),
            access=access_byte(settings_lock=1, counter_on=1))
    for new_mode, authenticated in ((mode, False), (None, True)):
        s.active(authenticated)
        choose(s, new_mode, any_start(s, size, mode))
        s.say("tag")
        s.active()
        read_around(s)
    choose_by_wire(s, mode, any_start(s, size, mode))
    read_around(s)


def other_bits(s, size, mode):
    """Bits 3-0 of byte 0, and byte 1, are no matter."""
    start = any_start(s, size, mode)
    s.image(size, auth0=0xFF, access=access_byte(counter_on=1))
    s.active()
    for low_bits in s.dice.shuffled(range(16)):
        choose(s, mode, start, low_bits=low_bits, byte_1=s.dice.one_of([0x05, 0xFF, s.dice.byte()]))
        into_new_field(s)
        read_around(s)
        read(s, 0x30, start // 4)


def any_stored_bytes(s, size):
    stored_bytes(s, size, any_mode(s))


def any_chosen_by(s, size):
    chosen_by(s, size, s.dice.one_of([choose, choose_by_wire]))
    locked_settings(s, size, any_mode(s))


def any_other_bits(s, size):
    other_bits(s, size, any_mode(s))


def stored_of_size(s, size):
    for mode in MODES:
        stored_bytes(s, size, mode)
    chosen_by(s, size, choose)
    chosen_by(s, size, choose_by_wire)
    mode = {45: "UID", 135: "counter", 231: "both"}[size]
    locked_settings(s, size, mode)
    other_bits(s, size, mode)


OF_ANY_SIZE = [any_stored_bytes, any_chosen_by, any_other_bits]
