"""Both sides of one image."""

from rules.naming import PHASES, STATES
from scenes.bus import bus_write
from scenes.images import access_byte
from scenes.memory import memory_write


def both_sides(s, size):
    """Each side stores while the other is anywhere, the two wires in both regions;
    field loss leaves the bus alone."""
    dice = s.dice
    s.image(size)
    for phase in dice.shuffled(PHASES):
        for look in (s.look_at_bus, s.look_at_counter):
            s.active()
            s.to_phase(phase)
            if phase == "write":
                s.send(*dice.bytes(dice.below(3)))
            page = dice.one_of([4, 5, 15, 16, s.layout.lock_page - 1])
            s.obey(0xA2, page, *dice.four())
            s.command(0x3A, page, page)
            look()
            s.look_at_radio()
        bus_write(s, s.any_place(), 2)
    for state in dice.shuffled(STATES):
        s.reach(state)
        place = 0x10 + dice.below(0x60)
        bus_write(s, 0x4000 + place, dice.between(1, 4))
        s.recall(place, 1)              # the first byte is in the window alone
        memory_write(s, place, dice.between(1, 4))
        s.look_at_radio()


def settings_by_wire(s, size):
    """The two wires change locks, settings and password under a tag in ACTIVE."""
    dice = s.dice
    s.image(size, auth0=8, access=access_byte(prot=1, counter_on=1))
    layout = s.layout
    for page, data in dice.shuffled([
            (layout.settings[0], [0, 0, 0, dice.one_of([4, 6, 0xFF])]),
            (layout.settings[1], [dice.one_of([0x00, 0x90, 0x10, 0xC0]), 0, 0, 0]),
            (layout.pwd, dice.four()), (layout.pack, dice.four()),
            (layout.lock_page, [1, 0, 0, 0])]):
        s.active(authenticated=dice.one_in(2))
        s.address(0x4000 + 4 * page)
        s.send(*data)
        s.stop()
        s.command(0x30, dice.between(4, 9))
        s.active()
        s.command(0xA2, dice.one_of([7, 8, 16]), *dice.four())
        s.active()
        s.command(0x1B, *s.password())


def stored_of_size(s, size):
    both_sides(s, size)
    settings_by_wire(s, size)


OF_ANY_SIZE = [both_sides, settings_by_wire]
