"""The two wires."""

from rules.memory import EDGES
from rules.naming import PHASES


def events_by_phase(s, size):
    """Each event in each phase, and what it leaves behind: the phase shows by what
    fits it, the counter by reading on, and what was gathered by a stop."""
    dice = s.dice
    s.image(size)
    for phase in dice.shuffled(PHASES):
        for number in dice.shuffled(range(5)):
            for look in (s.look_at_bus, s.look_at_counter, s.stop):
                s.to_phase(phase)
                if phase == "write" and dice.one_in(2):
                    s.send(*dice.bytes(dice.between(1, 4)))
                s.event(number, dice.one_of([0xA0, 0xA1, 0x40, dice.byte()]))
                look()
            s.look_at_counter()


def deaf_after_the_last_read(s, size):
    """A read without ACK makes the tag deaf: later reads give FFh, a byte isn't
    acknowledged, and the counter stays where the last read left it."""
    s.image(size)
    for place in [s.any_place() for _ in range(6)] + [s.layout.window_end - 1, s.layout.window_end - 2, 0x4000]:
        s.address(place)
        s.read_on(2)
        s.event(3)
        s.event(4)
        s.event(3)
        s.look_at_silent_bus()
        s.look_at_counter()


def other_hands(s):
    """Events written with leading zeros, and bytes in small letters, in each phase."""
    s.image(45)
    for phase in s.dice.shuffled(PHASES):
        for line in ("event 0001 00", "event 00002 a0", "event 2 aB", "send ab", "send aB",
                     "event 003 0a", "event 04 00", "event 00000 00"):
            s.to_phase(phase)
            s.say(line)
            s.look_at_bus()


def device_bytes(s):
    """A0h, A1h and others; deaf until start or stop."""
    dice = s.dice
    s.image(dice.size())
    for byte in [0xA0, 0xA1, 0xA2, 0xA3, 0x20, 0x21, 0x50, 0x51, dice.byte()]:
        for look in (lambda: s.send(0x40, 0x10, 0x5A), lambda: s.read(3), s.stop):
            s.start()
            s.send(byte)
            look()
            s.look_at_bus()


def addresses(s, size):
    """The edges of both regions; the counter kept or set is then read from."""
    dice = s.dice
    s.image(size)
    end = s.layout.window_end
    for address in dice.shuffled([*EDGES, 0x4000, end - 1, end, end + 1, 0x7FFF, 0x8000, 0xC000, 0xFFFF,
                                  s.any_place(), s.memory_place(), dice.between(end + 1, 0xFFFE),
                                  s.any_place() ^ 0x8000, s.memory_place() ^ 0x8000]):
        if s.bus.region_of(address) is None:
            # the counter that is then kept
            s.address(dice.one_of([dice.between(0x4010, 0x4060), s.memory_place()]))
        s.address(address)
        if s.bus.phase == "deaf":
            s.look_at_silent_bus()
            s.send(0x40, dice.byte())       # not acknowledged, not gathered
            s.read(2)
            s.stop()
            s.look_at_counter()
            s.address(address)
            s.send(0x10)                    # no low address byte any more
        if dice.one_in(2):
            s.stop()
        s.read_on(dice.between(1, 3))
        s.look_at_bus()


def bus_write(s, place, amount):
    """Writes some bytes. Then the bus is at rest, another stop has nothing left to
    store, and the next read is from where the counter then is."""
    s.address(place)
    s.send(*s.dice.bytes(amount))
    s.stop()
    s.look_at_silent_bus()
    s.stop()
    s.read_on(s.dice.between(1, 3))
    s.look_at_silent_bus()
    s.stop()


def bus_writes(s, size):
    """Bytes 0-9, the last places, page edges, the pages that lock and protect."""
    dice = s.dice
    s.image(size, auth0=dice.one_of([4, 16, 0xFF]), lock_page=[dice.byte(), 0, 0, 0],
            page_2=[0, 0, dice.byte(), dice.byte()])
    end, layout = s.layout.window_end, s.layout
    for place in [0x4000 + dice.below(10), end - 1, end - 1 - dice.below(8), s.any_place(),
                  0x4000 + 4 * dice.one_of([layout.lock_page, *layout.settings, layout.pwd, layout.pack])]:
        bus_write(s, place, dice.between(1, 7))
    s.say("show")
    bus_write(s, 0x4000, 12)
    bus_write(s, end - 1, 1)
    bus_write(s, end - 3, 7)
    s.say("show")
    # From the last places to shortly before the page's end: stored a second time,
    # they would roll over into the window.
    bus_write(s, end - 4, (end - 1) // 64 * 64 + 62 - (end - 4))
    s.say("show")
    bus_write(s, 0x4000 + 4 * layout.lock_page, 20)


def long_bus_writes(s, size):
    """A whole 64-byte page and more: the latest byte for each place stays."""
    s.image(size)
    dice = s.dice
    for amount in dice.shuffled([63, 64, 65, dice.one_of([dice.between(66, 140), dice.between(250, 330)])]):
        bus_write(s, s.any_place(), amount)
    bus_write(s, (s.layout.window_end - 1) // 64 * 64 + 5, 64)
    # 64 bytes move the counter to where it was, so that a second store shows by
    # what the radio wrote in between.
    s.image(size)
    s.active()
    s.address(0x4040)
    s.send(*dice.bytes(64))
    s.stop()
    s.command(0xA2, 0x12, *dice.four())
    s.stop()


def unfinished_writes(s, size):
    """A start drops what was gathered; the counter stays at the address sent."""
    dice = s.dice
    s.image(size)
    for amount in (0, 1, dice.between(2, 6)):
        s.address(s.any_place())
        s.send(*dice.bytes(amount))
        if dice.one_in(2):
            s.read(1)               # gives FFh and changes nothing
            s.send(*dice.bytes(amount))
        s.read_on(2)
        s.stop()
    s.address(s.any_place())
    s.send(*dice.bytes(2))
    s.start()
    s.stop()
    s.read_on(2)
    s.say("show")


def bus_reads(s, size):
    """Over the last place to the first; PWD and PACK as zeros; from a counter
    past the window."""
    dice = s.dice
    s.image(size)
    end = s.layout.window_end
    s.address(end - dice.between(9, 14))
    s.read_on(dice.between(15, 20))
    for page in (s.layout.pwd, s.layout.pack):
        s.address(0x4000 + 4 * page)
        s.read_on(2)
        s.look_at_bus()
    for amount in (1, 3):
        s.address(end - 1)
        s.send(dice.byte())
        s.stop()
        s.read_on(amount)
        s.look_at_bus()


def stored(s):
    device_bytes(s)
    other_hands(s)


def stored_of_size(s, size):
    events_by_phase(s, size)
    deaf_after_the_last_read(s, size)
    addresses(s, size)
    bus_writes(s, size)
    long_bus_writes(s, size)
    unfinished_writes(s, size)
    bus_reads(s, size)


OF_ANY_KIND = [device_bytes, other_hands]
OF_ANY_SIZE = [events_by_phase, deaf_after_the_last_read, addresses, bus_writes, long_bus_writes,
               unfinished_writes, bus_reads]
