"""The data memory, the second region of the two wires."""

from rules.memory import EDGES
from rules.naming import PHASES
from scenes.bus import bus_write


def events_in_memory(s):
    """Each event in each phase with a counter in the memory, and what it leaves
    behind: the record, what reading on gives, and what a stop stores."""
    dice = s.dice
    s.image(dice.size())
    for phase in dice.shuffled(PHASES):
        for number in dice.shuffled(range(5)):
            for look in (s.look_at_bus, s.look_at_counter, s.stop):
                place = s.memory_place()
                s.address(place)
                s.to_phase(phase, place)
                if phase == "write" and dice.one_in(2):
                    s.send(*dice.bytes(dice.between(1, 4)))
                s.event(number, dice.one_of([0xA0, 0xA1, 0x3F, dice.byte()]))
                look()
                s.say("bus")
            s.recall_stored()


def memory_write(s, place, amount):
    """A write to the memory, and the bytes it came to: those of its page from its
    place on, and those from the page's start on where it rolled over."""
    bus_write(s, place, amount)
    s.recall(place, min(amount, 64 - place % 64))
    if place % 64 + amount > 64:
        s.recall(place // 64 * 64, min(place % 64 + amount - 64, 64))


def memory_writes(s):
    """All edges of the memory; its first bytes, which the window would keep back;
    over the end of its first page, of any and of its last; up to its last byte
    and no further, so that the counter is there."""
    dice = s.dice
    s.image(dice.size())
    for place in dice.shuffled(EDGES):
        memory_write(s, place, dice.between(1, 3))
    memory_write(s, 0x0000, 12)
    for place in (0x003E, s.memory_place() // 64 * 64 + 62, 0x3FFE):
        memory_write(s, place, dice.between(3, 5))
    memory_write(s, 0x003C, 4)
    for place, amount in [(0x003D, 3), (0x3FFD, 3), (0x3FFD, 2), (0x3FC0, 2), (0x1FFF, 1), (0x2000, 1)]:
        memory_write(s, place, amount)
    s.address(0x3FFF)
    s.stop()
    s.look_at_counter()


def long_memory_writes(s):
    """A whole page of the memory and more: the latest byte for each place stays,
    and nothing comes to the pages beside it."""
    dice = s.dice
    s.image(dice.size())
    for amount in dice.shuffled([63, 64, 65, dice.one_of([dice.between(66, 140), dice.between(250, 330)])]):
        place = s.memory_place()
        memory_write(s, place, amount)
        page = place // 64 * 64
        s.recall(max(page - 2, 0), 4)
        s.recall(min(page + 62, 0x3FFC), 4)
    # 64 bytes move the counter to where it was, so that a second store shows by a
    # memory that was lent in between.
    s.address(0x1040)
    s.send(*dice.bytes(64))
    s.stop()
    s.say("bus")
    s.recall(0x1040, 4)
    s.say("memory 16384")
    s.stop()
    s.recall(0x1040, 4)
    s.usual_memory()


def memory_reads(s):
    """From 3FFFh to 0000h and on, with ACK and without; a read without a new
    address goes on where the last one ended, whatever came in between."""
    dice = s.dice
    s.image(dice.size())
    for place in (0x0000, 0x3FFC):
        s.fill_memory(place)
    for amount in (1, 2, 3, 5):
        s.address(0x3FFE)
        s.read_on(amount)
        s.look_at_silent_bus()
        s.read_on(2)
        s.look_at_counter()
    for place in EDGES:
        s.address(place)
        s.read_on(1)
        s.look_at_counter()
    s.address(0x3FFF)
    s.start()
    s.send(0xA1)
    for _ in range(3):
        s.event(3)
        s.say("bus")
    s.send(0x00)                    # in a read: deaf, the counter stays
    s.look_at_counter()
    for between in (s.stop, s.start, lambda: s.say("field"), lambda: s.address(s.outer_place()),
                    lambda: s.say("event 5 00"), lambda: s.say("show 00"), lambda: s.to_phase("low"),
                    lambda: s.to_phase("deaf")):
        s.address(dice.one_of([0x3FFE, 0x3FFF, 0x0001]))
        between()
        s.look_at_counter()


def unfinished_memory_writes(s):
    """A start drops what was gathered for the memory; a read in between gives FFh
    and changes nothing. What is gathered isn't recalled before the stop."""
    dice = s.dice
    s.image(dice.size())
    for amount in (0, 1, dice.between(2, 6)):
        place = s.memory_place() // 64 * 64 + dice.below(48)
        s.address(place)
        s.send(*dice.bytes(amount))
        s.recall(place, 8)
        s.read(2)
        s.recall(place, 8)
        s.send(*dice.bytes(amount))
        s.recall(place, 8)
        dice.one_of([s.start, lambda: s.address(s.any_place())])()
        s.stop()
        s.recall(place, 8)
        s.look_at_counter()


def one_region(s, size):
    """What a transfer does in one region, at places that the other has too, with
    other bytes in it: the other is looked at."""
    dice = s.dice
    s.image(size)
    end, layout = s.layout.window_end, s.layout
    inside = dice.between(0x10, 4 * size - 40)
    for place in (0x4000, 0x4000 + inside, end - 8, end - 1):
        s.fill_memory(place - 0x4000)
        bus_write(s, place, dice.between(5, 12))
        s.recall(place - 0x4000, 8)
        s.recall((place - 0x4000) // 64 * 64, 4)
        s.recall(0, 4)
    for place in (0, 8, inside, end - 0x4000 - 2):
        memory_write(s, place, dice.between(4, 10))
        s.say(f"show {place // 4:02X}")
        s.look_at_silent_bus()
    for page in (layout.pwd, layout.pack):
        s.fill_memory(4 * page)
        s.address(4 * page)
        s.read_on(3)
        s.look_at_counter()
        s.address(0x4000 + 4 * page)
        s.read_on(2)
    s.say("show")


def at_the_window_end(s, size):
    """The window's last byte is followed by its first, and a counter past the
    window counts as 4000h, with other bytes in the memory's first places and
    where the counter would be in it."""
    s.image(size)
    end = s.layout.window_end
    for place in (0x0000, end - 0x4000 - 2, end - 0x4000 + 2):
        s.fill_memory(place)
    for amount in (1, 2, 3):
        s.address(end - 2)
        s.read_on(amount)
        s.look_at_counter()
    for amount in (1, 3):
        s.address(end - 1)
        s.send(*s.dice.bytes(amount))
        s.stop()
        s.say("bus")
        s.recall(end - 0x4000 - 2, 6)
        s.read_on(2)
        s.look_at_bus()


def radio_beside_memory(s):
    """Commands about pages whose places the memory has too, in all phases of a
    write there, and the loss of the field: the memory stays, and what is then
    stored in it leaves the image alone."""
    dice = s.dice
    s.image(dice.size())
    for page in dice.shuffled([4, 5, dice.between(6, s.layout.lock_page - 2), s.layout.lock_page - 1]):
        s.fill_memory(4 * page)
        s.address(4 * page)
        s.send(*dice.bytes(2))
        s.active()
        for data in ([0xA2, page, *dice.four()], [0x30, page], [0x3A, page, page + 1]):
            s.obey(*data)
        s.active(authenticated=True)
        s.say("field")
        s.recall(4 * page, 4)
        s.stop()
        s.recall(4 * page, 4)
        s.active()
        s.command(0x3A, page, page + 1)
    s.fill_memory(4 * s.layout.pwd)
    s.authenticate()
    s.recall(4 * s.layout.pwd, 8)


def stored(s):
    events_in_memory(s)
    memory_writes(s)
    long_memory_writes(s)
    memory_reads(s)
    unfinished_memory_writes(s)
    radio_beside_memory(s)


def stored_of_size(s, size):
    one_region(s, size)
    at_the_window_end(s, size)


OF_ANY_KIND = [events_in_memory, memory_writes, long_memory_writes, memory_reads, unfinished_memory_writes,
               radio_beside_memory]
OF_ANY_SIZE = [one_region, at_the_window_end]
