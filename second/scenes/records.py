"""`tag`, `bus` and `show HH`: where a board stands."""

from rules.naming import PHASES, STATES

COUNTS_ASKED = [0, 1, 2, 3, 9, 10, 62, 63, 64, 65, 66, 127, 128, 129, 255, 256, 257]


def every_tag_record(s):
    """`tag` in each state, with each wait state, authenticated or not, before and
    after the field's first READ, in the middle of a write and while a low address
    byte is expected. Asked twice: the question changes nothing."""
    s.image(45)
    s.address(0x4020)
    s.send(0x5A, 0xA5)
    ask_in_every_state(s)
    s.to_phase("low", 0x4020)
    ask_in_every_state(s)


def ask_in_every_state(s):
    for read_answered in (False, True):
        s.say("field")
        s.reads_on_entry = read_answered
        if read_answered:
            s.active()
        for wait in ("IDLE", "HALT"):
            for state in [wait, "READY1", "READY2", "ACTIVE"]:
                s.reach(state, wait)
                s.ask_twice()
            s.authenticate()
            s.ask_twice()
    s.reads_on_entry = True


def tag_after_each_step(s):
    """`tag` after each frame of a way through all states, and after each kind of
    answer: it shows what the step made of the record, and when. It is asked while
    a low address byte is expected, too."""
    s.image(45)
    for wait in ("IDLE", "HALT"):
        s.to_waiting(wait)
        while s.radio.state != "ACTIVE":
            s.advance()
            s.ask()
        for data in ([0x30, 4], [0x1B, *s.password()], [0x3A, 4, 5], [0x39, 0x02], [0x60],
                     [0xA2, 4, *s.dice.four()], [0x30, 45]):
            s.command(*data)
            s.ask()
        for line in ("start", "send A0", "send 3F"):
            s.say(line)
        s.ask_twice()
        s.say("stop")
        s.active(authenticated=True)
        s.command(0x50, 0x00)
        s.ask()
        s.say("field")
        s.ask()


def every_bus_record(s, size):
    """`bus` in each phase, with the counter at each end of the window, inside and
    past it; in a write it is where the address sent is. The radio waits, or is
    in ACTIVE and authenticated: the question changes nothing there either."""
    s.image(size)
    end = s.layout.window_end
    for place, amount in [(0x4000, 0), (s.dice.between(0x4010, 0x4090), 3), (end - 1, 0), (end - 1, 1),
                          (end - 2, 4)]:
        in_each_phase(s, place, amount)


def in_each_phase(s, place, amount, write=None):
    """`bus` in each phase, after a write of so many bytes to a place; the write
    that is then going on is to another."""
    for phase in s.dice.shuffled(PHASES):
        s.address(place)
        s.send(*s.dice.bytes(amount))
        s.stop()
        s.to_phase(phase, write)
        if phase == "write" and write is not None:
            s.send(s.dice.byte())
        s.reach("HALT")
        s.ask_twice()
        s.authenticate()
        s.ask_twice()


def every_bus_record_in_memory(s):
    """`bus` in each phase, with the counter at each end of the data memory and in it."""
    s.image(45)
    for place, amount in [(0x0000, 0), (0x3FFF, 0), (s.dice.between(0x0010, 0x3F00), 2)]:
        in_each_phase(s, place, amount, place)


def high_bytes(s):
    """The high address byte that is held, whatever it is; a read in between keeps it.
    The counter is where an address was sent before."""
    s.image(45)
    s.address(s.dice.between(0x4010, 0x4090))
    for way in (s.authenticate, lambda: s.reach("HALT")):
        way()
        for high in (0x00, 0x01, 0x0F, 0x10, 0x3F, 0x40, 0x41, 0x9F, 0xA0, 0xFA, 0xFF):
            s.start()
            s.send(0xA0, high)
            s.ask_twice()
            s.event(3)
            s.ask()


def counts_of_places(s, place, most, state="ACTIVE"):
    """`bus` while more and more bytes are gathered: it counts places, so that it
    ends at 64, wherever in its page the write began and whatever is stored of it."""
    s.image(45)
    s.reach("HALT")
    if state == "ACTIVE":
        s.authenticate()
    s.address(place)
    for amount in range(most + 1):
        if amount in COUNTS_ASKED:
            s.ask_twice()
        s.send(s.dice.byte())
    s.ask_twice()
    s.stop()
    s.ask()


def any_counts(s):
    most = s.dice.one_of([s.dice.between(3, 80), s.dice.between(60, 300)])
    counts_of_places(s, s.dice.one_of([0x4000 + s.dice.below(0xB4), s.dice.below(0x4000)]), most)


def bus_after_each_step(s, size):
    """`bus` after each event: over the last place to the first, from a counter past
    the window, at rest and deaf where all events are alike."""
    s.image(size)
    end = s.layout.window_end
    for place, amount in [(end - 3, 0), (end - 1, 1), (0x4000, 2)]:
        for number, byte in ([(0, 0), (2, 0xA0), (2, place // 256), (2, place % 256)] + [(2, 0x5A)] * amount
                             + [(1, 0), (3, 0), (2, 0xA1), (1, 0), (0, 0), (2, 0xA1)] + [(3, 0)] * 4
                             + [(4, 0), (3, 0), (2, 0xA0), (1, 0), (0, 0), (2, 0xA1), (2, 0x40)]):
            s.event(number, byte)
            s.say("bus")


def shown_pages(s, size):
    """`show HH` of pages of each kind, of the tail's and of those behind it, by a tag
    in the middle of things, in a write or while a low address byte is expected: PWD
    and PACK are shown as they are, and nothing changes."""
    s.image(size)
    s.active(authenticated=True)
    layout = s.layout
    pages = [0, 1, 2, 3, 4, 0x0A, 0x3F, 0x40, 0x41, 0x7F, 0x80, 0xC0, layout.lock_page, *layout.settings,
             layout.pwd, layout.pack, size, size + 1, size + 2, s.dice.between(size + 2, 0xFE), 0xFF]
    for phase in ("write", "low"):
        s.to_phase(phase, 0x4012)
        if phase == "write":
            s.send(0x5A, 0xA5)
        for page in pages:
            s.say(f"show {page:02X}" if s.dice.one_in(2) else f"show {page:02x}")
            s.ask()


def shown_at_once(s):
    """`show HH` after a WRITE, after a stop, and after the READ that counts: the
    page as it stands then, the tail's too; gathered bytes aren't there yet."""
    s.image(45)
    s.reads_on_entry = False
    s.say("field")
    s.active()
    s.say("show 2D")
    s.command(0x30, 0x04)
    s.say("show 2D")
    s.command(0xA2, 0x04, *s.dice.four())
    s.say("show 04")
    s.address(0x4010)
    s.send(*s.dice.four())
    s.say("show 04")
    s.stop()
    s.say("show 04")
    s.say("show 05")
    s.reads_on_entry = True


def parts_of_pages(s):
    """`show HH` of images that end within a page, and of an empty one: there `tag`
    and `bus` are answered too."""
    for length in [0, 1, 2, 3, 4, 5, 6, 7, 8, 9, 183, 185, 1020, 1021, 1022, 1023, 1024]:
        s.raw_image(s.dice.bytes(length))
        last = max(length - 1, 0) // 4
        for page in sorted({0, 1, last, min(last + 1, 0xFF), 0xFF}):
            s.say(f"show {page:02X}")
            s.ask()
    s.image(45)


def questions_in_any_state(s):
    """All three, by a tag in any state, phase and with any buffer."""
    s.image(s.dice.size())
    for state in s.dice.shuffled(STATES):
        s.reach(state, s.dice.one_of(["IDLE", "HALT"]) if state not in ("IDLE", "HALT") else None)
        s.to_phase(s.dice.one_of(PHASES))
        s.say(f"buffer {s.dice.one_of([0, 512, 1023, 1024])}")
        s.ask()
        s.say(f"show {s.dice.byte():02X}")
        s.ask()
        s.usual_buffer()


def stored(s):
    every_tag_record(s)
    tag_after_each_step(s)
    high_bytes(s)
    every_bus_record_in_memory(s)
    for place, most in [(0x4040, 257), (0x4000, 66), (0x40B0, 66), (0x407F, 65)]:
        counts_of_places(s, place, most)
    counts_of_places(s, 0x3FFE, 65, "HALT")
    shown_at_once(s)
    parts_of_pages(s)
    questions_in_any_state(s)


def stored_of_size(s, size):
    every_bus_record(s, size)
    bus_after_each_step(s, size)
    shown_pages(s, size)


OF_ANY_KIND = [every_tag_record, tag_after_each_step, high_bytes, every_bus_record_in_memory, any_counts,
               shown_at_once, questions_in_any_state]
OF_ANY_SIZE = [every_bus_record, bus_after_each_step, shown_pages]
RARE = [parts_of_pages]
