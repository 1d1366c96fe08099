"""Which READ and FAST_READ show the mirror, and how much of it."""

from rules.mirror import MODES
from rules.reads_at_once import READY
from scenes.images import access_byte, mirror_bytes
from scenes.mirror import any_mode, any_start, into_new_field, pages_of, read
from scenes.script import Script
from tag.frames import READ_00H


def reads_around(s, size, mode, start, enter):
    """READ from each page that is near the mirror; FAST_READ of parts of it. ACTIVE is
    entered as it is wished for each."""
    s.image(size, auth0=0xFF, mirror=mirror_bytes(mode, start), access=access_byte(counter_on=1))
    pages = pages_of(mode, start)
    first, last = pages[0], pages[-1]
    reads = [[0x30, page] for page in range(first - 4, last + 2)]
    reads += [[0x30, size - 1]]
    reads += [[0x3A, *ends] for ends in [
        (first - 1, first - 1), (first - 1, first), (first, first), (first, last), (first - 1, last + 1),
        (first + 1, last - 1), (first + 1, last + 1), (last, last), (last + 1, last + 2), (0, size - 1)]]
    for command in s.dice.shuffled(reads):
        enter(s)
        read(s, *command)


def borders(s, size, mode, start):
    """B before, inside and behind the mirror; then the same authenticated."""
    pages = pages_of(mode, start)
    first, last = pages[0], pages[-1]
    for auth0 in sorted({first, first + 1, last, last + 1}):
        s.image(size, auth0=auth0, mirror=mirror_bytes(mode, start), access=access_byte(prot=1, counter_on=1))
        for command in ([0x30, auth0 - 1], [0x30, auth0 - 2], [0x3A, first - 1, auth0 - 1],
                        [0x3A, first - 1, auth0]):
            s.active()
            read(s, *command)
        s.active(authenticated=True)
        read(s, 0x30, first)
        read(s, 0x3A, first - 1, last + 1)


def open_past_auth0(s, size, mode, start):
    """PROT clear: AUTH0 hides nothing."""
    first = start // 4
    s.image(size, auth0=first, mirror=mirror_bytes(mode, start), access=access_byte(counter_on=1))
    s.active()
    read(s, 0x30, first)
    read(s, 0x30, first - 1)


def read_at_once(s, size, mode):
    """READ 00h in READY1 and READY2 gives the pages before 04h, or fewer: no mirror is
    there, neither of one that begins at once behind them nor of one that would begin
    in them."""
    for state in READY:
        for start in (4 * 0x04, s.dice.below(4), 4 * 0x03 + s.dice.below(4)):
            auth0 = s.dice.one_of([1, 2, 3, 4, 5, 0xFF])
            s.image(size, auth0=auth0, mirror=mirror_bytes(mode, start), access=access_byte(prot=1, counter_on=1))
            s.say("field")
            s.reach(state, s.dice.one_of(["IDLE", "HALT"]))
            s.frame(READ_00H)
            s.say("tag")


def any_reads(s, size):
    mode = any_mode(s)
    reads_around(s, size, mode, any_start(s, size, mode), s.dice.one_of([Script.active, into_new_field]))


def any_borders(s, size):
    mode = any_mode(s)
    start = any_start(s, size, mode)
    borders(s, size, mode, start)
    open_past_auth0(s, size, mode, start)


def any_read_at_once(s, size):
    read_at_once(s, size, any_mode(s))


def stored_of_size(s, size):
    for mode in MODES:
        # From byte 3 of its page a mirror has the most pages.
        start = any_start(s, size, mode) // 4 * 4 + 3
        reads_around(s, size, mode, start, into_new_field if size == 45 else Script.active)
        borders(s, size, mode, start)
        open_past_auth0(s, size, mode, start)
        read_at_once(s, size, mode)


OF_ANY_SIZE = [any_reads, any_borders, any_read_at_once]
