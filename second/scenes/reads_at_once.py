"""READ 00h in READY1 and READY2, which skips the selection."""

from rules.reads_at_once import READY, WAITS
from scenes.images import access_byte
from scenes.plausible import plausible_counter
from tag.frames import READ_00H


def read_at_once(s, state, wait):
    """READ 00h in this state, now and then after an anticollision; then the record
    that it leaves, and the tail."""
    s.reach(state, wait)
    if s.dice.one_in(4):
        s.frame(s.anticollision_bits(s.dice.below(40)))
    s.frame(READ_00H)
    s.say("tag")
    s.say(f"show {s.layout.size:02X}")


def in_new_field(s, state, wait):
    """READ 00h as the first READ of a field."""
    s.say("field")
    s.reads_on_entry = False
    read_at_once(s, state, wait)
    s.reads_on_entry = True


def all_borders(s, size):
    """AUTH0 and PROT for every B that makes a difference, and where AUTH0 makes none."""
    dice = s.dice
    return [(0, 1), (1, 1), (2, 1), (3, 1), (4, 1), (dice.between(5, size - 1), 1), (size, 1), (0xFF, 1),
            (dice.below(4), 0), (dice.between(4, 0xFF), 0)]


def at_border(s, size, auth0, prot):
    """READ 00h as the first READ of a field and as a later one, in both states."""
    s.image(size, auth0=auth0, access=access_byte(prot=prot, counter_on=1))
    for state in READY:
        wait = s.dice.one_of(WAITS)
        in_new_field(s, state, wait)
        s.look_at_radio()
        read_at_once(s, state, wait)
        s.look_at_radio()


def counts(s, state, wait, value):
    """READ 00h as the first READ of a field, which counts, and as a later one, which
    doesn't."""
    s.image(45, counter=value)
    in_new_field(s, state, wait)
    s.command(0x39, 0x02)
    read_at_once(s, state, wait)
    s.command(0x39, 0x02)
    s.look_at_radio()
    in_new_field(s, state, wait)
    s.look_at_radio()


def uncounted(s, state, wait):
    """READ 00h that finds the counter off, and those behind it in the field."""
    s.image(45, access=access_byte(prot=1))
    in_new_field(s, state, wait)
    read_at_once(s, state, wait)
    s.command(0xA2, s.layout.settings[1], access_byte(prot=1, counter_on=1), 0, 0, 0)
    read_at_once(s, state, wait)
    s.command(0x39, 0x02)
    s.look_at_radio()


def naks(s, state, wait, counter_on):
    """READ 00h with B being 0, before and after a READ that counts: NAK 0h leaves the
    field's chance to it."""
    s.image(45, auth0=0, access=access_byte(prot=1, counter_on=counter_on))
    in_new_field(s, state, wait)
    s.look_at_radio()
    s.active(authenticated=True)
    s.command(0x30, 0x00)
    read_at_once(s, state, wait)
    s.look_at_radio()


def refused(s, state, wait):
    """READ 00h in calls that are refused: the tag stays where it is, and the next one
    is the first READ of the field."""
    s.image(45)
    s.say("field")
    s.reads_on_entry = False
    s.reach(state, wait)
    s.say(f"buffer {s.dice.one_of([0, 1023])}")
    s.frame(READ_00H)
    s.say("tag")
    s.usual_buffer()
    for line in ("frame 31 300002A8", "frame 32 300002A800", "frame 33 300002A8"):
        s.say(line)
        s.say("tag")
    read_at_once(s, state, wait)
    s.reads_on_entry = True
    s.look_at_radio()


def while_waiting(s, size):
    """READ 00h in IDLE and HALT: silence, whatever its parity."""
    s.image(size)
    for state in WAITS:
        for parity_good in (True, False):
            s.reach(state)
            s.frame(READ_00H, parity_good)
            s.look_at_radio()


def some_borders(s, size):
    for auth0, prot in s.dice.some(3, all_borders(s, size)):
        at_border(s, size, auth0, prot)


def any_counts(s):
    state, wait = s.dice.one_of(READY), s.dice.one_of(WAITS)
    counts(s, state, wait, plausible_counter(s))
    uncounted(s, state, wait)
    naks(s, state, wait, s.dice.below(2))


def any_refused(s):
    refused(s, s.dice.one_of(READY), s.dice.one_of(WAITS))


def stored(s):
    for state in READY:
        for wait in WAITS:
            for value in (0xFE, 0xFF, 0xFFFF, 0xFFFFFE, 0xFFFFFF):
                counts(s, state, wait, value)
            uncounted(s, state, wait)
            naks(s, state, wait, counter_on=1)
            naks(s, state, wait, counter_on=0)
            refused(s, state, wait)


def stored_of_size(s, size):
    for auth0, prot in all_borders(s, size):
        at_border(s, size, auth0, prot)
    while_waiting(s, size)


OF_ANY_KIND = [any_counts, any_counts, any_refused]
OF_ANY_SIZE = [some_borders, while_waiting]
