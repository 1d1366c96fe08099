"""The characters of the mirror, and the counter's among them."""

from rules.mirror import MODES
from rules.mirror_text import WITH_COUNTER
from scenes.images import access_byte, mirror_bytes
from scenes.mirror import any_mode, any_start, into_new_field, pages_of, read, read_around
from scenes.plausible import plausible_counter

# UIDs, each with two counters: every digit is the first of a byte, and the second, in both.
UIDS_AND_COUNTERS = [("0123456789ABCD", [0x012345, 0x6789AB]), ("EF1032547698BA", [0xCDEF10, 0x325476]),
                     ("DCFE3141592653", [0x98BADC, 0xFE1234])]


def digits(s, size):
    """Each hex digit at both places of a byte; the first READ counts to the number."""
    for uid, counters in UIDS_AND_COUNTERS:
        for counter in counters:
            s.image(size, uid=list(bytes.fromhex(uid)), counter=counter - 1, auth0=0xFF,
                    mirror=mirror_bytes("both", any_start(s, size, "both")))
            s.active()
            read_around(s)


def who_may_see(s, size, mode):
    """The counter on and off, open and under password, with PROT and without, for a
    tag that isn't authenticated and for one that is."""
    for number in s.dice.shuffled(range(8)):
        access = access_byte(counter_on=number % 2, counter_under_password=number // 2 % 2, prot=number // 4)
        s.image(size, auth0=0xFF, access=access, mirror=mirror_bytes(mode, any_start(s, size, mode)))
        for authenticated in (False, True):
            into_new_field(s)
            s.active(authenticated)
            read_around(s)
            read(s, 0x30, s.tag_image.mirror_start() // 4)
            s.command(0x39, 0x02)
        s.reach("IDLE")
        s.active()                      # in the same field, no longer authenticated
        read_around(s)


def counts(s, size, mode, value):
    """The number that is shown is that after this READ has counted; the next one shows
    it again, and one in a new field the next number."""
    start = any_start(s, size, mode)
    pages = pages_of(mode, start)
    s.image(size, counter=value, auth0=0xFF, mirror=mirror_bytes(mode, start))
    for command in s.dice.shuffled([[0x30, pages[-1] - 2], [0x3A, pages[0], pages[-1]]]):
        into_new_field(s)
        read(s, *command)
        read_around(s)
        s.command(0x39, 0x02)
        s.say(f"show {size:02X}")


def turned_on_since(s, size, mode):
    """A first READ that finds the counter off uses up the chance: with the counter on,
    the next one shows the number as it was."""
    s.image(size, access=access_byte(), auth0=0xFF, mirror=mirror_bytes(mode, any_start(s, size, mode)))
    s.active()
    read_around(s)
    s.command(0xA2, s.layout.settings[1], access_byte(counter_on=1), 0, 0, 0)
    read_around(s)
    s.say(f"show {size:02X}")


def any_digits(s, size):
    s.image(size, auth0=0xFF, mirror=mirror_bytes("both", any_start(s, size, "both")))
    s.active()
    read_around(s)


def any_who_may_see(s, size):
    who_may_see(s, size, any_mode(s))


def any_counts(s, size):
    mode = any_mode(s)
    counts(s, size, mode, plausible_counter(s))
    turned_on_since(s, size, mode)


def stored(s):
    digits(s, 45)
    for mode in MODES:
        who_may_see(s, 45, mode)
    for mode in WITH_COUNTER:
        for value in (0, 0xFE, 0xFF, 0xFFFE, 0xFFFF, 0x123456, 0xFFFFFD, 0xFFFFFE, 0xFFFFFF):
            counts(s, 45, mode, value)
        turned_on_since(s, 45, mode)


def stored_of_size(s, size):
    for mode in MODES:
        counts(s, size, mode, 0x89ABCD)


OF_ANY_SIZE = [any_digits, any_who_may_see, any_counts]
