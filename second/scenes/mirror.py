"""What the scenes of the mirror have in common."""

from rules.mirror import LENGTHS, MODES, Chosen
from scenes.images import mirror_bytes
from scenes.plausible import last_start


def choose(s, mode, start, **others):
    """A WRITE that chooses a mirror; AUTH0 stays."""
    s.command(0xA2, s.layout.settings[0], *mirror_bytes(mode, start, **others), s.tag_image.auth0())


def into_new_field(s):
    """To ACTIVE in a new field, in which no READ has been answered."""
    s.say("field")
    s.reads_on_entry = False
    s.active()
    s.reads_on_entry = True


def read(s, *command):
    """A READ or FAST_READ, and the record that it leaves: no page shows it."""
    s.command(*command)
    s.say("tag")


def read_around(s):
    """FAST_READ from the page before the mirror to the one behind it; of all pages
    where it lies behind the user pages."""
    chosen, size = Chosen(s.tag_image), s.layout.size
    if chosen.page >= s.layout.lock_page:
        read(s, 0x3A, 0, size - 1)
    else:
        read(s, 0x3A, max(chosen.page - 1, 0), min(chosen.pages[-1] + 1, size - 1))


def any_start(s, size, mode):
    """From where the characters fit, with a user page before them and behind."""
    return s.dice.between(4 * 5, last_start(size, mode) - 4)


def any_mode(s):
    return s.dice.one_of(MODES)


def pages_of(mode, start):
    """The pages that have the characters."""
    return range(start // 4, (start + LENGTHS[mode] + 3) // 4)
