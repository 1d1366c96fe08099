"""READ, FAST_READ, the counter, GET_VERSION."""

from scenes.images import LAYOUT_OF_SIZE, access_byte
from scenes.plausible import pages_at_edges, plausible_auth0, plausible_counter


def reads(s, size, auth0, prot):
    """READ and FAST_READ on both sides of the border, authenticated and not."""
    dice = s.dice
    s.image(size, auth0=auth0, access=access_byte(prot=prot, counter_on=1, counter_under_password=1))
    for authenticated in (False, True):
        border = size if authenticated or not prot else min(auth0, size)
        near = [page for page in range(border - 5, border + 3) if 0 <= page <= 255]
        for page in dice.some(6, near) + [dice.one_of(pages_at_edges(s)), size - 3]:
            s.active(authenticated)
            s.command(0x30, page)
        for page in dice.some(4, near):
            s.active(authenticated)
            s.command(0x3A, max(page - dice.below(4), 0), page)
        page = dice.one_of(near)
        for start, end in [(page, page), (page, max(page - 1, 0)), (255, 0), (0, 255)]:
            s.active(authenticated)
            s.command(0x3A, start, end)
        for read in ([0x3A, size - 4, size - 1], [0x30, size - 2]):
            s.active(authenticated)
            s.command(*read)
            s.active(authenticated)
            s.command(0x39, 0x02)       # shows whether the tag is authenticated


def any_reads(s):
    size = s.dice.size()
    reads(s, size, plausible_auth0(s, size), s.dice.below(2))


def whole_memory(s, size):
    """FAST_READ of all pages: PWD and PACK are zeros. READ_CNT then shows whether
    the tag is authenticated, as no page is under password."""
    s.image(size, auth0=0xFF, access=access_byte(counter_on=1, counter_under_password=1))
    for authenticated in (False, True):
        s.active(authenticated)
        s.command(0x3A, 0, size - 1)
        s.command(0x39, 0x02)
        s.look_at_radio()


def any_whole_memory(s):
    whole_memory(s, s.dice.even_size())


def first_reads(s):
    """Each kind of READ as the first in a field, of pages under password among them."""
    s.image(45)
    s.reads_on_entry = False
    for first in ([0x30, 4], [0x30, 43], [0x3A, 4, 4], [0x3A, 4, 6], [0x3A, 40, 43]):
        first_in_field(s, first)
    for first in ([0x30, 43], [0x3A, 44, 44], [0x3A, 40, 44]):
        first_in_field(s, first, authenticated=True)
    s.reads_on_entry = True


def first_in_field(s, first, authenticated=False):
    """A READ that is the first in a field: it counts, and none behind it."""
    s.say("field")
    s.active(authenticated)
    for read in (first, [0x30, 4], [0x3A, 4, 4]):
        s.command(*read)
        s.command(0x39, 0x02)


def counting(s, size, value, under_password):
    """The counter, over several fields, on and off."""
    dice = s.dice
    read = [0x30, dice.below(size)]
    fast_read = [0x3A, 4, dice.one_of([4, 9])]
    first, second = dice.shuffled([read, fast_read])
    settings_2 = LAYOUT_OF_SIZE[size].settings[1]
    on = access_byte(counter_on=1, counter_under_password=under_password)
    s.image(size, counter=value, access=on)
    s.reads_on_entry = False
    s.active()
    s.command(0x30, size)               # refused, so it doesn't count
    for command in (first, second):
        s.active(authenticated=under_password)
        s.command(*command)
        s.say("tag")                    # at FFFFFFh nothing else shows that it was the first
        s.command(0x39, 0x02)
    s.look_at_radio()
    s.command(0x50, 0x00)
    s.active(authenticated=under_password)
    s.command(*first)                   # the field is still the same
    s.command(0x39, 0x02)
    s.say("field")
    s.active()
    s.command(*second)
    s.command(0x39, 0x02)
    s.active()
    s.command(0x39, dice.one_of([0x00, 0x01, 0x03, 0xFF]))
    s.say("field")
    s.active()
    s.command(0xA2, settings_2, 0x00, 0, 0, 0)
    s.command(*first)                   # the chance of this field is used up
    s.command(*second)
    s.command(0x39, 0x02)
    s.active()
    s.command(0xA2, settings_2, on, 0, 0, 0)
    s.command(*first)
    s.command(0x39, 0x02)
    s.reads_on_entry = True


def any_counting(s):
    counting(s, s.dice.size(), plausible_counter(s), s.dice.below(2))


def versions(s):
    """GET_VERSION and READ_CNT for each size: neither authenticates."""
    for size in (45, 135, 231):
        s.image(size)
        s.active()
        s.obey(0x60)
        s.obey(0x39, 0x02)


def refused_read_cnt(s):
    """READ_CNT that is refused: with another second byte, with the counter off. It
    leads to the wait state and ends authentication."""
    for counter_on in (1, 0):
        s.image(45, access=access_byte(prot=1, counter_on=counter_on))
        for second in (0x02, 0x00, 0x03) if not counter_on else (0x00, 0x01, 0x03, 0xFF):
            for wait in ("IDLE", "HALT"):
                s.reach("ACTIVE", wait)
                s.authenticate()
                s.command(0x39, second)
                s.look_at_radio()


def refused_reads(s):
    """A READ or FAST_READ that is refused leaves the field's chance to count, and
    ends authentication."""
    s.image(45)
    for read in ([0x30, 45], [0x3A, 0, 45], [0x3A, 1, 0]):
        s.say("field")
        s.reads_on_entry = False
        s.active(authenticated=True)
        s.command(*read)
        s.reads_on_entry = True
        s.active()
    for read in ([0x30, 0], [0x3A, 0, 0], [0x3A, 1, 0]):
        s.image(45, auth0=0, access=access_byte(prot=1, counter_on=1))
        s.active()
        s.command(*read)
        s.active(authenticated=True)
        s.read_over_border()
        s.command(0x39, 0x02)


def stored(s):
    versions(s)
    refused_read_cnt(s)
    refused_reads(s)
    first_reads(s)
    for value in (0, 0xFE, 0xFF, 0xFFFE, 0xFFFF, 0xFFFFFE, 0xFFFFFF):
        counting(s, 45, value, under_password=0)
        counting(s, 45, value, under_password=1)


def stored_of_size(s, size):
    whole_memory(s, size)
    counting(s, size, 0x123456, under_password=1)
    for auth0 in (0, 1, 2, 3, 4, size - 1, size, 0xFF, s.dice.between(5, size - 2)):
        reads(s, size, auth0, prot=1)
    reads(s, size, 4, prot=0)


OF_ANY_KIND = [any_reads, any_reads, any_counting, versions, refused_read_cnt, refused_reads,
               first_reads]
RARE = [any_whole_memory]
