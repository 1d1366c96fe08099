"""WRITE."""

from scenes.images import access_byte
from scenes.plausible import plausible_auth0, plausible_data


def page_of_each_kind(s):
    layout = s.layout
    return [0, 1, 2, 3, s.dice.between(4, 15), s.dice.between(16, layout.lock_page - 1),
            layout.lock_page, *layout.settings, layout.pwd, layout.pack, layout.size,
            s.dice.between(layout.size, 255), 255]


def writes(s, size, auth0, settings_lock):
    """WRITE to each kind of page, open, under password, and authenticated; what
    it stored, and that the tag is authenticated as before, is read."""
    dice = s.dice
    access = access_byte(settings_lock=settings_lock, prot=1, counter_on=1)
    s.image(size, auth0=auth0, access=access)
    for authenticated in (False, True):
        for page in dice.shuffled(page_of_each_kind(s)):
            data = plausible_data(s, page)
            if page == s.layout.settings[0]:
                data = dice.bytes(3) + [auth0]
            elif page == s.layout.settings[1]:
                data = [access] + dice.bytes(3)
            s.active(authenticated)
            s.obey(0xA2, page, *data)
    for page in (auth0 - 1, auth0):
        if 2 <= page <= 255:
            s.active()
            s.command(0xA2, page, 0, 0, 0, 0)
            s.command(0x30, page)


def any_writes(s):
    size = s.dice.size()
    writes(s, size, plausible_auth0(s, size), int(s.dice.one_in(3)))


def page_3(s):
    """Page 3 gains bits and loses none."""
    dice = s.dice
    s.image(dice.size(), page_3=[dice.sparse_byte() for _ in range(4)])
    s.active()
    for _ in range(4):
        s.obey(0xA2, 3, *[dice.sparse_byte() for _ in range(4)])
        s.command(0x3A, 3, 3)
    s.obey(0xA2, 3, *s.tag_image.pages[3])
    s.look_at_radio()
    s.obey(0xA2, 3, 0, 0, 0, 0)


def writes_without_prot(s):
    """PROT clear: READ is open, but WRITE is under password from AUTH0 on."""
    s.image(45, auth0=8, access=access_byte(counter_on=1))
    for authenticated in (False, True):
        for page in (7, 8, 9, 44):
            s.active(authenticated)
            s.command(0xA2, page, *s.dice.four())
            s.active(authenticated)
            s.command(0x30, page)
            s.say(f"show {page:02X}")


def stored(s):
    page_3(s)
    page_3(s)
    writes_without_prot(s)


def stored_of_size(s, size):
    for auth0 in (0, 2, 0xFF, s.dice.between(16, size - 6)):
        writes(s, size, auth0, settings_lock=0)
        writes(s, size, auth0, settings_lock=1)


OF_ANY_KIND = [any_writes, any_writes, page_3, writes_without_prot]
