"""PWD_AUTH, and what ends authentication."""

from scenes.images import access_byte
from tag.bits import with_crc
from tag.frames import WUPA


def passwords(s, size, authlim, failed):
    """Wrong passwords, right ones, the limit."""
    dice = s.dice
    s.image(size, auth0=dice.one_of([4, size - 1]), failed=failed,
            access=access_byte(prot=1, counter_on=1, authlim=authlim))
    tries = ["wrong"] * dice.below(9) + ["right"] * 2
    for attempt in dice.shuffled(tries) + ["right", "right", "wrong"]:
        password = list(s.password())
        if attempt == "wrong":
            password[dice.below(4)] ^= 1 << dice.below(8)
        s.active()
        s.obey(0x1B, *password)
        if s.radio.authenticated and dice.one_in(3):
            s.command(0xA2, dice.between(4, 15), *dice.four())


def wrong_passwords(s):
    """A password that is wrong in one byte, with AUTHLIM 0: the failed count stays,
    and it ends authentication."""
    for place in range(4):
        s.image(45, failed=5)
        password = list(s.password())
        password[place] ^= 1 << s.dice.below(8)
        s.reach("ACTIVE", "HALT" if place % 2 else "IDLE")
        s.command(0x1B, *password)
        s.say("show")
        s.active(authenticated=True)
        s.command(0x1B, *password)
        s.active()


def counted_passwords(s):
    """A password that is wrong in one byte, with AUTHLIM 7: each is counted."""
    s.image(45, failed=1, access=access_byte(prot=1, counter_on=1, authlim=7))
    for place in range(4):
        password = list(s.password())
        password[place] ^= 1 << s.dice.below(8)
        s.active()
        s.command(0x1B, *password)
        s.say("show 2D")


def last_chances(s):
    """The failed count one below AUTHLIM: the right password is taken, sets the
    count to 0, and is taken again."""
    for authlim in range(1, 8):
        s.image(45, failed=authlim - 1, access=access_byte(prot=1, counter_on=1, authlim=authlim))
        s.active()
        s.obey(0x1B, *s.password())
        s.obey(0x1B, *s.password())


def any_passwords(s):
    authlim = s.dice.below(8)
    passwords(s, s.dice.size(), authlim,
              s.dice.one_of([0, 0, 0, max(authlim - 1, 0), authlim, authlim + 1, 255]))


def leaving_active(s, size):
    """Each way out of ACTIVE ends authentication."""
    dice = s.dice
    protected = dice.between(4, size - 1)
    s.image(size, auth0=4, access=access_byte(prot=1, counter_on=1))
    ways = ["nak0", "nak1", "silence", "hlta", "field"]
    for way_out, wait in dice.shuffled([(way, wait) for way in ways for wait in ("IDLE", "HALT")]):
        s.reach("ACTIVE", wait)
        s.authenticate()
        s.command(0x30, protected)
        if way_out == "nak0":
            s.command(0x30, size)
        elif way_out == "nak1":
            s.frame(with_crc([0x60]), parity_good=False)
        elif way_out == "silence":
            s.frame(WUPA)
        elif way_out == "hlta":
            s.command(0x50, 0x00)
        else:
            s.say("field")
        s.active()                      # straight on: another silence would end it
        s.command(0x30, protected)
        s.look_at_radio()


def stored(s):
    wrong_passwords(s)
    counted_passwords(s)
    last_chances(s)
    for authlim in range(8):
        for failed in (0, max(authlim - 1, 0), authlim, authlim + 1):
            passwords(s, 45, authlim, failed)


def stored_of_size(s, size):
    leaving_active(s, size)


OF_ANY_KIND = [wrong_passwords, counted_passwords, last_chances, any_passwords, any_passwords]
OF_ANY_SIZE = [leaving_active]
