"""ACTIVE, entered by READ 00h: what comes then."""

from rules.naming import PHASES
from rules.reads_at_once import READY, WAITS
from scenes.images import access_byte
from scenes.plausible import arguments_of
from scenes.selection import flipped
from tag.bits import bits_of, with_crc
from tag.frames import COMMANDS, READ_00H, REQA, WUPA


def commands_then(s):
    """Commands on both sides of AUTH0, and passwords."""
    dice, size, auth0 = s.dice, s.layout.size, s.tag_image.auth0()
    password = list(s.password())
    wrong = password[:3] + [password[3] ^ 1 << dice.below(8)]
    return [[0x30, dice.below(auth0)], [0x30, dice.between(auth0, size - 1)], [0x30, size],
            [0x3A, 0x00, dice.below(auth0)], [0x3A, 0x00, auth0],
            [0xA2, 0x04, *dice.four()], [0xA2, dice.between(auth0, size - 1), *dice.four()],
            [0x60], [0x39, 0x02], [0x1B, *password], [0x1B, *wrong], [0x50, 0x00], [0x50, 0x01],
            [0x95, 0x70, *s.tag_image.second_five()], [0x93, 0x70, *s.tag_image.first_five()]]


def frames_then(s):
    """Frames that leave ACTIVE by silence, or by NAK 1h, with their parity."""
    dice = s.dice
    code, (name, _) = dice.one_of(list(COMMANDS.items()))
    command = with_crc([code] + arguments_of(s, name))
    return [(REQA, True), (WUPA, True), (bits_of([0x93, 0x20]), True), (bits_of([0x95, 0x20]), True),
            (READ_00H[:31], True), (command, False), (READ_00H, False),
            (flipped(command, dice.below(len(command))), True)]


def what_comes_then(s, size, state, wait, under_password):
    """Each of them behind a READ 00h of its own."""
    dice = s.dice
    s.image(size, auth0=dice.between(5, size - 1), failed=dice.between(1, 9),
            access=access_byte(prot=1, counter_on=1, counter_under_password=under_password))
    commands = [(with_crc(data), True) for data in commands_then(s)]
    for bits, parity_good in dice.shuffled(commands + frames_then(s)):
        s.reach(state, wait)
        s.frame(READ_00H)
        s.frame(bits, parity_good)
        s.say(f"show {size:02X}")
        s.look_at_radio()


def field_lost_then(s, state, wait):
    """The loss of the field behind READ 00h, in every phase of the two wires."""
    s.image(45)
    for phase in s.dice.shuffled(PHASES):
        s.reach(state, wait)
        s.frame(READ_00H)
        s.to_phase(phase)
        if phase == "write":
            s.send(s.dice.byte())
        s.say("field")
        s.ask()
        s.look_at_bus()
        s.look_at_radio()


def after_authentication(s, wait):
    """READ 00h after an authenticated stay in ACTIVE, and a PWD_AUTH behind it: neither
    READY1 nor READY2 keeps or gives authentication."""
    s.image(45)
    for state in READY:
        s.reach("ACTIVE", wait)
        s.authenticate()
        s.reach(state, wait)
        s.frame(READ_00H)
        s.say("tag")
        s.read_over_border()
        s.authenticate()
        s.say("show 2D")
        s.look_at_radio()


def any_then(s, size):
    what_comes_then(s, size, s.dice.one_of(READY), s.dice.one_of(WAITS), s.dice.below(2))


def any_after_authentication(s):
    after_authentication(s, s.dice.one_of(WAITS))


def any_field_lost_then(s):
    field_lost_then(s, s.dice.one_of(READY), s.dice.one_of(WAITS))


def stored(s):
    for wait in WAITS:
        after_authentication(s, wait)
        for state in READY:
            field_lost_then(s, state, wait)


def stored_of_size(s, size):
    for state in READY:
        for wait in WAITS:
            what_comes_then(s, size, state, wait, under_password=0)
            what_comes_then(s, size, state, wait, under_password=1)


OF_ANY_KIND = [any_after_authentication, any_field_lost_then]
OF_ANY_SIZE = [any_then]
