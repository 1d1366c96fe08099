"""The bytes of blocks, and of user pages."""

from scenes.images import LAYOUT_OF_SIZE, build_image

NULL, MESSAGE, TERMINATOR = 0x00, 0x03, 0xFE
BEGINNING = [0xD5, 0x00, 0x08]
LONG_READING = 15               # bytes of a reading's block with a length of FFh and two
WRITTEN = 14                    # bytes of a reading's block as it is written, with FEh behind it
FACTORY = [0x01, 0x03, 0xA0, 0x0C, 0x34, 0x03, 0x00, 0xFE]

# How many bytes the user pages have.
USER_BYTES = {size: 4 * (layout.lock_page - 4) for size, layout in LAYOUT_OF_SIZE.items()}


def counted(kind, length, long_form=False):
    """The type and the length of a block, as they are written before its bytes."""
    if long_form or length > 254:
        return [kind, 0xFF, length // 256, length % 256]
    return [kind, length]


def block(kind, content, long_form=False):
    return counted(kind, len(content), long_form) + list(content)


def reading(seconds, watts):
    """"D5 00 08 and eight bytes: seconds, then watts, each four bytes low first" """
    return BEGINNING + list(seconds.to_bytes(4, "little")) + list(watts.to_bytes(4, "little"))


def message(seconds, watts, long_form=False):
    return block(MESSAGE, reading(seconds, watts), long_form)


def written(seconds, watts, area=()):
    """An area with a reading written into it: "03h 0Bh, the eleven bytes, FEh, and
    the rest as found"."""
    return message(seconds, watts) + [TERMINATOR] + list(area[WRITTEN:])


def passed_type(dice):
    """A type that is passed over."""
    return dice.one_of([0x01, 0x02, 0x04, 0xFD, 0xFF] + [dice.between(0x04, 0xFD)] * 5)


def filler(dice, length):
    """So many bytes of blocks that are passed over, and of 00h between them."""
    made = []
    while len(made) < length:
        left = length - len(made)
        long_form = left >= 4 and dice.one_in(5)
        if left == 1 or dice.one_in(4):
            made.append(NULL)
        else:
            most = min(left - (4 if long_form else 2), dice.one_of([12, 254]))
            made += block(passed_type(dice), dice.many_bytes(dice.between(0, most)), long_form)
    return made


def rest(dice, length):
    """So many bytes behind what is looked at: 00h, FEh and anything, or anything."""
    kind = dice.below(3)
    if kind == 0 or length == 0:
        return [NULL] * length
    return ([TERMINATOR] if kind == 1 else [dice.byte()]) + dice.many_bytes(length - 1)


def filled_up(dice, front, length):
    """These bytes, and any behind them up to this length."""
    return (list(front) + dice.many_bytes(length))[:length]


def filled(front, size):
    """User pages that begin with these bytes, and hold 00h behind them."""
    return list(front) + [NULL] * (USER_BYTES[size] - len(front))


def image_of(size, area, **wishes):
    """An image with these user pages."""
    if len(area) != USER_BYTES[size]:
        raise ValueError(f"{len(area)} bytes for the {USER_BYTES[size]} of N={size}")
    return build_image(size, user=lambda page: area[4 * page - 16:4 * page - 12], **wishes)
