"""Wrong by hand: mistakes about READ 00h in READY1 and READY2, document 02, Q-2."""

from tag.frames import COMMANDS

TAKEN = "frame.parity_good and frame.bits == READ_00H"
TEST = f"    if {TAKEN}:\n"
ANSWERED = '    radio.state = "ACTIVE"\n    return in_active(radio, frame)'
IDLE_TEST = "    if frame.bits in (REQA, WUPA):\n"
HALT_TEST = "    if frame.bits == WUPA:\n"

DATA = ("[sum(bit << place for place, bit in enumerate(frame.bits[at:at + 8]))"
        " for at in range(0, len(frame.bits) - 16, 8)]")
WHOLE = f"frame.parity_good and len(frame.bits) % 8 == 0 and len(frame.bits) > 16 and frame.bits == with_crc({DATA})"
BAD_CRC = ("frame.parity_good and len(frame.bits) == 32 and frame.bits[:16] == READ_00H[:16]"
           " and frame.bits != READ_00H")
B_IS_0 = "radio.image.prot() and radio.image.auth0() == 0"
IS_NAK = "len(answer) == 4"

TO_ACTIVE = 'radio.state = "ACTIVE"'
ANSWER = "answer = in_active(radio, frame)"
OBEY = (TO_ACTIVE, "return in_active(radio, frame)")


def taken(condition):
    """READ 00h is taken on another condition."""
    return "tag.selection", TAKEN, condition


def taken_too(condition, *lines, before=TEST):
    """Frames of another kind are taken too; they are obeyed as in ACTIVE, unless said."""
    done = "".join(f"        {line}\n" for line in lines or OBEY)
    return "tag.selection", before, f"    if {condition}:\n{done}{before}"


def taken_as_read(condition):
    """Frames of another kind are taken for READ 00h."""
    return taken_too(condition, "frame.bits, frame.parity_good = READ_00H, True", *OBEY)


def answered(*lines):
    """READ 00h is answered otherwise."""
    return "tag.selection", ANSWERED, "\n".join(f"    {line}" for line in lines)


def then(*lines, first=()):
    """READ 00h is answered as in ACTIVE, but with something done before or behind it."""
    return answered(*first, TO_ACTIVE, ANSWER, *lines, "return answer")


def taken_while_waiting(test):
    """READ 00h is taken in IDLE or HALT, too."""
    _, _, wrong = taken_too("frame.bits == READ_00H", before=test)
    return "tag.waiting", test, f"    from tag.active import in_active\n    from tag.frames import READ_00H\n{wrong}"


def is_command(code, length):
    """A whole command, with its own CRC_A."""
    return f"len(frame.bits) == {8 * length + 16} and frame.bits[:8] == bits_of([{code}]) and {WHOLE}"


READ = is_command(0x30, 2)
READ_OF_ANY_LENGTH = f"frame.bits[:8] == READ_00H[:8] and {WHOLE}"

WHERE_TAKEN = {
    "READY1 doesn't take READ 00h": taken(f'{TAKEN} and radio.state == "READY2"'),
    "READY2 doesn't take READ 00h": taken(f'{TAKEN} and radio.state == "READY1"'),
    "IDLE takes READ 00h": taken_while_waiting(IDLE_TEST),
    "HALT takes READ 00h": taken_while_waiting(HALT_TEST),
    "READ 00h is taken only of a tag woken from IDLE": taken(f"{TAKEN} and not radio.woken_from_halt"),
    "READ 00h is taken only of a tag woken from HALT": taken(f"{TAKEN} and radio.woken_from_halt"),
    "READ 00h is taken only as the first READ of a field": taken(f"{TAKEN} and not radio.read_answered"),
    "READ 00h is taken only after a READ in the field": taken(f"{TAKEN} and radio.read_answered"),
    "READ 00h with B being 0 is an error": taken(f"{TAKEN} and not ({B_IS_0})"),
    "READ 00h under PROT is an error": taken(f"{TAKEN} and not radio.image.prot()"),
}

WHAT_IS_TAKEN = {
    "READY takes READ 00h with bad parity": taken_as_read("frame.bits == READ_00H"),
    "READY gives NAK 1h to READ 00h with bad parity": taken("frame.bits == READ_00H"),
    "READY takes READ 00h with a bad CRC_A": taken_as_read(BAD_CRC),
    "READY gives NAK 1h to READ 00h with a bad CRC_A": taken_too(BAD_CRC),
    "READY takes READ 00h without its CRC_A": taken_as_read("frame.parity_good and frame.bits == READ_00H[:16]"),
    "READY takes READ 00h without its last byte": taken_as_read("frame.parity_good and frame.bits == READ_00H[:24]"),
    "READY takes READ 00h without its last bit": taken_as_read("frame.parity_good and frame.bits == READ_00H[:31]"),
    "READY takes READ 00h with more bits behind it": taken_as_read(
        "frame.parity_good and frame.bits[:32] == READ_00H"),
    "READY takes READ 00h with more bytes behind it": taken_as_read(
        "frame.parity_good and frame.bits[:32] == READ_00H and len(frame.bits) % 8 == 0"),
    "READY takes a READ of 3 bytes": taken_as_read("frame.parity_good and frame.bits == with_crc([0x30])"),
    "READY takes a READ of any length": taken_as_read(READ_OF_ANY_LENGTH),
    "READY gives NAK 0h to a READ of another length": taken_too(
        f"{READ_OF_ANY_LENGTH} and len(frame.bits) != 32"),
    "READY judges READ 00h by its CRC_A alone": taken_as_read(
        "frame.parity_good and len(frame.bits) == 32 and frame.bits[16:] == READ_00H[16:]"),
    "READY judges READ 00h by its code alone": taken_as_read(
        "frame.parity_good and len(frame.bits) == 32 and frame.bits[:8] == READ_00H[:8]"),
    "READY judges READ 00h by all but its code": taken_as_read(
        "frame.parity_good and frame.bits[8:] == READ_00H[8:]"),
    "READY takes a READ of any address": taken_too(READ),
    "READY takes a READ of any address for READ 00h": taken_as_read(READ),
    "READY takes READ 01h": taken_too("frame.parity_good and frame.bits == with_crc([0x30, 0x01])"),
    "READY takes READ 04h": taken_too("frame.parity_good and frame.bits == with_crc([0x30, 0x04])"),
    "READY takes READ 80h": taken_too("frame.parity_good and frame.bits == with_crc([0x30, 0x80])"),
    "READY gives NAK 0h to a READ of another address": taken_too(
        f"{READ} and frame.bits != READ_00H", "return radio.nak(0)"),
    "READY gives NAK 0h to a READ of a page of N or above": taken_too(
        f"{READ} and {DATA}[1] >= radio.image.layout.size"),
    "READY takes FAST_READ 00h 00h": taken_too("frame.parity_good and frame.bits == with_crc([0x3A, 0, 0])"),
    "READY takes FAST_READ 00h 03h": taken_too("frame.parity_good and frame.bits == with_crc([0x3A, 0, 3])"),
    "READY obeys every whole command": taken_too(WHOLE),
    **{f"READY obeys {name}": taken_too(is_command(code, length))
       for code, (name, length) in COMMANDS.items() if name != "READ"},
}

WHERE_IT_LEADS = {
    "READ 00h is answered, and READY kept": then("radio.state = state", first=["state = radio.state"]),
    "READ 00h is answered in READY1, and leads to READY2": then(
        'radio.state = "READY2" if state == "READY1" else radio.state', first=["state = radio.state"]),
    "READ 00h is answered, and leads to the wait state": then("radio.leave_for(radio.wait_state())"),
    "READ 00h leads to an authenticated ACTIVE": then(
        'radio.authenticated = radio.state == "ACTIVE"'),
    "READ 00h is answered as of an authenticated tag": then(
        "radio.authenticated = False", first=["radio.authenticated = True"]),
    "READ 00h authenticates, and is answered so": then(first=["radio.authenticated = True"]),
    "READ 00h forgets the wait state": then("radio.woken_from_halt = False"),
    "READ 00h forgets the wait state, and a NAK leads to IDLE": then(first=["radio.woken_from_halt = False"]),
    "READ 00h makes HALT the wait state": then("radio.woken_from_halt = True"),
    "READ 00h with B being 0 is silent": then(f"answer = [] if {IS_NAK} else answer"),
    "READ 00h with B being 0 gets NAK 1h": then(f"answer = radio.nak(1) if {IS_NAK} else answer"),
    "READ 00h with B being 0 leads to ACTIVE": then(TO_ACTIVE),
    "READ 00h with B being 0 keeps READY": then(
        f"radio.state = state if {IS_NAK} else radio.state", first=["state = radio.state"]),
    "READ 00h with B being 0 leads to IDLE": then(f'radio.state = "IDLE" if {IS_NAK} else radio.state'),
    "READ 00h with B being 0 leads to HALT": then(f'radio.state = "HALT" if {IS_NAK} else radio.state'),
}

WHAT_IT_COUNTS = {
    "READ 00h in READY isn't counted": then(
        "radio.image.tail = tail", first=["tail = radio.image.tail"]),
    "READ 00h in READY leaves the field's chance": then(
        "radio.read_answered = was", first=["was = radio.read_answered"]),
    "READ 00h in READY is no READ of the field": then(
        "radio.image.tail, radio.read_answered = was", first=["was = radio.image.tail, radio.read_answered"]),
    "READ 00h in READY counts each time": then(first=["radio.read_answered = False"]),
    "READ 00h in READY with NAK 0h counts": then(
        f"{IS_NAK} and not radio.read_answered and radio.image.count_one_read()"),
    "READ 00h in READY with NAK 0h uses up the field's chance": then("radio.read_answered = True"),
}

WHAT_IT_SHOWS = {
    "READ 00h in READY shows the computed BCC0": then(
        "radio.image.replace(0, page)",
        first=["page = radio.image.pages[0]", "radio.image.replace(0, [*page[:3], radio.image.first_five()[4]])"]),
    "READ 00h in READY is answered without CRC_A": then("answer = answer[:128]"),
    "READ 00h in READY is answered by 00h, as SELECT is": then("answer = with_crc([0x00])"),
}

OF_READY = {**WHERE_TAKEN, **WHAT_IS_TAKEN, **WHERE_IT_LEADS, **WHAT_IT_COUNTS, **WHAT_IT_SHOWS}
