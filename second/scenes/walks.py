"""Everything mixed."""

from rules.selection import FAULTS
from scenes.lines import odd_lines
from scenes.plausible import any_command_bits, any_image
from scenes.ready_commands import OTHERS, other_frame
from scenes.selection import faulty_ready_frame, flipped
from tag.bits import bits_of
from tag.frames import READ_00H, REQA, WUPA


def damaged(s, bits):
    """A frame after a mishap, with its parity."""
    dice = s.dice
    mishap = dice.below(6)
    if mishap == 0:
        return flipped(bits, dice.below(len(bits))), True
    if mishap == 1:
        return bits[:max(1, len(bits) - dice.one_of([1, 8, 16, dice.between(1, 24)]))], True
    if mishap == 2:
        return bits + [dice.below(2) for _ in range(dice.one_of([1, 7, 8, 16]))], True
    if mishap == 3:
        return bits, False
    if mishap == 4 and len(bits) > 16:
        return bits[:-16] + [dice.below(2) for _ in range(16)], True
    return bits_of(dice.bytes(dice.between(1, 12)))[:dice.between(1, 96)], not dice.one_in(4)


def read_at_once_or_nearly(s):
    """READ 00h for READY1 or READY2, as often as not a frame that only looks like it."""
    dice = s.dice
    if dice.one_in(2):
        return READ_00H, True
    return damaged(s, READ_00H) if dice.one_in(3) else other_frame(s, dice.one_of(OTHERS))


def wrongly_written_frame(s):
    """A frame line whose numbers don't fit: bits above the last, bytes too many or too few."""
    dice = s.dice
    data = dice.bytes(dice.between(0, 9))
    bit_count = max(0, 8 * len(data) + dice.between(-9, 2))
    s.say(f"{dice.one_of(['frame', 'parity'])} {bit_count} {bytes(data).hex()}".rstrip())


def radio_step(s):
    dice = s.dice
    state = s.radio.state
    if dice.one_in(12):
        s.say("field")
    elif state == "ACTIVE":
        bits = any_command_bits(s)
        s.frame(*(damaged(s, bits) if dice.one_in(8) else (bits, True)))
    elif dice.one_in(10) and state in ("READY1", "READY2"):
        s.frame(*faulty_ready_frame(s, dice.one_of(FAULTS)))
    elif dice.one_in(5) and state in ("READY1", "READY2"):
        s.frame(*read_at_once_or_nearly(s))
    elif dice.one_in(10):
        s.frame(*damaged(s, dice.one_of([REQA, WUPA, any_command_bits(s)])))
    else:
        s.advance()


def bus_step(s):
    """An event that fits the phase, or any."""
    dice = s.dice
    phase = s.bus.phase
    place = s.any_address()
    fitting = {"rest": (0, 0), "deaf": (dice.one_of([0, 1]), 0),
               "device": (2, dice.one_of([0xA0, 0xA0, 0xA1])), "high": (2, place // 256),
               "low": (2, place % 256), "write": (dice.one_of([2, 2, 2, 2, 0, 1]), dice.byte()),
               "read": (dice.one_of([3, 3, 3, 3, 4]), 0)}
    if dice.one_in(8):
        s.event(dice.below(5), dice.one_of([0xA0, 0xA1, 0x40, dice.byte()]))
    else:
        s.event(*fitting[phase])


def walk(s, steps):
    """Everything mixed, on one image."""
    dice = s.dice
    any_image(s)
    bus_share = dice.one_of([0, 1, 3, 6])       # of ten steps
    for _ in range(steps):
        kind = dice.below(100)
        if kind == 0:
            odd_lines(s, 1)
        elif kind == 1:
            wrongly_written_frame(s)
        elif kind == 2 and dice.one_in(2):
            s.say(f"event {dice.between(5, 65535)} {dice.byte():02X}")
        elif kind == 3 and dice.one_in(4):
            s.say(f"buffer {dice.one_of([0, 1023, dice.below(1024)])}")
            radio_step_refused(s)
            s.say("buffer 1024")
        elif kind == 4 and s.layout.size == 45:
            s.say("show")
        elif kind == 5:
            s.say(f"show {dice.one_of([dice.byte(), dice.below(s.layout.size + 2)]):02X}")
        elif kind == 6:
            s.recall_stored()
        elif kind == 7 and dice.one_in(3):
            other_memory(s)
        elif kind < 14:
            s.say(dice.one_of(["tag", "bus"]))
        elif dice.below(10) < bus_share:
            bus_step(s)
        else:
            radio_step(s)


def other_memory(s):
    """A memory of another length, at which events are refused and frames aren't."""
    dice = s.dice
    s.say(f"memory {dice.one_of([0, 16383, dice.below(16384), 16384])}")
    for _ in range(dice.between(1, 3)):
        dice.one_of([bus_step, bus_step, radio_step])(s)
    s.recall(dice.below(0x4000), dice.between(1, 8))
    s.usual_memory()


def radio_step_refused(s):
    """Frames while the buffer is too small: any frame, for the state is kept."""
    for _ in range(s.dice.between(1, 3)):
        s.frame(s.dice.one_of([REQA, WUPA, any_command_bits(s)]))


def any_walk(s):
    walk(s, s.dice.between(50, 100))
