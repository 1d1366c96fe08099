"""The refusals of document 01, and Q-1's of document 02."""

from rules.naming import PHASES, STATES
from scenes.plausible import plausible_image
from tag.bits import bits_of
from tag.frames import REQA, WUPA

WRONG_LENGTHS = [0, 183, 185, 543, 545, 927, 929, 1024]


def refused_by_image(s):
    """1, at every call, at the lengths around the right ones."""
    dice = s.dice
    for length in dice.shuffled(WRONG_LENGTHS + [dice.between(1, 182), 4 * dice.between(137, 231)]):
        plausible_image(s, 45)
        s.reach(dice.one_of(STATES))
        s.to_phase(dice.one_of(PHASES))
        s.say(f"buffer {dice.one_of([0, 1, 1023, 1024])}")
        s.raw_image(dice.bytes(length))
        if dice.one_in(3):
            s.say(f"memory {dice.one_of([0, 16383, dice.below(16384)])}")
        s.frame(WUPA)
        s.ask()
        s.say(dice.one_of(["frame 0", "frame 7 A6", "parity 8"]))
        s.ask()
        for event in dice.some(3, range(5)):
            s.event(event, 0xA0)
            s.ask()
        s.say(f"event {dice.between(5, 65535)} 00")
        s.ask()
        s.say("field")
        s.ask()


def refused_frames(s, size):
    """2 and 3, in every state. The state, what is kept with it and the buffer's
    length stay: the frames behind each refusal show it."""
    dice = s.dice
    s.image(size)
    for state in dice.shuffled(STATES):
        s.reach(state, dice.one_of(["IDLE", "HALT"]) if state not in ("IDLE", "HALT") else None)
        for length in (0, 1023, dice.between(1, 1022)):
            s.say(f"buffer {length}")
            s.frame(REQA)
            s.say(dice.one_of(["frame 0", "frame 513", "frame 7 80"]))
            s.frame(REQA)
            s.say("buffer 1024")
        for line in dice.shuffled(wrong_frames(dice)):
            s.say(line)
        if state in ("READY1", "READY2"):
            s.frame(s.anticollision_bits(0))
        s.look_at_radio()
        s.frame(bits_of(dice.bytes(64)))
        s.frame([dice.below(2)])


def wrong_frames(dice):
    """Lines that no. 3 refuses, each for another reason."""
    used, length = dice.between(1, 7), dice.between(1, 64)
    return ["frame 0", "parity 0", "parity 0 00", "frame 513 " + "00" * 65, f"frame {dice.between(514, 65535)}",
            "parity 600", f"frame 520 {'AA' * 65}", f"frame {8 * length} {'30' * (length - 1)}".rstrip(),
            f"frame {8 * length} {'30' * (length + 1)}", "frame 8 5252", "parity 8",
            f"frame {8 * length + used - 8} {'50' * (length - 1)}{1 << dice.between(used, 7):02X}"]


def set_bits_above_the_last(s):
    """3, for each number of bits in the last byte, and each bit above them."""
    s.image(45)
    for used in range(1, 8):
        for bit in range(used, 8):
            s.say(f"frame {8 + used} 52{1 << bit:02X}")


def refused_frames_one_by_one(s):
    """3, for each reason, in HALT, and in ACTIVE authenticated after HALT: nothing
    of the radio changes."""
    s.image(45)
    lines = wrong_frames(s.dice) + [f"frame {8 + used} 52{1 << used:02X}" for used in range(1, 8)]
    for line in lines:
        s.reach("HALT")
        s.say(line)
        s.look_at_radio()
        s.authenticate()
        s.say(line)
        s.look_at_radio()


def before_any_image(s):
    """1, before the first `image` line: "the image is empty"."""
    for line in ("show", "frame 7 52", "start", "send A0", "read ack", "read nak", "stop", "event 5 00",
                 "field", "parity 0", "show", "tag", "bus", "show 00", "show FF", "tag", "bus",
                 "recall 0000 2", "recall 3FFF 1", "recall 4000 1", "memory 3", "start", "event 5 00", "bus",
                 "recall 0000 3", "recall 0001 3", "memory 16384", "stop", "recall 3FFF 1", "bus"):
        s.say(line)


def refused_events(s, size):
    """4, in every phase; the phase is kept, and all that goes with it."""
    dice = s.dice
    s.image(size)
    for phase in dice.shuffled(PHASES):
        for number in [5, 256 * dice.between(1, 255) + dice.below(5), 65535, dice.between(6, 65535)]:
            s.to_phase(phase)
            if phase == "write":
                s.send(dice.byte())
            s.say(f"event {number} {dice.byte():02X}")
            if phase in ("low", "write") or dice.one_in(2):
                s.look_at_bus()
            s.look_at_counter()


def stored(s):
    refused_by_image(s)
    refused_by_image(s)
    set_bits_above_the_last(s)
    refused_frames_one_by_one(s)


def stored_of_size(s, size):
    refused_frames(s, size)
    refused_events(s, size)


OF_ANY_SIZE = [refused_frames, refused_events]
RARE = [refused_by_image, set_bits_above_the_last, refused_frames_one_by_one]
