"""`memory N` and `recall HHHH N`."""

from rules.naming import PHASES, STATES

# Of a memory of 16,384 bytes.
WITHIN = [b"recall 0000 1", b"recall 0000 0004", b"recall 3fFf 1", b"recall 3FFF 00001", b"recall 3FF0 16",
          b"recall 003E 4", b"recall 1fff 2"]
OUTSIDE = [b"recall 3FFF 2", b"recall 3FFE 3", b"recall 3C01 1024", b"recall 4000 1", b"recall 40B0 1",
           b"recall FFFF 1", b"recall ffff 2", b"recall FC01 1024"]

# Of one of 100 bytes, and of an empty one.
WITHIN_100 = [b"recall 0000 100", b"recall 0000 1", b"recall 0063 1", b"recall 003C 8"]
OUTSIDE_100 = [b"recall 0063 2", b"recall 0064 1", b"recall 0000 101", b"recall 0100 1", b"recall 3FFF 1"]
OF_NONE = [b"recall 0000 1", b"recall 0000 1024", b"recall 3FFF 1"]


def in_the_middle_of_things(s):
    """The radio woken from HALT and authenticated, with a write to either region
    going on; the radio in HALT, the bus deaf, the buffer short; and the radio in
    READY1 before the field's first READ, with a low address byte expected."""
    dice = s.dice
    for place in (s.any_place(), s.memory_place()):
        s.reach("ACTIVE", "HALT")
        s.authenticate()
        s.address(place)
        s.send(*dice.bytes(2))
        yield
        s.look_at_bus()
    s.reach("HALT")
    s.to_phase("deaf")
    s.say("buffer 1000")
    yield
    s.usual_buffer()
    s.say("field")
    s.advance()
    s.to_phase("low", s.memory_place())
    yield
    s.look_at_bus()


def recalls(s):
    """Good and wrong ones, in the middle of things: nothing changes."""
    s.image(45)
    for place in (0x0000, 0x003E, 0x1FFE, 0x3FFC):
        s.fill_memory(place)
    for _ in in_the_middle_of_things(s):
        for line in s.dice.shuffled(WITHIN + OUTSIDE):
            s.say(line)
            s.ask()


def recalls_of_short_memories(s):
    """Of 100 bytes and of none, in the middle of things; all that is lent anew is
    zero, and a memory of another length refuses no question."""
    s.image(45)
    for _ in in_the_middle_of_things(s):
        for length, lines in ((100, WITHIN_100 + OUTSIDE_100), (0, OF_NONE)):
            s.say(f"memory {length}")
            s.ask()
            for line in s.dice.shuffled(lines):
                s.say(line)
                s.ask()
        s.say("memory 16384")


def longest_recalls(s):
    """1,024 bytes up to the last, with bytes at both ends; one more is wrong."""
    s.image(45)
    for place in (0x0000, 0x03FC, 0x3C00, 0x3FFC):
        s.fill_memory(place)
    s.say("recall 3C00 1024")
    s.say("recall 0000 1025")


def new_memories(s):
    """A `memory` line in each state and each phase: image and records stay, what
    is gathered too, and the memory is all zeros, of the same length or another."""
    dice = s.dice
    s.image(45)
    for phase in PHASES:
        some = [dice.one_of(["IDLE", "HALT"]), dice.one_of(["READY1", "READY2"]), "ACTIVE"]
        states = dice.shuffled(STATES if phase in ("rest", "write", "deaf") else some)
        for state, length in zip(states, [16384, 16383] + dice.some(3, [0, 1, 44, 1000, 16384])):
            s.reach(state)
            if state == "ACTIVE" and dice.one_in(2):
                s.authenticate()
            s.fill_memory(dice.one_of([0, 40]))
            place = s.any_place() if dice.one_in(2) else s.memory_place()
            s.address(place)
            s.to_phase(phase, place)
            if phase == "write":
                s.send(*dice.bytes(dice.between(1, 3)))
            new_memory(s, length)
            s.look_at_bus()


def new_memory(s, length):
    """Of the right length, or of another one and then of the right one."""
    s.say(f"memory {length}")
    s.ask()
    s.recall(0, 4)
    s.recall(40, 4)
    if length != 16384:
        s.event(s.dice.below(5), 0xA0)
        s.ask()
        s.say("memory 16384")
        s.ask()
    s.recall(40, 4)


def images_keep_the_memory(s):
    """`image` lines, good ones and of other lengths: the memory keeps its bytes,
    and its length too."""
    dice = s.dice
    for length in (184, 183, 544, 0, 928, 5):
        if s.layout:
            s.fill_memory(0x0000)
        s.raw_image(dice.bytes(length))
        s.recall(0, 4)
        s.recall_stored()
    for memory in (100, 16383, 0):
        s.image(45)
        s.to_phase(dice.one_of(["write", "low"]), s.memory_place())
        s.authenticate()
        s.say(f"memory {memory}")
        for length in (184, 7):
            s.raw_image(dice.bytes(length))
            s.say("recall 0000 1")
            s.say("recall 0063 1")
            s.say("recall 0064 1")
            s.event(dice.below(5), 0xA0)
            s.ask()
    s.image(45)


def refused_by_memory(s, size):
    """5, in every phase, at every event and at none of the five, with the counter
    in either region and in neither; the record stays and nothing is stored.
    Frames and the loss of the field aren't refused."""
    dice = s.dice
    s.image(size)
    end = s.layout.window_end
    for phase in dice.shuffled(PHASES):
        places = [(s.memory_place(), 0), (dice.between(0x4010, 0x4060), 2), (end - 1, 1)]
        for place, amount in dice.some(2, places):
            s.address(place)
            s.send(*dice.bytes(amount))
            s.stop()
            s.to_phase(phase, place)
            if phase == "write":
                s.send(*dice.bytes(2))
            lengths = [0, 1, 16383, dice.below(16384)]
            for length in lengths if phase == "write" else dice.some(1, lengths):
                refused_with(s, length)
            s.say("memory 16384")
            s.look_at_bus()
    s.say("show")


def refused_with(s, length):
    """Some calls with a memory of this length; `bus` shows that the record stays."""
    s.say(f"memory {length}")
    radio_without_memory(s)
    for number in s.dice.some(4, [0, 1, 2, 3, 4, s.dice.one_of([5, 256, 65535])]):
        s.say(f"event {number} {s.dice.one_of([0xA0, 0xA1, 0x40]):02X}")
        s.say("bus")


def radio_without_memory(s):
    """Frames and a field loss; each shows in the record."""
    if s.dice.one_in(3):
        s.say("field")
    elif s.radio.state == "ACTIVE":
        s.command(0xA2, 4, *s.dice.four())
    else:
        s.advance()
    s.ask()


def stored(s):
    recalls(s)
    recalls_of_short_memories(s)
    longest_recalls(s)
    new_memories(s)
    images_keep_the_memory(s)


def stored_of_size(s, size):
    refused_by_memory(s, size)


OF_ANY_KIND = [recalls, recalls_of_short_memories, new_memories]
OF_ANY_SIZE = [refused_by_memory]
RARE = [longest_recalls, images_keep_the_memory]
