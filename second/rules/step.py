"""A step: how the tag stood, the line it got, its answer, how it then stands."""

from functools import cached_property
from typing import NamedTuple

from lines.player import Player
from lines.reading import TABLE
from lines.words import is_skipped, without_return
from rules.line import LineStep
from state import put_state, state_of
from tag.bits import bits_of, bytes_of
from tag.calls import EVENTS
from tag.frames import ACK, COMMANDS, NAK, READ_00H, Frame

ACK_ANSWER = b"answer 4 %02X" % sum(bit << place for place, bit in enumerate(ACK))
NAK_ANSWERS = {b"answer 4 %02X" % sum(bit << place for place, bit in enumerate(NAK[number])): number
               for number in NAK}


class FieldMemory(NamedTuple):
    """What a rule may ask about the field so far, beyond what the tag keeps."""

    first_read_found_on: bool = True    # the first read answered found the counter on
    same_stay: bool = True              # ACTIVE was not entered again since that read
    entered_by_read_in: str = None      # READY1 or READY2, where READ 00h led to ACTIVE

    def after(self, step):
        """The memory when this step is over."""
        before, after = step.before.tag.radio, step.after.tag.radio
        memory = self
        if after.state == "ACTIVE" and before.state != "ACTIVE":
            ready = before.state if step.reads_at_once else None
            memory = memory._replace(same_stay=False, entered_by_read_in=ready)
        if after.read_answered and not before.read_answered:
            on = step.image.layout is not None and step.image.counter_on()
            memory = memory._replace(first_read_found_on=on, same_stay=True)
        return memory


class Step(LineStep):
    """What the observers look at."""

    def __init__(self, before, line, answer, after, memory):
        super().__init__(line, answer, TABLE)
        self.before, self.after = before, after
        self.memory = memory
        self.image = before.tag.image
        self.nak = NAK_ANSWERS.get(answer)
        self.acked = answer == ACK_ANSWER
        self.frame = self.event = self.byte = None
        if self.word in ("frame", "parity"):
            self.read_frame(self.word == "frame", *self.arguments)
        elif self.word in EVENT_OF_WORD or self.word == "event":
            self.read_event(*self.arguments)

    def read_frame(self, parity_good, bit_count, data=b""):
        self.bit_count, self.data = bit_count, data
        if self.refused is None:
            self.frame = Frame(bits_of(data)[:bit_count], parity_good)

    def read_event(self, *arguments):
        if self.word == "event":
            self.number, self.byte = arguments
        else:
            self.number = EVENTS.index(EVENT_OF_WORD[self.word](*arguments))
            self.byte = arguments[0] if self.word == "send" else None
        if self.refused is None:
            self.event = EVENTS[self.number]

    @property
    def state(self):
        """The radio's state before the step."""
        return self.before.tag.radio.state

    @property
    def phase(self):
        """The two wires' phase before the step."""
        return self.before.tag.bus.phase

    @property
    def address(self):
        """The address that an event is about: the one that its byte makes whole,
        else the counter."""
        bus = self.before.tag.bus
        whole = self.event == "send" and bus.phase == "low"
        return 256 * bus.high + self.byte if whole else bus.counter

    @cached_property
    def reads_at_once(self):
        """Whether this is the READ 00h of Q-2, in READY1 or READY2."""
        return (self.frame is not None and self.state in ("READY1", "READY2")
                and self.frame.parity_good and self.frame.bits == READ_00H)

    @cached_property
    def command(self):
        """The name and the arguments of a command that a tag in ACTIVE was
        given whole, or that is answered as in ACTIVE; None and nothing for any
        other step."""
        if self.reads_at_once:
            return "READ", (0x00,)
        if not self.frame or self.state != "ACTIVE" or self.nak == 1 or len(self.frame.bits) < 24:
            return None, ()
        data = bytes_of(self.frame.bits)[:-2]
        name, length = COMMANDS.get(data[0], (None, None))
        if len(self.frame.bits) % 8 or len(data) != length:
            return None, ()
        return name, tuple(data[1:])


EVENT_OF_WORD = {
    "start": lambda: "start", "stop": lambda: "stop", "send": lambda byte: "send",
    "read": lambda acknowledged: "read-ack" if acknowledged else "read-nak"}


class Watched:
    """A player whose every step is looked at."""

    def __init__(self):
        self.player, self.before = Player(), Player()
        self.memory = FieldMemory()

    def play(self, line):
        """The answer to a line, and the step; no step for a line that is skipped."""
        if is_skipped(without_return(line)):
            return None, None
        put_state(self.before, state_of(self.player))
        answer = self.player.answer(line)
        step = Step(self.before, line, answer, self.player, self.memory)
        self.memory = self.memory.after(step)
        return answer, step
