"""The whole tag: a frame, a loss of the field, an event on the two wires."""

from tag.active import in_active
from tag.bits import bits_of
from tag.bus import Bus
from tag.frames import Frame
from tag.image import Image
from tag.radio import Radio
from tag.refusal import Refused
from tag.regions import MEMORY_LENGTH, DataMemory
from tag.selection import in_ready
from tag.waiting import in_halt, in_idle

EVENTS = ["start", "stop", "send", "read-ack", "read-nak"]

# What one frame does in each state; gives the answer's bits.
IN_STATE = {"IDLE": in_idle, "HALT": in_halt, "READY1": in_ready, "READY2": in_ready,
            "ACTIVE": in_active}


class Tag:
    """"Two sides of one tag": one image, a radio side and two wires; and the data
    memory of document 02, Q-1, "lent as a second buffer". "the radio cannot reach
    the new memory": it isn't given it."""

    def __init__(self):
        self.data_memory = DataMemory()
        self.take_image(b"")

    def take_image(self, data):
        """A new image; both records begin anew."""
        self.image = Image(data)
        self.radio = Radio(self.image)
        self.bus = Bus(self.image, self.data_memory)

    def lose_field(self):
        """"Field loss gives IDLE"; the two wires don't notice."""
        self.radio.field_off()

    def frame(self, bit_count, data, parity_good, buffer_length):
        """A frame call; gives the answer's bits."""
        if self.image.layout is None:
            # 1: "image length isn't 184, 544 or 928"
            raise Refused(1)
        if buffer_length < 1024:
            # 2: "frame call: answer buffer under 1,024 bytes"
            raise Refused(2)
        if not is_frame(bit_count, data):
            raise Refused(3)
        frame = Frame(bits_of(data)[:bit_count], parity_good)
        return IN_STATE[self.radio.state](self.radio, frame)

    def event(self, number, byte):
        """A bus call; gives None, an acknowledge bit (True or False) or a byte."""
        if self.image.layout is None:
            # 1: "image length isn't 184, 544 or 928"
            raise Refused(1)
        if len(self.data_memory.data) != MEMORY_LENGTH:
            # 5: "bus call with a data memory that isn't 16,384 bytes, after 1 and
            # before 4"
            raise Refused(5)
        if number >= len(EVENTS):
            # 4: "bus call: event isn't one of the five"
            raise Refused(4)
        name = EVENTS[number]
        if name == "start":
            return self.bus.start()
        if name == "stop":
            return self.bus.stop()
        if name == "send":
            return self.bus.send(byte)
        return self.bus.read(acknowledged=name == "read-ack")


def is_frame(bit_count, data):
    """No. 3 is given for "bit count 0 or over 512, byte count not the bits
    rounded up, or a set bit above the last"."""
    return (1 <= bit_count <= 512 and len(data) == (bit_count + 7) // 8
            and not any(bits_of(data)[bit_count:]))
