"""Plays the tag on lines: the program `corridor`."""

from lines.answering import Answering
from lines.reading import TABLE
from lines.records import bus_in_words, tag_in_words
from lines.words import NOT_HOW, BadLine
from tag.bits import bytes_of
from tag.calls import EVENTS, Tag
from tag.frames import SILENCE

HELP = ("commands: image HEX, buffer N, field, frame BITS HEX, parity BITS HEX, "
        "start, stop, send HH, read ack, read nak, event N HH, show, show HH, tag, bus, "
        "memory N, recall HHHH N, help")


class Player(Answering):
    """A method for each command word."""

    table = TABLE

    def __init__(self):
        self.tag = Tag()        # "Before the first `image` line the image is empty."
        self.buffer_length = 1024

    def play_image(self, data=b""):
        self.tag.take_image(data)
        return f"image {len(data)}"

    def play_buffer(self, length):
        self.buffer_length = length
        return f"buffer {length}"

    def play_field(self):
        self.tag.lose_field()
        return "field"

    def play_frame(self, bit_count, data=b""):
        return self.play_radio(bit_count, data, parity_good=True)

    def play_parity(self, bit_count, data=b""):
        return self.play_radio(bit_count, data, parity_good=False)

    def play_radio(self, bit_count, data, parity_good):
        answer = self.tag.frame(bit_count, data, parity_good, self.buffer_length)
        return "silence" if answer == SILENCE else written(f"answer {len(answer)}", bytes_of(answer))

    def play_start(self):
        return self.play_event(EVENTS.index("start"))

    def play_stop(self):
        return self.play_event(EVENTS.index("stop"))

    def play_send(self, byte):
        return self.play_event(EVENTS.index("send"), byte)

    def play_read(self, acknowledged):
        return self.play_event(EVENTS.index("read-ack" if acknowledged else "read-nak"))

    def play_event(self, number, byte=None):
        result = self.tag.event(number, byte)
        if result is None:
            return "done"
        if isinstance(result, bool):
            return "ack" if result else "nak"
        return f"byte {result:02X}"

    def play_show(self, page=None):
        """"the image as it stands", or "those of the four bytes of page HH that
        the image has": its tail's too, and PWD and PACK as they are."""
        image = self.tag.image.everything()
        if page is None:
            return written("image", image)
        return written("page", image[4 * page:4 * page + 4])

    def play_tag(self):
        return tag_in_words(self.tag.radio)

    def play_bus(self):
        return bus_in_words(self.tag.bus)

    def play_memory(self, length):
        """"lends every later two-wire event a data memory of N bytes [...], all
        zeros". Image and records stay as they are."""
        self.tag.data_memory.lend(length)
        return f"memory {length}"

    def play_recall(self, first, amount):
        """"N bytes of the data memory, 1 to 1,024, from byte HHHH on; `error: not
        how this command is written` where they are not all within it" """
        data = self.tag.data_memory.data
        if first + amount > len(data):
            raise BadLine(NOT_HOW)
        return written("memory", data[first:first + amount])

    def play_help(self):
        return HELP


def written(word, data):
    """A word and bytes behind it: "`image` alone where it is empty", "`page` alone
    where it has none of them"."""
    return f"{word} {bytes(data).hex().upper()}" if data else word
