"""Scripts: lists of lines, written while playing along on the second tag.

Because the tag is at hand, a script knows the state, the password and the
locks, and can steer: to ACTIVE, into HALT, into any phase of the two wires.
"""

from lines.player import Player
from scenes.images import access_byte, build_image, mirror_bytes
from scenes.plausible import plausible_mirror
from scenes.script_bus import BusLines
from scenes.script_memory import MemoryLines
from scenes.script_radio import RadioLines
from scenes.text import Text
from tag.frames import REQA


class Script(Text, RadioLines, BusLines, MemoryLines):
    """Lines, and the second tag that has played them."""

    def __init__(self, seed):
        super().__init__(seed)
        self.player = Player()
        self.reads_on_entry = True  # ACTIVE is entered with a READ

    def say(self, line):
        super().say(line)
        self.player.answer(self.lines[-1])

    def ask(self):
        """Both records in words."""
        self.say("tag")
        self.say("bus")

    def ask_twice(self):
        """The second answers show that the first questions changed nothing."""
        self.ask()
        self.ask()

    # ---- What the tag is like now

    @property
    def tag_image(self):
        return self.player.tag.image

    @property
    def layout(self):
        return self.player.tag.image.layout

    @property
    def radio(self):
        return self.player.tag.radio

    @property
    def bus(self):
        return self.player.tag.bus

    def password(self):
        return self.tag_image.pages[self.layout.pwd]

    # ---- Images

    def raw_image(self, data):
        """Takes leave of the old image, then takes the new one."""
        self.take_leave()
        digits = bytes(data).hex()
        digits = digits if self.dice.one_in(12) else digits.upper()
        self.say(f"image {digits}" if digits else "image")

    def take_leave(self):
        """Shows how both sides stand, the image with its tail, and some of the
        data memory."""
        self.ask()
        if self.layout and self.player.buffer_length == 1024:
            self.look_at_radio()
        if self.layout:
            self.look_at_bus()
        self.say("show")
        self.recall_stored()

    def usual_buffer(self):
        """A buffer that is long enough; one that isn't is shown to be too short."""
        if self.player.buffer_length != 1024:
            self.frame(REQA)
            self.say("buffer 1024")

    def image(self, size, **wishes):
        """An image of random contents, with what is wished for; frames and events
        are taken, and the data memory isn't all zeros.

        Unless said, the counter is on and the last page is under password, so
        that a READ over the border shows whether the tag is authenticated, and
        the tail whether it counted; one in four has a mirror, as it may come.
        """
        dice = self.dice
        wishes.setdefault("pwd", dice.four())
        wishes.setdefault("pack", dice.four())
        wishes.setdefault("bcc0", dice.one_of([None, dice.byte()]))
        wishes.setdefault("auth0", size - 1)
        wishes.setdefault("access", access_byte(prot=1, counter_on=1))
        wishes.setdefault("counter", dice.below(2 ** 20))
        wishes.setdefault("uid", dice.bytes(7))
        wishes.setdefault("mirror", plausible_mirror(self, size) if dice.one_in(4) else mirror_bytes())
        wishes.setdefault("user", lambda page: dice.four())
        self.raw_image(build_image(size, **wishes))
        self.usual_buffer()
        self.usual_memory()
