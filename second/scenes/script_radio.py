"""The radio side of a script: frames, the way to a state, and looks at it."""

from tag.bits import bits_of, bytes_of, with_crc
from tag.frames import REQA, WUPA
from tag.reads import border


class RadioLines:
    """What a Script can say to the radio side."""

    def frame(self, bits, parity_good=True):
        """A frame, now and then written in another hand."""
        dice = self.dice
        count, digits = str(len(bits)), bytes_of(bits).hex().upper()
        hand = dice.below(40)
        if hand == 0:
            digits = digits.lower()
        elif hand == 1:
            digits = "".join(dice.one_of([digit, digit.lower()]) for digit in digits)
        elif hand == 2:
            count = count.zfill(dice.between(1, 5))
        self.say(f"{'frame' if parity_good else 'parity'} {count} {digits}")

    def command(self, *data):
        """A frame of these bytes and their CRC."""
        self.frame(with_crc(data))

    def obey(self, *data):
        """A command, and a look at whether the tag is still authenticated or not."""
        self.command(*data)
        if self.radio.state == "ACTIVE":
            self.read_over_border()

    def level(self):
        """The code and the five bytes of READY1 or READY2."""
        if self.radio.state == "READY1":
            return 0x93, self.tag_image.first_five()
        return 0x95, self.tag_image.second_five()

    def anticollision_bits(self, known):
        """The frame that tells the first `known` of the forty bits."""
        code, five = self.level()
        second = 16 * (2 + known // 8) + known % 8
        return bits_of([code, second]) + bits_of(five)[:known]

    def select_bits(self):
        code, five = self.level()
        return with_crc([code, 0x70] + five)

    def advance(self):
        """One right step from where the tag is towards ACTIVE, by frames that are
        answered in this state alone."""
        dice, state = self.dice, self.radio.state
        if state == "IDLE":
            self.frame(REQA, parity_good=not dice.one_in(8))
        elif state == "HALT":
            self.frame(WUPA, parity_good=not dice.one_in(8))
        else:
            if dice.one_in(10):
                self.frame(self.anticollision_bits(dice.below(40)))
            self.frame(self.select_bits())
            if self.radio.state == "ACTIVE" and self.reads_on_entry:
                self.read_over_border()

    def read_over_border(self):
        """A READ whose pages tell whether the tag is authenticated, where some
        are under password; it counts if it is the first in this field."""
        size = self.layout.size
        if border(self.radio):
            self.command(0x30, min(self.tag_image.auth0() or size, size) - 1)

    def look_at_radio(self):
        """Asks for the radio's record; then shows the state, what it keeps for
        later, and the wait state, by what is answered: ends in ACTIVE."""
        self.say("tag")
        if self.radio.state == "ACTIVE":
            self.read_over_border()
        if self.radio.state not in ("IDLE", "HALT"):
            self.frame(REQA)                        # silent: to the wait state
        if self.radio.state == "HALT":
            self.frame(WUPA)                        # silent in all states but HALT and IDLE
            self.frame(REQA)                        # back
            self.frame(REQA)                        # answered in IDLE
        else:
            self.frame(REQA)                        # silent in all states but IDLE
        while self.radio.state != "ACTIVE":
            self.advance()

    def to_waiting(self, wait=None):
        """To IDLE or to HALT; without a wish, to whichever is near."""
        radio = self.radio
        if wait == "IDLE" and (radio.state == "HALT" or radio.woken_from_halt):
            self.say("field")
        if wait == "HALT" and radio.state != "HALT" and not (
                radio.woken_from_halt and radio.state != "IDLE"):
            while radio.state != "ACTIVE":
                self.advance()
            self.command(0x50, 0x00)
        if radio.state not in ("IDLE", "HALT"):
            self.frame(REQA)

    def reach(self, state, wait=None):
        """To a state, on a way that has the wished wait state."""
        if self.radio.state == state and wait in (None, self.radio.wait_state()):
            return
        self.to_waiting(wait or (state if state in ("IDLE", "HALT") else None))
        while self.radio.state != state:
            self.advance()

    def authenticate(self):
        """In ACTIVE, with the right password."""
        self.reach("ACTIVE")
        self.command(0x1B, *self.password())

    def active(self, authenticated=False):
        """To ACTIVE; authenticated, if wished and if the failed count allows it."""
        self.reach("ACTIVE")
        if authenticated and not self.radio.authenticated:
            self.authenticate()
            self.reach("ACTIVE")
