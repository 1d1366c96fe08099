"""Scripts of `workshop`: lists of lines. Nothing is kept from line to line, so that
there is nothing to steer."""

from scenes.images import access_byte
from scenes.text import Text
from scenes.workshop.areas import USER_BYTES, filler, image_of, message, rest

FULL = 2 ** 32 - 1


class Script(Text):
    """Lines, most of them `screen` and `reading` lines."""

    def screen(self, present, image):
        self.in_some_hand("screen", [present], image)

    def reading(self, seconds, watts, area):
        self.in_some_hand("reading", [seconds, watts], area)

    def in_some_hand(self, word, numbers, data):
        """A line of numbers and bytes, now and then written in another hand."""
        dice = self.dice
        numbers, digits = [str(number) for number in numbers], bytes(data).hex().upper()
        hand = dice.below(30)
        if hand == 0:
            digits = digits.lower()
        elif hand == 1:
            digits = "".join(dice.one_of([digit, digit.lower()]) for digit in digits)
        elif hand == 2:
            numbers = [number.zfill(dice.between(1, 10)) for number in numbers]
        self.say(" ".join([word, *numbers, digits or "-"]))

    def write_into(self, area):
        """A `reading` line of any numbers."""
        self.reading(self.dice.below(2 ** 32), self.dice.below(2 ** 32), area)

    def show(self, area, size=45, present=None, **wishes):
        """A `screen` line on an image with these bytes from page 04h on; whatever
        is missing behind them is made up."""
        dice = self.dice
        area = list(area) + rest(dice, USER_BYTES[size] - len(area))
        self.screen(dice.below(2 ** 32) if present is None else present,
                    image_of(size, area, **{**self.outside(), **wishes}))

    def show_behind(self, front, size=45, behind=(), **wishes):
        """A live reading behind these bytes, and what is behind it: its watts come
        back if the walk gets there, and nothing else gives them."""
        dice = self.dice
        seconds = dice.below(FULL - 900)
        self.show([*front, *message(seconds, dice.below(2 ** 32), dice.one_in(4)), *behind], size,
                  seconds + dice.below(901), **wishes)

    def show_at_end(self, tail, size=45, **wishes):
        """These bytes as the last of the user pages, blocks before them."""
        front = filler(self.dice, USER_BYTES[size] - len(tail))
        self.show(front + list(tail), size, **wishes)

    def outside(self):
        """What an image has outside its user pages."""
        dice = self.dice
        return {
            "uid": dice.bytes(7),
            "page_3": dice.one_of([(0xE1, 0x10, 0x12, 0x00), (0xE1, 0x10, 0x3E, 0x00), (0xE1, 0x10, 0x6D, 0x00),
                                   dice.four()]),
            "page_2": [dice.byte(), dice.byte(), dice.sparse_byte(), dice.sparse_byte()],
            "lock_page": dice.one_of([[0, 0, 0, 0], [0, 0, 0, 0xBD], dice.four()]),
            "auth0": dice.one_of([0xFF, 0x04, dice.byte()]),
            "access": access_byte(prot=dice.below(2), counter_on=dice.below(2)),
            "pwd": dice.four(), "pack": dice.four(), "counter": dice.below(2 ** 24), "failed": dice.below(4)}
