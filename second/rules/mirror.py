"""Q-3: what the mirror's settings ask for, and what a READ or FAST_READ gives of it."""

from rules.reads import border_of

LENGTHS = {"UID": 14, "counter": 6, "both": 21}
MODES = list(LENGTHS)           # bits 7-6 being 1, 2 and 3


class Chosen:
    """What the settings ask for, whether it is shown or not. Places are numbers of
    image bytes; `end` is the first behind the characters."""

    def __init__(self, image):
        self.layout = image.layout
        byte_0, self.byte_1, self.page, _ = image.pages[image.layout.settings[0]]
        self.mode = [None, *MODES][byte_0 >> 6]
        self.byte, self.low_bits = byte_0 >> 4 & 3, byte_0 & 0xF
        self.start = 4 * self.page + self.byte
        self.end = self.start + LENGTHS.get(self.mode, 0)
        self.too_far = self.end - 4 * self.layout.lock_page

    @property
    def fits(self):
        return self.page >= 4 and self.too_far <= 0

    @property
    def pages(self):
        """The pages that would have its characters."""
        return range(self.start // 4, (self.end + 3) // 4)


def is_told(radio):
    """Whether the counter's number may be told."""
    image = radio.image
    return image.counter_on() and (radio.authenticated or not image.counter_under_password())


def is_shown(chosen, radio):
    """Whether READ and FAST_READ show the characters."""
    return chosen.mode is not None and chosen.fits and (chosen.mode == "UID" or is_told(radio))


def pages_given(step):
    """The pages that a READ or FAST_READ is answered with; none for any other step."""
    name, arguments = step.command
    if step.nak is not None or name not in ("READ", "FAST_READ"):
        return []
    if name == "FAST_READ":
        start, end = arguments
        return range(start, end + 1)
    (first,) = arguments
    return [(first + i) % border_of(step) for i in range(4)]
