"""Q-6: the corridor screen."""

from tag.layout import LAYOUTS
from tag.refusal import Refused

FIRST_USER_PAGE = 0x04
NULL, MESSAGE, TERMINATOR = 0x00, 0x03, 0xFE
BEGINNING = bytes([0xD5, 0x00, 0x08])
SECONDS_OF_LIFE = 900


class Area:
    """Bytes that are taken from the front, up to the end of the user pages."""

    def __init__(self, data):
        self.left = data

    def take(self, amount):
        """The next bytes. 21: "a length, or the bytes it counts, passes the user
        pages"."""
        if amount > len(self.left):
            raise Refused(21)
        taken, self.left = self.left[:amount], self.left[amount:]
        return taken


def screen(present, image):
    """Live, old or ahead, in words, and the watts: "The watts come back with each
    of the three." """
    content = first_message(user_area(image))
    seconds, watts = reading_in(content)
    return judged(present - seconds), watts


def user_area(image):
    """"from page 04h through the user pages"; "a wrong image is 1, tested first".
    The user pages are those before the lock page, as they are stored."""
    layout = LAYOUTS.get(len(image))
    if layout is None:
        raise Refused(1)
    return Area(image[4 * FIRST_USER_PAGE:4 * layout.lock_page])


def first_message(area):
    """"Take the first block of type 03h." Gives the bytes that it holds.

    "00h is one byte, FEh ends": all other types have a length, and what is not of
    type 03h is passed over. 20: "no such block", also where the user pages end
    without FEh.
    """
    while area.left:
        (kind,) = area.take(1)
        if kind == NULL:
            continue
        if kind == TERMINATOR:
            break
        content = area.take(length_in(area))
        if kind == MESSAGE:
            return content
    raise Refused(20)


def length_in(area):
    """"lengths are one byte or FFh and two, high byte first": of any value."""
    (first,) = area.take(1)
    if first != 0xFF:
        return first
    high, low = area.take(2)
    return 256 * high + low


def reading_in(content):
    """"It must hold exactly D5 00 08 and eight bytes: seconds, then watts, each
    four bytes low first." 22: "not a reading"."""
    if len(content) != 11 or content[:3] != BEGINNING:
        raise Refused(22)
    return int.from_bytes(content[3:7], "little"), int.from_bytes(content[7:], "little")


def judged(age):
    """"Given the present second the answer is live if the reading is 0 to 900
    seconds old, old if more, ahead if it lies in the future." """
    if age < 0:
        return "ahead"
    return "live" if age <= SECONDS_OF_LIFE else "old"
