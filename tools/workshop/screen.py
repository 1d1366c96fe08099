"""./workshop screen: what the corridor screen says of an image."""
import re

from failures import Failed, WrongUse
from files import hexed, image_in, shown
from refusals import in_words
from seconds import LAST, now, number_in, span

USAGE = "screen BOARD.img [SECONDS]"
ABOUT = "what the corridor screen says of an image"
HELP = """
Says what the corridor screen says of the reading in an image.

BOARD.img    the raw bytes of an image, 184, 544 or 928; - is standard input
SECONDS      the present second as the logger counts them, 0 to 4294967295. Without it, now: the seconds since 1970, UTC.

    live: 310 W, read 4 min ago          the reading is 0 to 900 seconds old
    old: 310 W, read 2 h 10 min ago      it is older
    ahead: 310 W, dated 3 min from now   it lies in the future

Times are rounded down. To try it on the board of a day, which counts seconds from midnight, at 18:00:

    day/play --save /tmp/board.img
    ./workshop screen /tmp/board.img 64800

The exit status is 0; 1 where the file can't be read or the image is refused, and standard error then says why; 2 where a
word is wrong or the program is not built.
"""


def asked(ask, image, present):
    """The program's answer for an image at a present second: the verdict and the watts, or `refused` and the number."""
    answer = ask(f"screen {present} {hexed(image)}")
    told = re.fullmatch("(live|old|ahead|refused) ([0-9]+)", answer)
    if not told:
        raise Failed(f"the program's answer is none of the screen's: {answer}")
    return told[1], int(told[2])


def second_of(ask, image):
    """The second of an image's reading, which the program's answer doesn't have. It is found by the proved program itself: the answer
    is `ahead` exactly where the present second is before the reading's, so the reading's is the first second that isn't answered by
    `ahead`, and 32 questions find it among 2^32. No second reader of the bytes stands here, which could read them otherwise."""
    first, last = 0, LAST
    while first < last:
        middle = (first + last) // 2
        verdict, _ = asked(ask, image, middle)
        if verdict == "ahead":
            first = middle + 1
        else:
            last = middle
    return first


def says(ask, image, present):
    """The screen's words for an image at a present second, and whether it has a reading."""
    verdict, number = asked(ask, image, present)
    if verdict == "refused":
        return in_words(number), False
    away = span(abs(present - second_of(ask, image)))
    return f"{verdict}: {number} W, {f'dated {away} from now' if verdict == 'ahead' else f'read {away} ago'}", True


def read(words):
    """The file's name, its image, and the present second."""
    for word in words:
        if word.startswith("-") and not re.fullmatch("-[0-9]*", word):
            raise WrongUse(f"screen: unknown option: '{word}' (./workshop screen --help says what there is)")
    if not words:
        raise WrongUse(f"screen: no image is named (./workshop {USAGE})")
    if words[2:]:
        raise WrongUse(f"screen: a word too many: '{words[2]}' (./workshop {USAGE})")
    name, *rest = words
    present = number_in(rest[0]) if rest else now()
    return name, image_in(name), present


def answer(ask, name, image, present):
    words, has_reading = says(ask, image, present)
    if not has_reading:
        raise Failed(f"{shown(name)}: {words}")
    return words
