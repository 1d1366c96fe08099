"""Q-6: the image: its length, what lies outside the user pages, and what doesn't matter."""

from rules.naming import SIZES, each
from rules.workshop.blocks import READING_BLOCK, is_reading, walk_of
from tag.image import Image
from tag.layout import LAYOUTS

WRONG_LENGTHS = [0, 1, 183, 185, 543, 545, 927, 929, 1024, 1099, 1100]
FIRST_USER_BYTE = 16

RULES = {
    **each("screen1.length", WRONG_LENGTHS + ["other"], "a wrong image is 1 ({})"),
    **each("screen1.first", ["20", "21", "22", "reading"],
           "a wrong image is 1, tested first: taken for a right one it would be {}"),
    **{key: sentence for size in SIZES for key, sentence in each(
        f"outside.{size}", ["before", "over-the-start", "behind"],
        "from page 04h through the user pages: a reading {} them isn't seen").items()},
    "outside/page-3-looks-like-a-block": "from page 04h: what page 3 has would be a block that goes on there",
    "outside/lock-page-ends": "through the user pages: FEh stands first behind them",
    "outside/lock-page-goes-on": "through the user pages: a block stands first behind them",
    **each("no-matter", ["static-lock", "dynamic-lock", "password", "mirror"],
           "The stored bytes are walked: no mirror, lock or password ({})"),
    **each("no-matter", ["page-3-not-E1h", "page-3-tells-less"],
           "from page 04h through the user pages: whatever page 3 says ({})"),
}


def met(step):
    if step.word != "screen":
        return
    if step.area is None:
        yield f"screen1.length/{len(step.image) if len(step.image) in WRONG_LENGTHS else 'other'}"
        yield from of_taken_for_right(step.image)
        return
    yield from of_neighbours(step)
    if step.walk.message is None:
        yield from of_outside(step)
    elif is_reading(step.walk.message):
        yield from of_no_matter(step)


def of_taken_for_right(image):
    """What the screen would find in an image that is taken for the next smaller."""
    smaller = [length for length in LAYOUTS if length <= len(image) + 1]
    if not smaller:
        return
    walk = walk_of(image[FIRST_USER_BYTE:4 * LAYOUTS[smaller[-1]].lock_page])
    if walk.message is not None:
        yield "screen1.first/" + ("reading" if is_reading(walk.message) else "22")
    else:
        yield "screen1.first/" + ("21" if walk.stop == "passes" else "20")


def of_neighbours(step):
    """What stands just before and just behind the user pages."""
    kind, length = step.image[12], step.image[13]
    if kind not in (0x00, 0xFE) and 2 < length < 0xFF:
        yield "outside/page-3-looks-like-a-block"
    if step.walk.stop == "end":
        behind = step.image[FIRST_USER_BYTE + len(step.area)]
        yield "outside/lock-page-ends" if behind == 0xFE else "outside/lock-page-goes-on"


def of_outside(step):
    """Where an image without a message has a reading all the same."""
    last = FIRST_USER_BYTE + len(step.area)
    for start in range(len(step.image) - 12):
        if not step.image.startswith(READING_BLOCK, start):
            continue
        if start < FIRST_USER_BYTE:
            whole = start + 13 <= FIRST_USER_BYTE
            yield f"outside.{step.size}/" + ("before" if whole else "over-the-start")
        elif start >= last:
            yield f"outside.{step.size}/behind"


def of_no_matter(step):
    """What binds the radio, and doesn't bind the screen."""
    image = Image(step.image)
    block = step.walk.blocks[-1]
    pages = range(4 + block.start // 4, 4 + (block.behind + 3) // 4)
    mirror = image.pages[image.layout.settings[0]]
    if any(page in pages for page in image.locked_pages()):
        yield "no-matter/" + ("static-lock" if pages[0] < 16 else "dynamic-lock")
    if image.prot() and image.auth0() <= pages[0]:
        yield "no-matter/password"
    if mirror[0] >= 0x40 and mirror[2] in pages:
        yield "no-matter/mirror"
    if image.pages[3][0] != 0xE1:
        yield "no-matter/page-3-not-E1h"
    if 8 * image.pages[3][2] < block.behind:
        yield "no-matter/page-3-tells-less"
