"""Wrong by hand: screens that walk other bytes of the image, or take other images."""

AREA = "image[4 * FIRST_USER_PAGE:4 * layout.lock_page]"
LAYOUT = "LAYOUTS.get(len(image))"
WRONG_LENGTH = "if layout is None:\n        raise Refused(1)"
FIRST_SETTINGS, SECOND_SETTINGS = "4 * layout.settings[0]", "4 * layout.settings[1]"
PROT, AUTH0 = f"image[{SECOND_SETTINGS}] & 0x80", f"image[{FIRST_SETTINGS} + 3]"
MIRROR_MODE, MIRROR_PAGE = f"image[{FIRST_SETTINGS}] & 0xC0", f"image[{FIRST_SETTINGS} + 2]"
DYNAMIC_LOCKS = "layout.dynamic.locked_pages(image[4 * layout.lock_page:4 * layout.lock_page + 4])"


def walked(area):
    """A walk through these bytes."""
    return "workshop.screen", AREA, area


def zeros_where(hidden):
    """A walk through the user pages, with 00h in pages that are hidden."""
    return walked(f"bytes(0 if {hidden} else image[4 * page + at]\n"
                  "        for page in range(FIRST_USER_PAGE, layout.lock_page) for at in range(4))")


def layout(expression):
    """Another choice of the size."""
    return "workshop.screen", LAYOUT, expression


def before_the_length(statement):
    """Something is done before the image's length is judged."""
    return ("workshop.screen", WRONG_LENGTH,
            f"if layout is None and len(image) > 160:\n        {statement}\n    {WRONG_LENGTH}")


IMAGES_BY_HAND = {
    "the walk begins at page 00h": walked("image[:4 * layout.lock_page]"),
    "the walk begins at page 03h": walked("image[12:4 * layout.lock_page]"),
    "the walk begins at page 05h": walked("image[20:4 * layout.lock_page]"),
    "the walk begins a byte early": walked("image[15:4 * layout.lock_page]"),
    "the walk begins a byte late": walked("image[17:4 * layout.lock_page]"),
    "the walk ends a page early": walked("image[16:4 * layout.lock_page - 4]"),
    "the walk ends a byte early": walked("image[16:4 * layout.lock_page - 1]"),
    "the walk goes on for a byte": walked("image[16:4 * layout.lock_page + 1]"),
    "the walk goes on through the lock page": walked("image[16:4 * layout.lock_page + 4]"),
    "the walk goes on through the settings": walked("image[16:4 * layout.lock_page + 12]"),
    "the walk goes on through all pages": walked("image[16:-4]"),
    "the walk goes on through the tail": walked("image[16:]"),
    "the walk goes on before the user pages": walked("image[16:4 * layout.lock_page] + image[:16]"),
    "the walk goes through 144 bytes in each size": walked("image[16:160]"),
    "the walk goes through 504 bytes at most": walked("image[16:4 * layout.lock_page][:504]"),
    "the walk goes through 256 bytes at most": walked("image[16:4 * layout.lock_page][:256]"),
    "the walk ends where page 3 says": walked("image[16:4 * layout.lock_page][:8 * image[14]]"),
    "page 3 must begin with E1h": walked("image[16:4 * layout.lock_page * (image[12] == 0xE1)]"),
    "PWD is shown as the last user page": walked("image[16:4 * layout.lock_page - 4] + image[-12:-8]"),
    "static locks hide their pages": zeros_where("page < 16 and (image[10] + 256 * image[11]) >> page & 1"),
    "dynamic locks hide their pages": zeros_where(f"page in {DYNAMIC_LOCKS}"),
    "the password hides its pages": zeros_where(f"{PROT} and page >= {AUTH0}"),
    "the password hides its pages without PROT": zeros_where(f"page >= {AUTH0}"),
    "the walk ends before the pages under password": walked(
        f"image[16:4 * min(layout.lock_page, {AUTH0} if {PROT} else 0xFF)]"),
    "the mirror is shown": zeros_where(f"{MIRROR_MODE} and page in ({MIRROR_PAGE}, {MIRROR_PAGE} + 1)"),
    "the image's length is tested behind the walk": before_the_length("first_message(Area(image[16:160]))"),
    "the image's length is tested last": before_the_length("reading_in(first_message(Area(image[16:160])))"),
    "a wrong image is 20": ("workshop.screen", WRONG_LENGTH, WRONG_LENGTH.replace("Refused(1)", "Refused(20)")),
    "an image without bytes is 20": (
        "workshop.screen", WRONG_LENGTH, WRONG_LENGTH.replace("Refused(1)", "Refused(1 if image else 20)")),
    "a longer image is cut": layout("LAYOUTS.get(max((n for n in LAYOUTS if n <= len(image)), default=0))"),
    "an image a byte too long is taken": layout(f"{LAYOUT} or LAYOUTS.get(len(image) - 1)"),
    "an image a byte too short is taken": layout(f"{LAYOUT} or LAYOUTS.get(len(image) + 1)"),
    "an image without its tail is taken": layout(f"{LAYOUT} or LAYOUTS.get(len(image) + 4)"),
    "an image's length is taken in pages": layout("LAYOUTS.get(len(image) // 4 * 4)"),
    "an image's length is taken in a byte": layout(f"{LAYOUT} or LAYOUTS.get(len(image) % 256)"),
    "an image of 45 pages is wrong": layout(f"{LAYOUT} if len(image) != 184 else None"),
    "an image of 135 pages is wrong": layout(f"{LAYOUT} if len(image) != 544 else None"),
    "an image of 231 pages is wrong": layout(f"{LAYOUT} if len(image) != 928 else None"),
    "135 and 231 pages are exchanged": layout("LAYOUTS.get({544: 928, 928: 544}.get(len(image), len(image)))"),
}
