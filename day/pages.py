"""An image laid out by pages, with what each page is: include/corridor_tag.h has the table."""

PAGES = {184: 45, 544: 135, 928: 231}  # an image's length in bytes, and its pages
BYTES_A_LINE = 32


def hexed(data):
    """Bytes as pairs of hex digits, with spaces between them."""
    return " ".join(f"{byte:02X}" for byte in data)


def mirror_of(four):
    """What the first settings page says of the mirror, or nothing where it chooses none."""
    mode, byte = four[0] >> 6, four[0] >> 4 & 3
    chosen = ["", "the UID", "the counter", "UID and counter"][mode]
    return f", mirror of {chosen} from byte {byte} of page {four[2]:02X}h" if chosen else ""


def what_page_is(count, page, four):
    """What a page of an image of so many pages is; `page` may be the tail's, behind the last."""
    fixed = {
        0: "UID 0 to 2, BCC0",
        1: "UID 3 to 6",
        2: "BCC1, a byte that stays, static locks",
        3: "capability container",
        count - 5: "dynamic locks, block bits in byte 2",
        count - 4: f"settings: AUTH0 {four[3]:02X}h{mirror_of(four)}",
        count - 3: f"settings: ACCESS {four[0]:02X}h",
        count - 2: "PWD",
        count - 1: "PACK",
        count: f"counter {int.from_bytes(four[:3], 'little')}, failed passwords {four[3]}",
    }
    return fixed.get(page, "user page")


def runs(rows):
    """Rows (page, bytes, what) with equal user pages that follow each other taken together, as (first, last, bytes, what)."""
    taken = []
    for page, four, what in rows:
        if taken and what == "user page" and taken[-1][2:] == (four, what):
            taken[-1] = (taken[-1][0], page, four, what)
        else:
            taken.append((page, page, four, what))
    return taken


def line_of(count, first, last, four, what):
    """One line of the layout."""
    where = "tail" if first == count else f"{first:02X}h" if first == last else f"{first:02X}h to {last:02X}h"
    return f"{where:<10}  {hexed(four)}  {what}{'s, all equal' if first != last else ''}"


def laid_out(image):
    """The lines that show an image: by pages, or as plain hex where its length is none of the three."""
    count = PAGES.get(len(image))
    if count is None:
        head = f"image of {len(image)} byte{'s' * (len(image) != 1)}, which is none of the sizes"
        return [head] + [hexed(image[at : at + BYTES_A_LINE]) for at in range(0, len(image), BYTES_A_LINE)]
    fours = [image[at : at + 4] for at in range(0, len(image), 4)]
    rows = [(page, four, what_page_is(count, page, four)) for page, four in enumerate(fours)]
    return [f"image of {len(image)} bytes: {count} pages and a tail"] + [line_of(count, *run) for run in runs(rows)]
