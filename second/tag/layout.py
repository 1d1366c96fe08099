"""Document 01's table of sizes."""

from tag.locks import dynamic_plan


class Layout:
    """A row of document 01's table of sizes."""

    def __init__(self, size, lock_page, settings, pwd, pack, dynamic, size_code):
        self.size = size                # N
        self.lock_page = lock_page
        self.settings = settings        # the two settings pages
        self.pwd = pwd
        self.pack = pack
        self.dynamic = dynamic
        self.size_code = size_code      # the s of GET_VERSION
        self.window_end = 0x4000 + 4 * size     # the first address behind the window


# "The length tells the size." The user pages are those before the lock page.
LAYOUTS = {
    184: Layout(45, 0x28, (0x29, 0x2A), 0x2B, 0x2C, dynamic_plan(0x27, 12, 2, 6), 0x0F),
    544: Layout(135, 0x82, (0x83, 0x84), 0x85, 0x86, dynamic_plan(0x81, 8, 16, 4), 0x11),
    928: Layout(231, 0xE2, (0xE3, 0xE4), 0xE5, 0xE6, dynamic_plan(0xE1, 14, 16, 7), 0x13),
}
