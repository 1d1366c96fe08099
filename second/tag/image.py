"""The image: pages, tail and settings."""

from tag.bits import BITS_OF_BYTE, exclusive_or
from tag.layout import LAYOUTS
from tag.locks import STATIC


class Image:
    """"N pages of 4 bytes, then a 4-byte tail: counter (3 bytes, low first)
    and failed-password count." """

    def __init__(self, data):
        self.length = len(data)
        self.pages = tuple(tuple(data[start:start + 4]) for start in range(0, len(data), 4))
        self.tail = ()
        if self.layout:
            self.tail = self.pages[-1]
            self.pages = self.pages[:-1]

    @property
    def layout(self):
        """The size that the length tells, or None."""
        return LAYOUTS.get(self.length)

    def everything(self):
        return [byte for page in self.pages for byte in page] + list(self.tail)

    # The settings. "First settings page: byte 3 is AUTH0. Second, byte 0 is
    # ACCESS: bit 7 PROT, 6 settings lock, 4 counter on, 3 counter under
    # password, 2-0 AUTHLIM."

    def auth0(self):
        return self.pages[self.layout.settings[0]][3]

    def access(self):
        return BITS_OF_BYTE[self.pages[self.layout.settings[1]][0]]

    def prot(self):
        return self.access()[7] == 1

    def settings_lock(self):
        return self.access()[6] == 1

    def counter_on(self):
        return self.access()[4] == 1

    def counter_under_password(self):
        return self.access()[3] == 1

    def authlim(self):
        return self.access()[0] + 2 * self.access()[1] + 4 * self.access()[2]

    # The mirror's settings. Document 02, Q-3: "first settings page, byte 0, bits
    # 7-6 choose none, UID [...], counter [...] or both [...]; bits 5-4 give the byte
    # in the page, and byte 2 the page."

    def mirror_bits(self):
        return BITS_OF_BYTE[self.pages[self.layout.settings[0]][0]]

    def mirrors_uid(self):
        return self.mirror_bits()[6] == 1

    def mirrors_counter(self):
        return self.mirror_bits()[7] == 1

    def mirror_start(self):
        """The number of the image byte where the mirror begins."""
        page = self.pages[self.layout.settings[0]][2]
        return 4 * page + 2 * self.mirror_bits()[5] + self.mirror_bits()[4]

    # The UID and its check bytes.

    def uid(self):
        """"UID bytes 0-2 are image bytes 0-2, UID bytes 3-6 image bytes 4-7." """
        return self.pages[0][:3] + self.pages[1]

    def first_five(self):
        """"the five bytes 88h, UID 0-2, BCC0": "BCC0 is the exclusive-or of 88h and
        UID 0-2". "Selection uses computed BCCs; READ shows stored bytes." """
        four = [0x88, *self.uid()[:3]]
        return four + [exclusive_or(four)]

    def second_five(self):
        """"UID 3-6, BCC1": BCC1 the exclusive-or "of UID 3-6"."""
        four = list(self.uid()[3:])
        return four + [exclusive_or(four)]

    # Pages as they are read and written.

    def shown(self, page):
        """"PWD and PACK pages always read as zeros." """
        if page in (self.layout.pwd, self.layout.pack):
            return (0, 0, 0, 0)
        return self.pages[page]

    def locked_pages(self):
        return (STATIC.locked_pages(self.pages[2])
                | self.layout.dynamic.locked_pages(self.pages[self.layout.lock_page]))

    def replace(self, page, data):
        self.pages = self.pages[:page] + (tuple(data),) + self.pages[page + 1:]

    def replace_byte(self, offset, byte):
        page, place = divmod(offset, 4)
        data = self.pages[page]
        self.replace(page, data[:place] + (byte,) + data[place + 1:])

    def write(self, page, data):
        """A WRITE that was not refused."""
        old = self.pages[page]
        if page == 2:
            # "Page 2 keeps bytes 0-1 and sets the bits of d2, d3 in its locks"
            self.replace(page, STATIC.gained(old, data))
        elif page == 3:
            # "page 3 gains the set bits"
            self.replace(page, [was | new for was, new in zip(old, data)])
        elif page == self.layout.lock_page:
            # "the lock page gains only its defined bits"
            self.replace(page, self.layout.dynamic.gained(old, data))
        else:
            # "Other pages are replaced."
            self.replace(page, data)

    # The tail.

    def counter(self):
        return int.from_bytes(bytes(self.tail[:3]), "little")

    def count_one_read(self):
        """"adds 1 to the counter if it is on; at FFFFFFh it stays"."""
        if self.counter_on() and self.counter() < 0xFFFFFF:
            self.tail = (*(self.counter() + 1).to_bytes(3, "little"), self.tail[3])

    def failed(self):
        return self.tail[3]

    def set_failed(self, count):
        self.tail = self.tail[:3] + (count,)
