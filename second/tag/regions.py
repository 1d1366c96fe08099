"""The two regions of the two wires: the data memory and the window.

Document 02, Q-1: "Each transfer touches one region and leaves the other as it
was."
"""

WINDOW_START = 0x4000
MEMORY_LENGTH = 16384


class Region:
    """Addresses from `first` on; `end` is the first one behind them."""

    def has(self, address):
        return self.first <= address < self.end

    def after(self, address):
        """"A sequential read stays in its own region and rolls from its last byte
        to its first." """
        return address + 1 if self.has(address + 1) else self.first


class DataMemory(Region):
    """"a data memory of 16,384 bytes at 0000h-3FFFh, lent as a second buffer":
    an address is the number of a byte. The bytes are one value, which a store
    replaces, so that many records of them can share it."""

    first = 0x0000
    end = 0x4000

    def __init__(self):
        self.lend(MEMORY_LENGTH)

    def lend(self, length):
        """Another buffer, of so many bytes, all zeros."""
        self.data = bytes(length)

    def shown(self, address):
        return self.data[address]

    def store(self, latest):
        """"none of its bytes is kept back" """
        data = bytearray(self.data)
        for address, byte in latest.items():
            data[address] = byte
        self.data = bytes(data)


class Window(Region):
    """"The window is 4000h to 4000h+4N-1." """

    first = WINDOW_START

    def __init__(self, image):
        self.image = image

    @property
    def end(self):
        return self.image.layout.window_end

    def shown(self, address):
        """"The PWD and PACK pages read as zeros." """
        page, place = divmod(address - self.first, 4)
        return self.image.shown(page)[place]

    def store(self, latest):
        """"except image bytes 0-9"; "Locks and password don't bind this side." """
        for address, byte in latest.items():
            offset = address - self.first
            if offset >= 10:
                self.image.replace_byte(offset, byte)
