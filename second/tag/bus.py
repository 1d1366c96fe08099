"""The two wires."""

from tag.regions import WINDOW_START, Window


class Bus:
    """The two wires, with the bus record.

    The phases: rest, device (a start was seen), high and low (an address is
    expected), write, read, deaf. `counter` is the address counter, `gathered`
    the data bytes of an unfinished write, which begins at the counter.
    """

    def __init__(self, image, data_memory):
        self.window, self.data_memory = Window(image), data_memory
        self.phase = "rest"
        self.counter = WINDOW_START
        self.high = None
        self.gathered = ()

    def region_of(self, address):
        """The region that an address is in, or None where it is in neither."""
        for region in (self.data_memory, self.window):
            if region.has(address):
                return region
        return None

    def place_of(self, number):
        """Where data byte `number` of this write belongs.

        "only the low six address bits advance, rolling over within the 64-byte
        page"
        """
        page = self.counter // 64 * 64
        return page + (self.counter + number) % 64

    def start(self):
        """"Start: expect the device byte and drop an unfinished write, the
        counter staying at the address sent." """
        self.gathered = ()
        self.phase = "device"

    def stop(self):
        """"Stop stores the gathered bytes [...]; if any were gathered, the
        counter becomes the place after the last data byte, rolled within its
        page. The bus is then at rest." """
        self.store()
        # If none were gathered, this is where the counter is.
        self.counter = self.place_of(len(self.gathered))
        self.gathered = ()
        self.phase = "rest"

    def store(self):
        """"the gathered bytes, latest for each place, except [...] places past
        the window"; document 02, Q-1: "Each transfer touches one region". The
        address sent decides which: a page lies on one side of 4000h."""
        latest = {self.place_of(number): byte for number, byte in enumerate(self.gathered)}
        if latest:
            region = self.region_of(self.counter)
            region.store({place: byte for place, byte in latest.items() if region.has(place)})

    def send(self, byte):
        """A byte sent; True if it is acknowledged."""
        by_phase = {"device": self.send_device, "high": self.send_high,
                    "low": self.send_low, "write": self.send_data}
        if self.phase in by_phase:
            return by_phase[self.phase](byte)
        # "a byte sent at any other time isn't acknowledged, and in a read makes
        # the tag deaf"
        if self.phase == "read":
            self.phase = "deaf"
        return False

    def send_device(self, byte):
        """"A0h and A1h are acknowledged, others not, and the tag is then deaf
        until start or stop." """
        self.phase = {0xA0: "high", 0xA1: "read"}.get(byte, "deaf")
        return self.phase != "deaf"

    def send_high(self, byte):
        """"After A0h: high address acknowledged" """
        self.high = byte
        self.phase = "low"
        return True

    def send_low(self, byte):
        """"low acknowledged exactly if the address is in the window, setting
        the counter, else deaf with the counter kept"; document 02, Q-1: "A low
        address byte is acknowledged if it falls in either region." """
        address = 256 * self.high + byte
        if self.region_of(address) is None:
            self.phase = "deaf"
            return False
        self.counter = address
        self.phase = "write"
        return True

    def send_data(self, byte):
        """"Data bytes are acknowledged and gathered" """
        self.gathered += (byte,)
        return True

    def read(self, acknowledged):
        """A byte read; the reader's ACK asks for more."""
        if self.phase != "read":
            # "A read at any other time gives FFh and changes nothing"
            return 0xFF
        if not acknowledged:
            # "A read without ACK makes the tag deaf."
            self.phase = "deaf"
        return self.byte_at_counter()

    def byte_at_counter(self):
        """"After A1h each read gives the counter's byte and advances, last to
        first; a counter outside the window counts as 4000h." Document 02, Q-1:
        "A sequential read stays in its own region", "A counter in neither region
        still counts as 4000h." """
        if self.region_of(self.counter) is None:
            self.counter = WINDOW_START
        region = self.region_of(self.counter)
        byte = region.shown(self.counter)
        self.counter = region.after(self.counter)
        return byte
