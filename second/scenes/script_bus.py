"""The two wires of a script: events, the way to a phase, and looks at it."""


class BusLines:
    """What a Script can say on the two wires."""

    def event(self, number, byte=0x00):
        """An event, under its own name or by its number."""
        if self.dice.one_in(12):
            self.say(f"event {number} {byte:02X}")
        else:
            self.say(["start", "stop", f"send {byte:02X}", "read ack", "read nak"][number])

    def start(self):
        self.event(0)

    def stop(self):
        self.event(1)

    def send(self, *data):
        for byte in data:
            self.event(2, byte)

    def read(self, amount):
        """Some bytes with ACK, the last without."""
        for _ in range(amount - 1):
            self.event(3)
        self.event(4)

    def address(self, address):
        self.start()
        self.send(0xA0, address // 256, address % 256)

    def read_on(self, amount):
        """Reads from where the counter stands."""
        self.start()
        self.send(0xA1)
        self.read(amount)

    def look_at_silent_bus(self):
        """At rest or deaf: a read gives FFh, but in a read; a byte isn't
        acknowledged, but in any other phase."""
        self.say("bus")
        self.event(3)
        self.send(0xA0)

    def look_at_counter(self):
        """Reads on from where the counter stands: ends at rest."""
        self.say("bus")
        self.read_on(2)
        self.event(3)                               # FFh: deaf
        self.stop()

    def look_at_bus(self):
        """Asks for the bus record; then shows the phase by events that belong to
        it, and the counter by reading."""
        self.say("bus")
        if self.bus.phase in ("rest", "deaf"):
            self.look_at_silent_bus()
        elif self.bus.phase == "device":
            self.send(0xA1)
        elif self.bus.phase == "high":
            self.send(0x40)
        if self.bus.phase == "low":
            self.send(self.dice.between(0x10, 0x9F))
        if self.bus.phase == "write":
            self.send(self.dice.byte())
            self.stop()
        if self.bus.phase == "read":
            self.read(2)
            self.event(3)                           # FFh: deaf
        self.look_at_counter()

    def any_place(self):
        """An address in the window, often at one of its edges."""
        end = self.layout.window_end
        return self.dice.one_of([
            0x4000 + self.dice.below(16), end - 1 - self.dice.below(24),
            0x4000 + 64 * self.dice.below((end - 0x4000) // 64) + 63 - self.dice.below(4),
            0x4000 + self.dice.below(end - 0x4000)])

    def memory_place(self):
        """An address in the data memory, often at one of its edges, or where the
        window's bytes would be."""
        dice = self.dice
        return dice.one_of([dice.below(16), 0x3FFF - dice.below(24), 64 * dice.below(256) + 63 - dice.below(4),
                            self.any_place() - 0x4000, dice.below(0x4000)])

    def outer_place(self):
        """An address in neither region."""
        dice = self.dice
        return dice.one_of([self.layout.window_end + dice.below(64), 0x4400, 0x7FFF, 0x8000 ^ self.any_place(),
                            0x8000 ^ self.memory_place(), 0xC000 ^ self.memory_place(), 0xFFFF])

    def any_address(self):
        """In the window as often as in the data memory; now and then in neither."""
        if self.dice.one_in(20):
            return self.outer_place()
        return self.any_place() if self.dice.one_in(2) else self.memory_place()

    def to_phase(self, phase, place=None):
        """Brings the two wires into a phase; the place is that of a write."""
        if phase == "rest":
            self.stop()
            return
        self.start()
        if phase == "deaf":
            self.send(self.dice.one_of([0x20, 0x21, 0xA2, 0xA3, 0x50]))
        elif phase == "read":
            self.send(0xA1)
        elif phase in ("high", "low", "write"):
            place = self.any_place() if place is None else place
            steps = {"high": 0, "low": 1, "write": 2}[phase]
            self.send(*[0xA0, place // 256, place % 256][:1 + steps])
