"""The data memory of a script: what it holds, and looks at it."""

WHOLE = 16384


class MemoryLines:
    """What a Script can say of the data memory."""

    @property
    def data_memory(self):
        """The bytes that are lent now."""
        return self.player.tag.data_memory.data

    def recall(self, first, amount):
        """A look at some bytes, now and then written in another hand."""
        hand = self.dice.below(12)
        digits = f"{first:04x}" if hand == 0 else f"{first:04X}"
        self.say(f"recall {digits} {amount:04}" if hand == 1 else f"recall {digits} {amount}")

    def recall_stored(self):
        """A few bytes from where the memory isn't zero, behind a place thrown."""
        data = self.data_memory
        thrown = self.dice.below(len(data) + 1)
        first = next_stored(data, thrown)
        if first == len(data):
            first = next_stored(data, 0)
        self.recall(first, max(1, min(self.dice.between(1, 8), len(data) - first)))

    def usual_memory(self):
        """A memory of the right length that isn't all zeros; one of another length
        is shown to be refused."""
        if len(self.data_memory) != WHOLE:
            self.stop()
            self.say(f"memory {WHOLE}")
        if not self.data_memory.strip(b"\0"):
            self.fill_memory(self.memory_place())

    def fill_memory(self, place):
        """Four bytes, none of them zero, by a write."""
        self.address(place)
        self.send(*[self.dice.between(1, 255) for _ in range(4)])
        self.stop()


def next_stored(data, start):
    """The first place from `start` on that isn't zero; the length where there is none."""
    return len(data) - len(data[start:].lstrip(b"\0"))
