"""Wrong by hand: mistakes about the data memory of document 02, Q-1, and its lines."""

ADDRESS = "256 * byte_of(word[:2]) + byte_of(word[2:])"
AFTER = "address + 1 if self.has(address + 1) else self.first"
ALL_IN_REGION = "region.store({place: byte for place, byte in latest.items() if region.has(place)})"
BYTE_OF_COUNTER = "        byte = region.shown(self.counter)\n"
EVENT = "    def event(self, number, byte):\n"
FIVE = "        if len(self.data_memory.data) != MEMORY_LENGTH:\n"
FOUR = "        if number >= len(EVENTS):\n"
KEPT = "            data[address] = byte\n"
LENT = "self.data = bytes(length)"
NEW_IMAGE = "self.image = Image(data)"
NEXT_PLACE = "page + (self.counter + number) % 64"
NOT_WITHIN = "first + amount > len(data)"
OBEYED = "return IN_STATE[self.radio.state](self.radio, frame)"
PLACE_AFTER = "self.counter = self.place_of(len(self.gathered))"
RECALLED = "data[first:first + amount]"
STARTED = "        self.gathered = ()\n        self.phase = \"device\"\n"
TAKEN = "self.tag.data_memory.lend(length)"
WHOLE_RECALL = (f"if {NOT_WITHIN}:\n            raise BadLine(NOT_HOW)\n"
                f"        return written(\"memory\", {RECALLED})")


def stored_too(buffer, moved_by):
    """What is stored, and stored in this buffer too, so many addresses further."""
    return (f"{ALL_IN_REGION}\n            self.{buffer}.store({{place + {moved_by}: byte "
            f"for place, byte in latest.items() if self.{buffer}.has(place + {moved_by})}})")


OF_MEMORY = {
    "a read goes on from 3FFFh to 4000h": (
        "tag.regions", AFTER, "address + 1 if self.has(address + 1) or self.first == 0 else self.first"),
    "a read of 3FFFh without ACK leaves 4000h": (
        "tag.bus", "return self.byte_at_counter()",
        "byte = self.byte_at_counter()\n"
        "        self.counter = 0x4000 if self.phase == 'deaf' and self.counter == 0 else self.counter\n"
        "        return byte"),
    "a read of 3FFFh with ACK leaves 4000h": (
        "tag.bus", "return self.byte_at_counter()",
        "byte = self.byte_at_counter()\n"
        "        self.counter = 0x4000 if self.phase == 'read' and self.counter == 0 else self.counter\n"
        "        return byte"),
    "a read goes on from the window's last byte to 0000h": ("tag.regions", AFTER, AFTER[:-10] + "0"),
    "a read of the memory rolls over within its page": (
        "tag.regions", AFTER, AFTER + " if self.first or (address + 1) % 64 else address - 63"),
    "a read of the memory gives the window's bytes": (
        "tag.bus", BYTE_OF_COUNTER, BYTE_OF_COUNTER + "        if self.window.has(self.counter | 0x4000):\n"
        "            byte = self.window.shown(self.counter | 0x4000)\n"),
    "a read of the window gives the memory's bytes": (
        "tag.bus", BYTE_OF_COUNTER, "        byte = self.data_memory.shown(self.counter % 0x4000)\n"),
    "a counter in neither region counts as 0000h": (
        "tag.bus", "self.counter = WINDOW_START\n        region", "self.counter = 0\n        region"),
    "a counter in neither region is read from the memory": (
        "tag.bus", "self.counter = WINDOW_START\n        region", "self.counter %= 0x4000\n        region"),
    "a counter below 4000h counts as 4000h": (
        "tag.bus", "if self.region_of(self.counter) is None:", "if not self.window.has(self.counter):"),
    "an address below 4000h isn't acknowledged": (
        "tag.bus", "if self.region_of(address) is None:", "if not self.window.has(address):"),
    "an address of the memory is acknowledged, and the counter isn't set": (
        "tag.bus", "self.counter = address\n", "self.counter = max(self.counter, address)\n"),
    "the window is tested before the memory, and its end is open": (
        "tag.bus", "if self.region_of(address) is None:", "if address > 0x43FF:"),
    "an address is taken in 15 bits": ("tag.bus", "address = 256 * self.high + byte",
                                       "address = (256 * self.high + byte) % 0x8000"),
    "an address above the window is taken in 14 bits": (
        "tag.bus", "address = 256 * self.high + byte",
        "address = 256 * self.high + byte\n"
        "        address %= 0x10000 if address < 0x8000 else 0x4000"),
    "what is stored in the window is stored in the memory too": (
        "tag.bus", ALL_IN_REGION, stored_too("data_memory", -0x4000)),
    "what is stored in the memory is stored in the window too": (
        "tag.bus", ALL_IN_REGION, stored_too("window", 0x4000)),
    "what is stored in the memory lands in the image alone": (
        "tag.bus", ALL_IN_REGION, "self.window.store({place % 0x4000 + 0x4000: byte for place, byte in "
        "latest.items() if self.window.has(place % 0x4000 + 0x4000)})"),
    "what is stored in the window lands in the memory alone": (
        "tag.bus", ALL_IN_REGION,
        "self.data_memory.store({place % 0x4000: byte for place, byte in latest.items()})"),
    "places past the window are put into the memory": (
        "tag.bus", ALL_IN_REGION, ALL_IN_REGION + "\n            self.data_memory.store({place - 0x4000: byte "
        "for place, byte in latest.items() if self.region_of(place) is None})"),
    "places past the window are put into the memory's first bytes": (
        "tag.bus", ALL_IN_REGION,
        ALL_IN_REGION + "\n            self.data_memory.store({place - self.window.end: byte "
        "for place, byte in latest.items() if self.region_of(place) is None})"),
    "places of the memory that the window doesn't have are dropped": (
        "tag.bus", ALL_IN_REGION, ALL_IN_REGION.replace("region.has(place)", "self.window.has(place | 0x4000)")),
    "bytes 0-9 of the memory are kept back": (
        "tag.regions", KEPT, "            data[address] = byte if address >= 10 else data[address]\n"),
    "byte 0 of the memory is kept back": (
        "tag.regions", KEPT, "            data[address] = byte if address else data[address]\n"),
    "the last byte of the memory is kept back": (
        "tag.regions", KEPT, "            data[address] = byte if address < 0x3FFF else data[address]\n"),
    "PWD and PACK are zeros in the memory too": (
        "tag.bus", BYTE_OF_COUNTER, BYTE_OF_COUNTER
        + "        layout = self.window.image.layout\n"
          "        if self.counter % 0x4000 // 4 in (layout.pwd, layout.pack):\n            byte = 0\n"),
    "the memory's latter half is its first": (
        "tag.regions", KEPT, "            data[address % 8192] = data[address % 8192 + 8192] = byte\n"),
    "the memory repeats itself each 4,096 bytes": (
        "tag.regions", KEPT, "            data[address % 4096::4096] = bytes([byte] * 4)\n"),
    "a store in the memory clears the rest of the page": (
        "tag.regions", "data = bytearray(self.data)\n",
        "data = bytearray(self.data)\n"
        "        page = min(latest) // 64 * 64\n        data[page:page + 64] = bytes(64)\n"),
    "a store in the memory clears the rest of it": (
        "tag.regions", "data = bytearray(self.data)\n", "data = bytearray(len(self.data))\n"),
    "the first byte for each place stays in the memory": (
        "tag.bus", "latest = {self.place_of(number): byte for number, byte in enumerate(self.gathered)}",
        "latest = {self.place_of(number): byte for number, byte in enumerate(self.gathered[:64] "
        "if self.counter < 0x4000 else self.gathered)}"),
    "3FC0h-3FFFh goes on at 0000h": (
        "tag.bus", NEXT_PLACE, NEXT_PLACE + " if page != 0x3FC0 else (self.counter + number) % 0x4000"),
    "3FC0h-3FFFh goes on at 4000h": (
        "tag.bus", NEXT_PLACE, NEXT_PLACE + " if page != 0x3FC0 else self.counter + number"),
    "a write to the memory goes on into the next page": (
        "tag.bus", NEXT_PLACE, NEXT_PLACE + " if page >= 0x4000 else (self.counter + number) % 0x4000"),
    "a stop leaves a counter in the memory at the address sent": (
        "tag.bus", PLACE_AFTER, "self.counter = self.counter if self.counter < 0x4000 "
        "else self.place_of(len(self.gathered))"),
    "a stop moves a counter in the memory into the next page": (
        "tag.bus", PLACE_AFTER, "self.counter = (self.counter + len(self.gathered)) % 0x4000 "
        "if self.counter < 0x4000 else self.place_of(len(self.gathered))"),
    "a stop sets a counter in the memory to 4000h": (
        "tag.bus", PLACE_AFTER, PLACE_AFTER + "\n        self.counter = max(self.counter, 0x4000)"),
    "a start sets a counter in the memory to 4000h": (
        "tag.bus", STARTED, STARTED + "        self.counter = max(self.counter, 0x4000)\n"),
    "data for the memory is stored at each byte": (
        "tag.bus", "self.gathered += (byte,)\n",
        "self.gathered += (byte,)\n        self.counter < 0x4000 and self.store()\n"),
    "a start stores what was gathered for the memory": (
        "tag.bus", STARTED, "        self.counter < 0x4000 and self.store()\n" + STARTED),
    "5 is tested after 4": (
        "tag.calls", FIVE, "        if number >= len(EVENTS):\n            raise Refused(4)\n" + FIVE),
    "5 is tested before 1": (
        "tag.calls", EVENT, EVENT + FIVE + "            raise Refused(5)\n"),
    "the data memory's length is taken as it comes": ("tag.calls", FIVE, "        if False:\n"),
    "the data memory's length is asked for in the memory alone": (
        "tag.calls", FIVE, FIVE.replace("if ", "if self.bus.counter < 0x4000 and ")),
    "the data memory's length is asked for at each event but start": (
        "tag.calls", FIVE, FIVE.replace("if ", "if number and ")),
    "an empty data memory is none, and isn't refused": (
        "tag.calls", FIVE, FIVE.replace("if ", "if self.data_memory.data and ")),
    "5 is given at frames too": (
        "tag.calls", "        if not is_frame(", FIVE + "            raise Refused(5)\n        if not is_frame("),
    "5 comes with the two wires at rest": (
        "tag.calls", FIVE, FIVE + "            self.bus.start() or self.bus.stop()\n"),
    "5 makes the two wires deaf": (
        "tag.calls", FIVE, FIVE + "            self.bus.phase, self.bus.gathered = 'deaf', ()\n"),
    "5 drops what is gathered": ("tag.calls", FIVE, FIVE + "            self.bus.gathered = ()\n"),
    "4 clears the data memory": (
        "tag.calls", FOUR, FOUR + "            self.data_memory.lend(MEMORY_LENGTH)\n"),
    "a WRITE is stored in the memory too": (
        "tag.calls", OBEYED,
        "pages = self.image.pages\n        answer = IN_STATE[self.radio.state](self.radio, frame)\n"
        "        if len(self.data_memory.data) == MEMORY_LENGTH:\n"
        "            self.data_memory.store({4 * page + place: byte for page, data in enumerate(self.image.pages)\n"
        "                                    if data != pages[page] for place, byte in enumerate(data)})\n"
        "        return answer"),
    "a field loss clears the data memory": (
        "tag.calls", "self.radio.field_off()",
        "self.radio.field_off()\n        self.data_memory.lend(len(self.data_memory.data))"),
    "an `image` line clears the data memory": (
        "tag.calls", NEW_IMAGE, NEW_IMAGE + "\n        self.data_memory.lend(len(self.data_memory.data))"),
    "an `image` line lends a whole data memory": (
        "tag.calls", NEW_IMAGE, NEW_IMAGE + "\n        if len(self.data_memory.data) != MEMORY_LENGTH:\n"
        "            self.data_memory.lend(MEMORY_LENGTH)"),
    "an `image` line of a wrong length clears the data memory": (
        "tag.calls", NEW_IMAGE, NEW_IMAGE + "\n        if not self.image.layout:\n"
        "            self.data_memory.lend(len(self.data_memory.data))"),
}

OF_MEMORY_LINES = {
    "`memory` keeps the bytes that fit": (
        "tag.regions", LENT, "self.data = getattr(self, 'data', b'')[:length].ljust(length, b'\\0')"),
    "`memory` of the same length keeps the bytes": (
        "tag.regions", LENT, "self.data = bytes(length) if length != len(getattr(self, 'data', b'')) else self.data"),
    "`memory` fills the new bytes with FFh": ("tag.regions", LENT, "self.data = b'\\xff' * length"),
    "`memory` sets the two wires to rest": (
        "lines.player", TAKEN, TAKEN + "\n        self.tag.bus.phase, self.tag.bus.gathered = 'rest', ()"),
    "`memory` drops what is gathered": ("lines.player", TAKEN, TAKEN + "\n        self.tag.bus.gathered = ()"),
    "`memory` sets the counter to 4000h": ("lines.player", TAKEN, TAKEN + "\n        self.tag.bus.counter = 0x4000"),
    "`memory` is a field loss": ("lines.player", TAKEN, TAKEN + "\n        self.tag.lose_field()"),
    "`memory` sets the buffer's length": (
        "lines.player", TAKEN, TAKEN + "\n        self.buffer_length = min(length, 1024)"),
    "`memory` takes the image away": ("lines.player", TAKEN, TAKEN + "\n        self.tag.take_image(b'')"),
    "`recall` gives what there is of the bytes": ("lines.player", NOT_WITHIN, "first >= len(data)"),
    "`recall` takes the memory for 16,384 bytes": ("lines.player", NOT_WITHIN, "first + amount > 16384"),
    "`recall` asks for the right length": (
        "lines.player", NOT_WITHIN, "len(data) != 16384 or first + amount > len(data)"),
    "`recall` leaves out the last byte": ("lines.player", NOT_WITHIN, "first + amount >= len(data)"),
    "`recall` adds in sixteen bits": ("lines.player", NOT_WITHIN, "(first + amount) % 65536 > len(data)"),
    "`recall` takes its address in 14 bits": (
        "lines.player", "        data = self.tag.data_memory.data\n",
        "        data = self.tag.data_memory.data\n        first %= 16384\n"),
    "`recall` rolls over from 3FFFh to 0000h": (
        "lines.player", WHOLE_RECALL, 'return written("memory", (data + data)[first:first + amount] or b"\\0")'),
    "`recall` rolls over within a page": (
        "lines.player", RECALLED + ")",
        "[data[first // 64 * 64 + (first + at) % 64] for at in range(amount)] if amount <= 64 else "
        "data[first:first + amount])"),
    "`recall` gives the gathered bytes too": (
        "lines.player", RECALLED + ")",
        "[dict((self.tag.bus.place_of(number), byte) for number, byte in enumerate(self.tag.bus.gathered))"
        ".get(first + at, data[first + at]) for at in range(amount)])"),
    "`recall` answers in small letters": (
        "lines.player", f'return written("memory", {RECALLED})', f'return written("memory", {RECALLED}).lower()'),
    "`recall` asks for an image": (
        "lines.player", NOT_WITHIN, "self.tag.image.layout is None or first + amount > len(data)"),
    "`recall` takes an address of any length": (
        "lines.reading", ADDRESS, "int(word, 16)"),
    "`recall` takes fewer digits than four": (
        "lines.reading", "    if len(word) != 4:\n", "    word = word.rjust(4, b'0')\n    if len(word) != 4:\n"),
    "`recall` takes its address low byte first": (
        "lines.reading", ADDRESS, "byte_of(word[:2]) + 256 * byte_of(word[2:])"),
    "`recall` takes its number as hex": (
        "lines.reading", "amount = number_of(word, MOST_RECALLED)", "amount = int(word, 16) % 1025"),
}
