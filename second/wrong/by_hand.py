"""Wrong by hand: mistakes that are more than a slip, and that no single rule names.

Document 01's "Errors that tempt" are here, tags that it says must be caught,
and what once went unnoticed. Each gives the module, the text that is right, and
the text that takes its place. Those of `workshop` are in the package of that name.
"""

from lines.reading import LONGEST_LINE
from wrong.by_hand_crc import OF_CRC
from wrong.by_hand_crc_answers import OF_CRC_ANSWERS
from wrong.by_hand_crc_judged import OF_CRC_JUDGED
from wrong.by_hand_crc_lengths import OF_CRC_LENGTHS
from wrong.by_hand_lines import of_lines
from wrong.by_hand_memory import OF_MEMORY, OF_MEMORY_LINES
from wrong.by_hand_mirror import OF_MIRROR
from wrong.by_hand_mirror_shown import OF_MIRROR_SHOWN
from wrong.by_hand_ready import OF_READY

NEW_BUS = "self.bus = Bus(self.image, self.data_memory)"
PAGE_SHOWN = "image[4 * page:4 * page + 4]"
PLACES = "len({bus.place_of(number) for number in range(len(bus.gathered))})"
SELECT = "bits == with_crc([code, 0x70] + five)"

BY_HAND = {
    "SELECT is judged by its CRC_A alone": (
        "tag.selection", SELECT, "len(bits) == 72 and bits[56:] == with_crc([code, 0x70] + five)[56:]"),
    "SELECT is judged by its UID alone": (
        "tag.selection", SELECT, "len(bits) == 72 and bits[:56] == bits_of([code, 0x70] + five)"),
    "SELECT takes any UID that has its own CRC_A": (
        "tag.selection", SELECT,
        "len(bits) == 72 and bits[:16] == bits_of([code, 0x70]) and bits == with_crc("
        "[sum(bits[8 * at + place] << place for place in range(8)) for at in range(7)])"),
    "selection uses the stored BCC0": (
        "tag.image", "four = [0x88, *self.uid()[:3]]\n        return four + [exclusive_or(four)]",
        "return [0x88, *self.pages[0]]"),
    "selection uses the stored BCC1": (
        "tag.image", "four = list(self.uid()[3:])\n        return four + [exclusive_or(four)]",
        "return [*self.pages[1], self.pages[2][0]]"),
    **OF_READY,
    "parity is judged in IDLE": (
        "tag.waiting", "frame.bits in (REQA, WUPA)", "frame.parity_good and frame.bits in (REQA, WUPA)"),
    "parity is judged in HALT": (
        "tag.waiting", "frame.bits == WUPA", "frame.parity_good and frame.bits == WUPA"),
    "HLTA leads to the wait state": (
        "tag.active", 'radio.leave_for("HALT")', "radio.leave_for(radio.wait_state())"),
    "READ rolls over at N while protected": (
        "tag.reads", "(first + i) % border(radio)", "(first + i) % radio.image.layout.size"),
    "a refused READ counts": (
        "tag.reads", "if not first < border(radio):\n",
        "if not first < border(radio):\n        radio.read_answered or radio.image.count_one_read()\n"),
    "a refused READ uses up the field's chance": (
        "tag.reads", "if not first < border(radio):\n",
        "if not first < border(radio):\n        radio.read_answered = True\n"),
    "a first READ that finds the counter off leaves the chance": (
        "tag.reads", "radio.read_answered = True", "radio.read_answered |= radio.image.counter_on()"),
    **OF_MIRROR,
    **OF_MIRROR_SHOWN,
    **OF_CRC,
    **OF_CRC_LENGTHS,
    **OF_CRC_JUDGED,
    **OF_CRC_ANSWERS,
    "the new block bits are tested": (
        "tag.locks", "if old[block]\n", "if old[block] or new[block]\n"),
    "WRITE is under password only with PROT": (
        "tag.writes", "page >= image.auth0() and not", "page >= image.auth0() and image.prot() and not"),
    "WRITE stores the first one alone": (
        "tag.image", "self.replace(page, data)\n",
        "'wrote' in vars(self) or self.replace(page, data)\n            self.wrote = True\n"),
    "a password that comes at the limit is counted": (
        "tag.password", "if limit != 0 and failed >= limit:\n",
        "if limit != 0 and failed >= limit:\n        image.set_failed(min(failed + 1, 255))\n"),
    "the right password sets the count to 0 only with a limit": (
        "tag.password", "image.set_failed(0)", "image.set_failed(0 if limit else failed)"),
    "the bus stores at each byte": (
        "tag.bus", "self.gathered += (byte,)\n", "self.gathered += (byte,)\n        self.store()\n"),
    "a bus write goes on into the next page": (
        "tag.bus", "page + (self.counter + number) % 64", "self.counter + number"),
    "a read without ACK goes on reading": (
        "tag.bus", 'if not acknowledged:\n            # "A read without ACK makes the tag deaf."\n'
        '            self.phase = "deaf"\n', "pass\n"),
    "locked pages are bound on the two wires": (
        "tag.regions", "if offset >= 10:", "if offset >= 10 and offset // 4 not in self.image.locked_pages():"),
    "a field loss stops the two wires": (
        "tag.calls", "self.radio.field_off()", "self.radio.field_off()\n        self.bus.stop()"),
    "an `image` line keeps the bus counter": (
        "tag.calls", NEW_BUS,
        "counter = self.bus.counter if 'bus' in vars(self) else 0x4000\n"
        f"        {NEW_BUS}\n        self.bus.counter = counter"),
    "an `image` line sets the buffer's length back": (
        "lines.player", "self.tag.take_image(data)\n",
        "self.tag.take_image(data)\n        self.buffer_length = 1024\n"),
    **OF_MEMORY,
    **of_lines(LONGEST_LINE),
    **OF_MEMORY_LINES,
    "`show HH` hides PWD and PACK": (
        "lines.player", PAGE_SHOWN,
        PAGE_SHOWN + " if not self.tag.image.layout or page >= self.tag.image.layout.size"
        " else self.tag.image.shown(page)"),
    "`show HH` leaves out the tail": (
        "lines.player", PAGE_SHOWN, PAGE_SHOWN + " if page < len(self.tag.image.pages) else []"),
    "`show HH` counts bytes in eight bits": (
        "lines.player", PAGE_SHOWN, "image[4 * page % 256:4 * page % 256 + 4]"),
    "`show HH` fills up a page with zeros": (
        "lines.player", PAGE_SHOWN, "(image + [0] * (-len(image) % 4))[4 * page:4 * page + 4]"),
    "`show HH` leaves out a page that isn't whole": (
        "lines.player", PAGE_SHOWN, PAGE_SHOWN + " if 4 * page + 4 <= len(image) else []"),
    "`bus` counts bytes and not places": ("lines.records", PLACES, "len(bus.gathered)"),
    "`bus` counts bytes in eight bits": ("lines.records", PLACES, "min(len(bus.gathered) % 256, 64)"),
    "`bus` counts places modulo 64": ("lines.records", PLACES, "len(bus.gathered) % 64"),
    "`bus` counts the places that are stored": (
        "lines.records", PLACES, "len({place for place in map(bus.place_of, range(len(bus.gathered)))"
        " if bus.data_memory.has(place) or place >= 0x400A and bus.window.has(place)})"),
    "`bus` tells a counter past the window as 4000h": (
        "lines.records", 'f"{bus.counter:04X}"',
        'f"{bus.counter if bus.window.image.layout and bus.region_of(bus.counter) else 0x4000:04X}"'),
    "`bus` tells the next place of a write": (
        "lines.records", 'f"{bus.counter:04X}"', 'f"{bus.place_of(len(bus.gathered)):04X}"'),
    "`tag` tells ` answered` only of a tag that is awake": (
        "lines.records", "if radio.read_answered:",
        'if radio.read_answered and radio.state not in ("IDLE", "HALT"):'),
    "`tag` tells ` answered` only where it counted": (
        "lines.records", "if radio.read_answered:", "if radio.read_answered and radio.image.counter_on():"),
}


class ByHand:
    """A program that is wrong by hand, made as those with a slip are."""

    def __init__(self, entry, sources):
        self.module, self.right, self.wrong = entry
        self.text = sources.texts[self.module]
        if self.text.count(self.right) != 1:
            raise ValueError(f"{self.module} has {self.right!r} {self.text.count(self.right)} times, not once")

    def code(self):
        return compile(self.text.replace(self.right, self.wrong), self.module, "exec")
