"""Wrong tags that answer every script as the right tag does, with the reason.

The names are those that `wrong` gives. It fails when one of them is noticed
after all, or is there no more.
"""

SET_BEFORE_ASKED = "is set again before it is asked for: by "

MEANINGLESS = {
    "tag/bus.py Bus.__init__: self.high = None -> pass": SET_BEFORE_ASKED + "the high address byte sent",
    "tag/radio.py Radio.field_off: self.woken_from_halt = False -> pass": SET_BEFORE_ASKED + "each waking",
    "tag/reads.py border: auth0 < size -> auth0 <= size": "where AUTH0 is N, both give N",
    "tag/active.py in_active: 24 -> 23": "no frame of whole bytes has 23 bits",
    "tag/bits.py (module): 256 -> 257": "no byte is 256, so that its bits are never asked for",
    "tag/layout.py (module): 39 -> 40": "twelve lock bits of two pages each end at page 27h, whatever follows it",
    "tag/locks.py static_plan: 3 -> 2 (no. 2)":
        "the bit that is then blocked too is a block bit, and block bits can always be set",
    "tag/locks.py static_plan: 16 -> 17 (no. 2)": "a page has no bit 32 that could then be blocked too",
    "lines/player.py Player.__init__: 1024 -> 1025":
        "a buffer is too short or it isn't; one of 1,025 bytes isn't, as one of 1,024",
}
