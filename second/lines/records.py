"""The two records in words, by LINES.md."""

# What LINES.md calls a phase, where it isn't called as the tag calls it.
PHASE_WORDS = {"write": "writing", "read": "reading"}


def tag_in_words(radio):
    """"`tag idle`, `tag halt`, `tag ready1 W`, `tag ready2 W`, `tag active W` or
    `tag active W authenticated`, W being `idle` or `halt`, the state to go back
    to; with ` answered` behind it where a READ or FAST_READ was answered in this
    field" """
    words = ["tag", radio.state.lower()]
    if radio.state not in ("IDLE", "HALT"):
        words.append(radio.wait_state().lower())
    if radio.authenticated:
        words.append("authenticated")
    if radio.read_answered:
        words.append("answered")
    return " ".join(words)


def bus_in_words(bus):
    """"`bus rest HHHH`, `bus device HHHH`, `bus high HHHH`, `bus low HHHH HH` (the
    high address byte held), `bus writing HHHH N` (how many places are gathered, 0
    to 64), `bus reading HHHH`, `bus deaf HHHH`; HHHH is the counter" """
    words = ["bus", PHASE_WORDS.get(bus.phase, bus.phase), f"{bus.counter:04X}"]
    if bus.phase == "low":
        words.append(f"{bus.high:02X}")
    if bus.phase == "write":
        words.append(str(places_gathered(bus)))
    return " ".join(words)


def places_gathered(bus):
    """Places, not bytes: those of one 64-byte page, so that a byte that comes to
    a place again adds none."""
    return len({bus.place_of(number) for number in range(len(bus.gathered))})
