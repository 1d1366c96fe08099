"""What a step might do instead of the right thing.

A twist takes a step, the state before it and the state after it, and gives the
state that a wrong tag has after it, or None where the twist has nothing to
change. Each names the part of what is kept that it touches: `left` is the part
left as it was where the step changes it, the others change it where the step
keeps it, or change it otherwise. A part is touched only where it means
something: an address byte while the low one is expected, and so on.
"""

from functools import cache

from tag.regions import MEMORY_LENGTH, WINDOW_START

AWAKE = ("READY1", "READY2", "ACTIVE")
NOT_LISTENING = ("rest", "deaf")


def left(part):
    """The part is left as it was before."""
    def twist(step, before, after):
        old = getattr(before, part)
        return after._replace(**{part: old}) if old != getattr(after, part) else None
    return twist


# ---- The radio side

def other_wait_state(step, before, after):
    """HALT in place of IDLE, IDLE in place of HALT."""
    other = {"IDLE": "HALT", "HALT": "IDLE"}.get(after.radio)
    return after._replace(radio=other) if other else None


def falls_asleep(step, before, after):
    """To the wait state, where the tag is awake after the step."""
    if after.radio not in AWAKE:
        return None
    return after._replace(radio="HALT" if after.woken_from_halt else "IDLE", authenticated=False)


def wakes(step, before, after):
    """To READY1, where the tag waits before and after the step."""
    if before.radio in AWAKE or after.radio in AWAKE:
        return None
    return after._replace(radio="READY1", woken_from_halt=after.radio == "HALT")


def other_wait_kept(step, before, after):
    """The wait state that is kept for later is the other."""
    if after.radio not in AWAKE:
        return None
    return after._replace(woken_from_halt=not after.woken_from_halt)


def authentication_turned(step, before, after):
    """Authenticated without a password, or no longer authenticated."""
    if after.radio != "ACTIVE" or after.authenticated != before.authenticated:
        return None
    return after._replace(authenticated=not after.authenticated)


def read_answered_turned(step, before, after):
    """The field's chance to count is used up, or is there again."""
    if after.read_answered != before.read_answered:
        return None
    return after._replace(read_answered=not after.read_answered)


def written_all_the_same(step, before, after):
    """A WRITE replaces the page, whatever it is and whether it is allowed."""
    name, arguments = step.command
    if name != "WRITE" or arguments[0] >= len(after.pages):
        return None
    page, *data = arguments
    pages = after.pages[:page] + (tuple(data),) + after.pages[page + 1:]
    return after._replace(pages=pages) if pages != after.pages else None


def counts_all_the_same(step, before, after):
    """A READ or FAST_READ counts where it should not; from FFFFFFh on to 0."""
    if step.command[0] not in ("READ", "FAST_READ") or after.tail != before.tail:
        return None
    value = int.from_bytes(bytes(after.tail[:3]), "little") + 1
    return after._replace(tail=tuple((value % 2 ** 24).to_bytes(3, "little")) + after.tail[3:])


def failure_counted_all_the_same(step, before, after):
    """A PWD_AUTH counts as failed where it should not."""
    if step.command[0] != "PWD_AUTH" or after.tail != before.tail:
        return None
    return after._replace(tail=after.tail[:3] + ((after.tail[3] + 1) % 256,))


def failures_forgotten(step, before, after):
    """A PWD_AUTH sets the failed count to 0 where it should not."""
    if step.command[0] != "PWD_AUTH" or after.tail != before.tail or after.tail[3] == 0:
        return None
    return after._replace(tail=after.tail[:3] + (0,))


# ---- The two wires

def becomes(phase):
    """Becomes deaf or comes to rest, where the tag should be otherwise."""
    def twist(step, before, after):
        return after._replace(phase=phase, gathered=()) if after.phase != phase else None
    return twist


def goes_on_in(phase):
    """Goes on as in this phase, where the tag should listen to nothing."""
    def twist(step, before, after):
        return after._replace(phase=phase) if after.phase in NOT_LISTENING else None
    return twist


def counter_moves_on(step, before, after):
    """The address counter goes to the next place."""
    if after.counter != before.counter:
        return None
    return after._replace(counter=after.counter + 1)


def counter_goes_back(step, before, after):
    """The address counter goes to 4000h."""
    if after.counter != before.counter or after.counter == WINDOW_START:
        return None
    return after._replace(counter=WINDOW_START)


def high_byte_left(step, before, after):
    if after.phase != "low" or after.high == before.high:
        return None
    return after._replace(high=before.high)


def other_high_byte(step, before, after):
    """The high address byte is another, where the low one is expected."""
    if after.phase != "low":
        return None
    return after._replace(high=0x00 if after.high == 0x40 else 0x40)


def gathered_dropped(step, before, after):
    if not after.gathered or after.gathered != before.gathered:
        return None
    return after._replace(gathered=())


def gathers_all_the_same(step, before, after):
    """A byte sent is gathered where it should not be."""
    if step.event != "send" or after.gathered != before.gathered:
        return None
    return after._replace(gathered=after.gathered + (step.byte,))


def gathered_for(before, after):
    """What is gathered before or after a step, by place; a write begins at the
    counter."""
    gathered = max(before.gathered, after.gathered, key=len)
    page = before.counter // 64 * 64
    return {page + (before.counter + number) % 64: byte for number, byte in enumerate(gathered)}


def stores_all_the_same(step, before, after):
    """The gathered bytes are stored: without a stop, or at places where none is."""
    if step.event is None or not gathered_for(before, after):
        return None
    image = [byte for page in after.pages for byte in page] + list(after.tail)
    for place, byte in gathered_for(before, after).items():
        if 0 <= place - WINDOW_START < len(image):
            image[place - WINDOW_START] = byte
    pages = tuple(tuple(image[at:at + 4]) for at in range(0, len(image), 4))
    changed = after._replace(pages=pages[:-1], tail=pages[-1])
    return changed if changed != after else None


def with_stored(state, latest):
    """The state with these bytes in the data memory; None where that is no change."""
    data = bytearray(state.data_memory)
    for place, byte in latest.items():
        data[place] = byte
    return state._replace(data_memory=bytes(data)) if data != state.data_memory else None


def memory_stores_all_the_same(step, before, after):
    """What is gathered for the data memory is stored without a stop."""
    if step.event is None or before.counter >= WINDOW_START:
        return None
    return with_stored(after, gathered_for(before, after))


def stores_in_memory_too(step, before, after):
    """What a stop stores in the window, or drops, is stored in the memory too."""
    if step.event != "stop" or before.counter < WINDOW_START:
        return None
    return with_stored(after, {place % WINDOW_START: byte
                               for place, byte in gathered_for(before, after).items()})


def stores_in_window_too(step, before, after):
    """What a stop stores in the memory is stored in the image too, as far as it goes."""
    if step.event != "stop" or before.counter >= WINDOW_START:
        return None
    return stores_all_the_same(step, before._replace(counter=before.counter + WINDOW_START), after)


def counter_in_the_other_region(step, before, after):
    """The address counter goes to the same place of the other region."""
    if after.counter != before.counter or after.counter >= 2 * WINDOW_START:
        return None
    return after._replace(counter=after.counter ^ WINDOW_START)


# ---- The lines

@cache
def zeros(length):
    return bytes(length)


def memory_cleared(step, before, after):
    """The data memory is all zeros, where it should stay as it is."""
    data = after.data_memory
    if data is not before.data_memory or data == zeros(len(data)):
        return None
    return after._replace(data_memory=zeros(len(data)))


def memory_set_back(step, before, after):
    """The data memory has the right length again, where it should have another."""
    if len(after.data_memory) == MEMORY_LENGTH or len(before.data_memory) != len(after.data_memory):
        return None
    return after._replace(data_memory=zeros(MEMORY_LENGTH))


def buffer_set_back(step, before, after):
    """The buffer has its first length again."""
    if after.buffer_length == 1024 or after.buffer_length != before.buffer_length:
        return None
    return after._replace(buffer_length=1024)


RADIO = {
    "state left": left("radio"),
    "other wait state": other_wait_state,
    "falls asleep": falls_asleep,
    "wakes": wakes,
    "other wait kept": other_wait_kept,
    "authentication left": left("authenticated"),
    "authentication turned": authentication_turned,
    "read answered left": left("read_answered"),
    "read answered turned": read_answered_turned,
    "pages left": left("pages"),
    "written all the same": written_all_the_same,
    "tail left": left("tail"),
    "counts all the same": counts_all_the_same,
    "failure counted all the same": failure_counted_all_the_same,
    "failures forgotten": failures_forgotten,
}

BUS = {
    "phase left": left("phase"),
    "becomes deaf": becomes("deaf"),
    "comes to rest": becomes("rest"),
    "expects a device byte": goes_on_in("device"),
    "goes on reading": goes_on_in("read"),
    "goes on writing": goes_on_in("write"),
    "counter left": left("counter"),
    "counter moves on": counter_moves_on,
    "counter goes back": counter_goes_back,
    "high byte left": high_byte_left,
    "other high byte": other_high_byte,
    "gathered left": left("gathered"),
    "gathered dropped": gathered_dropped,
    "gathers all the same": gathers_all_the_same,
    "stored left": left("pages"),
    "stores all the same": stores_all_the_same,
    "memory stores all the same": memory_stores_all_the_same,
    "stores in the memory too": stores_in_memory_too,
    "stores in the window too": stores_in_window_too,
    "counter in the other region": counter_in_the_other_region,
}

def nothing_done(step, before, after):
    """The line is answered, and not followed."""
    return before if before != after else None


READING = {"nothing done": nothing_done}

LINES = {
    "buffer left": left("buffer_length"),
    "buffer set back": buffer_set_back,
    "memory left": left("data_memory"),
    "memory cleared": memory_cleared,
    "memory set back": memory_set_back,
}
