"""What the tag keeps from line to line, as plain values."""

from typing import NamedTuple


class State(NamedTuple):
    """Everything that a line can find and leave behind."""

    radio: str                  # IDLE, HALT, READY1, READY2, ACTIVE
    woken_from_halt: bool
    authenticated: bool
    read_answered: bool         # in this field
    phase: str                  # of the two wires
    counter: int                # the address counter
    high: int                   # the high address byte
    gathered: tuple             # the data bytes of an unfinished write
    pages: tuple
    tail: tuple
    buffer_length: int
    data_memory: bytes          # one object for many states, until a store


def state_of(player):
    tag, radio, bus = player.tag, player.tag.radio, player.tag.bus
    return State(radio.state, radio.woken_from_halt, radio.authenticated, radio.read_answered,
                 bus.phase, bus.counter, bus.high, bus.gathered,
                 tag.image.pages, tag.image.tail, player.buffer_length, tag.data_memory.data)


def put_state(player, state):
    """Makes a player stand as it stood in that state."""
    tag, radio, bus = player.tag, player.tag.radio, player.tag.bus
    (radio.state, radio.woken_from_halt, radio.authenticated, radio.read_answered,
     bus.phase, bus.counter, bus.high, bus.gathered,
     tag.image.pages, tag.image.tail, player.buffer_length, tag.data_memory.data) = state
    tag.image.length = sum(map(len, state.pages)) + len(state.tail)
