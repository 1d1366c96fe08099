"""Two sides of one tag: each stores while the other is anywhere."""

from rules.naming import PHASES, STATES, each

RULES = {
    **each("one-image.radio-stores", [f"bus-in-{phase}" for phase in PHASES],
           "Two sides of one tag: a WRITE while the other side is {}"),
    **each("one-image.bus-stores", [f"radio-in-{state}" for state in STATES],
           "Two sides of one tag: a stop stores while the other side is {}"),
}


def met(step):
    if step.command[0] == "WRITE" and step.acked:
        yield f"one-image.radio-stores/bus-in-{step.phase}"
    elif step.event == "stop" and stores_in_the_image(step.before.tag.bus):
        yield f"one-image.bus-stores/radio-in-{step.state}"


def stores_in_the_image(bus):
    """Q-1: a stop may store in the data memory instead."""
    return bus.gathered and not bus.data_memory.has(bus.counter)
