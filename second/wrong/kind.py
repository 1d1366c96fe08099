"""What is needed to make wrong programs of a kind: of `corridor`, or of `workshop`."""

from typing import Callable, NamedTuple

from programs import Program


class Kind(NamedTuple):
    """How a program can be wrong, beside how it reads its input."""

    program: Program
    modules: list               # packages and modules in which there may be a slip
    state_of: Callable          # what a player keeps from line to line
    put_state: Callable         # makes a player stand as it stood in a state
    catalogue: type             # finds at which lines those wrong by rule go wrong
    try_rule: Callable          # plays one of them
    by_hand: dict
    meaningless: dict

    @property
    def player_module(self):
        return self.program.player.__module__
