"""Wrong tags: how `corridor` can be wrong."""

from programs import PROGRAMS
from state import put_state, state_of
from wrong.by_hand import BY_HAND
from wrong.by_rule import Catalogue, try_rule
from wrong.kind import Kind
from wrong.meaningless import MEANINGLESS

CORRIDOR = Kind(PROGRAMS["corridor"], ["tag", "lines"], state_of, put_state, Catalogue, try_rule,
                BY_HAND, MEANINGLESS)
