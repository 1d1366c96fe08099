"""Wrong programs of `workshop`, which keeps nothing from line to line.

    by_rule     wrong by rule: another answer, or something from the line before
    images_by_hand, walks_by_hand, readings_by_hand, lines_by_hand
                wrong by hand: what the screen walks, how, what it takes for a
                reading, and the lines
    lent_by_hand, written_by_hand, reading_lines_by_hand
                wrong by hand: into what the writer writes, which bytes, and the
                lines `reading`
    meaningless those that no script can notice, with the reason
"""

from programs import PROGRAMS
from wrong.kind import Kind
from wrong.workshop.by_rule import Catalogue, try_rule
from wrong.workshop.images_by_hand import IMAGES_BY_HAND
from wrong.workshop.lent_by_hand import LENT_BY_HAND
from wrong.workshop.lines_by_hand import LINES_BY_HAND
from wrong.workshop.meaningless import MEANINGLESS
from wrong.workshop.reading_lines_by_hand import READING_LINES_BY_HAND
from wrong.workshop.readings_by_hand import READINGS_BY_HAND
from wrong.workshop.walks_by_hand import WALKS_BY_HAND
from wrong.workshop.written_by_hand import WRITTEN_BY_HAND


def nothing_kept(player):
    return ()


def nothing_put(player, state):
    """There is nothing that a player could stand otherwise in."""


BY_HAND = {**IMAGES_BY_HAND, **WALKS_BY_HAND, **READINGS_BY_HAND, **LENT_BY_HAND, **WRITTEN_BY_HAND,
           **LINES_BY_HAND, **READING_LINES_BY_HAND}

WORKSHOP = Kind(PROGRAMS["workshop"], ["workshop", "lines.words", "lines.answering", "tag.refusal"],
                nothing_kept, nothing_put, Catalogue, try_rule, BY_HAND, MEANINGLESS)
