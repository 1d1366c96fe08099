"""Wrong by rule: in each step that meets a rule, a wrong program gives another
answer. Where the rule is that nothing is kept, it takes something from the line
before."""

from rules.workshop.kept import RULES as KEPT_RULES
from workshop.player import Player
from wrong.by_rule import ANOTHER_ANSWER, another_answer
from wrong.trial import Difference

ANSWER_BEFORE = "the answer of the line before"
AREA_LEFT = "the area as the line before left it"
FIRST_USER_BYTE = 16


def twists_of(before, step):
    """What a step could take from the step before it: what would be something else."""
    taken = [(ANSWER_BEFORE, before.answer), *answers_with_what_was(before, step)]
    return [(name, given) for name, given in taken if given != step.answer]


def answers_with_what_was(before, step):
    """The answer that a line would get with a second, watts or bytes of the line
    before, or with the area that it left."""
    now, then = arguments_of(step), arguments_of(before)
    for name in now:
        if name in then and then[name] != now[name]:
            yield f"the {name} of the line before", answer_to(step.word, {**now, name: then[name]})
    if now and before.written:
        yield AREA_LEFT, answer_to(step.word, {**now, "bytes": left_behind(before.written.area, step)})


def arguments_of(step):
    """The arguments of a good line, by what they are."""
    names = {"screen": ["second", "bytes"], "reading": ["second", "watts", "bytes"]}.get(step.word, [])
    return dict(zip(names, step.arguments))


def left_behind(area, step):
    """The bytes of a line, if what was written before were still there."""
    if step.word == "reading":
        return area
    return (step.image[:FIRST_USER_BYTE] + area + step.image[FIRST_USER_BYTE + len(area):])[:len(step.image)]


def answer_to(word, arguments):
    *numbers, data = arguments.values()
    return Player().answer(" ".join([word, *map(str, numbers), data.hex() or "-"]).encode("ascii"))


class Catalogue:
    """At which lines each wrong program goes wrong: `key twist` to places, and what
    it answers there."""

    def __init__(self):
        self.places = {}
        self.before = None          # the last step that was answered

    def look(self, place, step, keys, before, after, player):
        """Called for each line of the right program's play."""
        twists = [(ANOTHER_ANSWER, another_answer(step and step.answer))]
        if step and self.before and any(key in KEPT_RULES for key in keys):
            twists += twists_of(self.before, step)
        for key in dict.fromkeys(keys):
            for twist, given in twists if key in KEPT_RULES else twists[:1]:
                self.places.setdefault(f"{key} {twist}", []).append((place, given))
        self.before = step or self.before


def try_rule(record, places, name):
    """The first Difference of a wrong program by its name, `key twist`; or None."""
    for place, given in places:
        if given != record.answers[place]:
            return Difference(place, given)
    return None
