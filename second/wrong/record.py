"""The right program's way through the stored script, line by line."""

from bisect import bisect_left

from lines.words import lines_of


class Record:
    """The lines, the answer to each, and how the program stood before each.

    `states` has one more than there are lines: how the program stands at the end.
    `memories` are those of the steps.
    """

    def __init__(self, text, rules, state_of):
        self.lines = lines_of(text)
        self.rules, self.state_of = rules, state_of
        self.answers, self.states, self.memories = [], [], []

    def play(self, look):
        """Plays the right program, and calls look(place, step, keys of the rules met,
        state before, state after, player) for each line."""
        watched = self.rules.watched()
        state = self.state_of(watched.player)
        for place, line in enumerate(self.lines):
            self.states.append(state)
            self.memories.append(watched.memory)
            answer, step = watched.play(line)
            self.answers.append(answer)
            before, state = state, self.state_of(watched.player)
            if state == before:
                state = before      # one object for each state
            look(place, step, self.rules.met(step, line), before, state, watched.player)
        self.states.append(state)
        self.memories.append(watched.memory)


def next_place(places, place):
    """The first of these places that is not before `place`, or None."""
    index = bisect_left(places, place)
    return places[index] if index < len(places) else None
