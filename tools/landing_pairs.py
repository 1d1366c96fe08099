"""Which item of a state of the crates is which item of a later one.

An item is a definition, a function's promise, a type or constant, or a file. It is the same item as before if it stands at the same place
under the same name; else if its name and its text are found elsewhere; else if its text has another name; else if what is left is alike.
"""
from collections import Counter, defaultdict
from typing import NamedTuple, Optional

ALIKE = 0.6


class Item(NamedTuple):
    crate: str
    place: str          # the file or module in the crate; of a file, its folder
    name: str
    text: str           # tells it from another item of its name
    nameless: str       # the text without the name; empty where that tells nothing
    parts: tuple        # the words and the texts of what can change in it
    lines: tuple        # of a file its lines, of another item its words: what likeness is measured by
    body: str = ""      # of a function: not a part of its promise

    def here(self):
        return self.crate, self.place, self.name


class Change(NamedTuple):
    before: Optional[Item]
    after: Optional[Item]

    @property
    def crate(self):
        """Each change counts once: in the crate where the item is now, or was last."""
        return (self.after or self.before).crate

    @property
    def state(self):
        if self.before is None:
            return "came"
        if self.after is None:
            return "went"
        same = self.before.here() == self.after.here() and not self.changed_parts()
        return "stayed" if same else "moved"

    def changed_parts(self):
        before = dict(self.before.parts)
        return [word for word, text in self.after.parts if before[word] != text]

    def body_changed(self):
        """Whether the code is another and its promise the same."""
        return bool(self.before and self.after) and self.before.text == self.after.text and self.before.body != self.after.body


def likeness(before, after):
    """How much of the longer text is in the other, by the lines of a file, as git counts it, or by the words of another item."""
    shared = Counter(before.lines) & Counter(after.lines)
    longer = max(sum(map(len, before.lines)), sum(map(len, after.lines)))
    return sum(len(line) * count for line, count in shared.items()) / longer if longer else 0


# The keys that items are paired by, in turn, and whether only where one item on each side has the key: a text may have several names.
BY_NAME = (
    (Item.here, False),
    (lambda item: (item.crate, item.name, item.text), False),
    (lambda item: (item.name, item.text), False),
    (lambda item: item.nameless, True),
    (lambda item: (item.crate, item.name), True),
)
BY_PATH = (
    (Item.here, False),
    (lambda item: (item.name, item.text), False),
    (lambda item: item.text, False),
)


def pair_by(key, alone, before, after):
    """Pairs items with the same key, in order. An empty key is none."""
    groups = defaultdict(lambda: ([], []))
    for side, items in enumerate((before, after)):
        for item in items:
            if key(item):
                groups[key(item)][side].append(item)
    for olds, news in groups.values():
        if not alone or len(olds) == len(news) == 1:
            yield from zip(olds, news)


def pair_alike(before, after, same_name):
    """Pairs those that are most alike first. Of two that are as much alike, the one that kept its name."""
    scored = []
    for old in before:
        for new in after:
            if old.name == new.name or not same_name:
                score = likeness(old, new)
                if score > ALIKE:
                    scored.append((-score, old.name != new.name, old.here(), new.here(), old, new))
    taken = set()
    for _, _, _, _, old, new in sorted(scored, key=lambda entry: entry[:4]):
        if id(old) not in taken and id(new) not in taken:
            taken |= {id(old), id(new)}
            yield old, new


def changes(before, after, files=False):
    """What became of each item, in order."""
    left, came, found = sorted(before), sorted(after), []

    def settle(pairs):
        nonlocal left, came
        pairs = list(pairs)
        found.extend(Change(old, new) for old, new in pairs)
        olds, news = {id(old) for old, _ in pairs}, {id(new) for _, new in pairs}
        left = [item for item in left if id(item) not in olds]
        came = [item for item in came if id(item) not in news]

    for key, alone in BY_PATH if files else BY_NAME:
        settle(pair_by(key, alone, left, came))
    settle(pair_alike(left, came, same_name=not files))
    found += [Change(item, None) for item in left] + [Change(None, item) for item in came]
    return sorted(found, key=lambda change: (change.after or change.before).here())


def counts(of_changes):
    """How many came, went, moved and stayed."""
    states = Counter(change.state for change in of_changes)
    return tuple(states[state] for state in ("came", "went", "moved", "stayed"))
