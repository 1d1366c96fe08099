"""Wrong by slip: a program with one slip in its source."""

import ast
import copy
import sys
from array import array
from pathlib import Path
from types import ModuleType

from wrong.slips import number_nodes, slips_in
from wrong.trial import Difference, answer_in_time, play_until_noticed

HERE = Path(__file__).resolve().parent.parent


class Sources:
    """The modules of a program, each after those it needs."""

    def __init__(self, modules):
        files = [file for name in modules for file in files_of(HERE / name.replace(".", "/"))]
        self.texts = {module_of(file): file.read_text("utf-8") for file in files}
        trees = {name: number_nodes(ast.parse(text)) for name, text in self.texts.items()}
        self.trees = dict(in_order(trees))
        self.codes = {name: compile(tree, name, "exec") for name, tree in self.trees.items()}

    def slips(self):
        return {slip.name: slip for name, tree in self.trees.items() for slip in slips_in(name, tree)}

    def modules_with(self, slip):
        """All modules anew, one of them with the slip."""
        return load({**self.codes, slip.module: slip.code()})


def files_of(path):
    """The files of a package, or the one of a module."""
    return sorted(path.glob("*.py")) if path.is_dir() else [path.with_suffix(".py")]


def module_of(file):
    name = ".".join(file.relative_to(HERE).with_suffix("").parts)
    return name.removesuffix(".__init__")


def in_order(trees):
    """Modules after those that they import from."""
    left = dict(trees)
    while left:
        ready = [name for name, tree in left.items() if not imported_by(tree) & set(left) - {name}]
        for name in ready:
            yield name, left.pop(name)


def imported_by(tree):
    return {node.module for node in ast.walk(tree) if isinstance(node, ast.ImportFrom)}


def load(codes, names=()):
    """Runs modules from their code, beside those that are loaded already.

    `names` are known in each of them.
    """
    kept = {name: sys.modules.get(name) for name in codes}
    made = {}
    try:
        for name, code in codes.items():
            made[name] = sys.modules[name] = ModuleType(name)
            made[name].__dict__.update(names)
            exec(code, made[name].__dict__)
        return made
    finally:
        for name, module in kept.items():
            if module:
                sys.modules[name] = module
            else:
                del sys.modules[name]


class Marked(ast.NodeTransformer):
    """Puts a mark before each statement, so that a run tells which it ran."""

    def __init__(self, module):
        self.module = module

    def generic_visit(self, node):
        super().generic_visit(node)
        for field in ("body", "orelse", "finalbody"):
            statements = getattr(node, field, None)
            if isinstance(statements, list):
                setattr(node, field, [part for statement in statements
                                      for part in (self.mark(statement), statement)])
        return node

    def mark(self, statement):
        call = f"ran__({(self.module, statement.number)!r})"
        return ast.copy_location(ast.parse(call).body[0], statement)


def places_run(kind, sources, record):
    """For each statement, by module and number, the lines at which it runs.

    A statement that runs while the modules are loaded may make a difference
    at any line: it has them all.
    """
    ran = set()
    marked = {name: compile(ast.fix_missing_locations(Marked(name).visit(copy.deepcopy(tree))), name, "exec")
              for name, tree in sources.trees.items()}
    player = load(marked, {"ran__": ran.add})[kind.player_module].Player()
    everywhere = array("I", range(len(record.lines)))
    places = dict.fromkeys(ran, everywhere)
    for place, line in enumerate(record.lines):
        ran.clear()
        player.answer(line)
        for statement in ran:
            if statement not in places:
                places[statement] = array("I")
            if places[statement] is not everywhere:
                places[statement].append(place)
    return places


class Slipped:
    """A program with a slip, made to stand as the right one stood."""

    def __init__(self, kind, record, player):
        self.kind, self.record, self.player = kind, record, player
        self.play = player.answer

    def stand(self, place):
        if place:                   # at the start it stands as it was made
            self.kind.put_state(self.player, self.record.states[place])

    def stands_as(self, place):
        try:
            return self.kind.state_of(self.player) == self.record.states[place]
        except AttributeError:      # the slip left a part of what is kept unset
            return False


def try_slip(kind, record, text, places, sources, slip):
    """The first Difference of a program with this slip, or made by hand; or None."""
    making = Making(kind, record, text, sources, slip)
    fault = answer_in_time(making, b"")
    return Difference(0, fault) if fault else play_until_noticed(record, places, making.made)


class Making:
    """The making of a program with a slip, which may crash as a line may."""

    def __init__(self, kind, record, text, sources, slip):
        self.kind, self.record, self.text = kind, record, text
        self.sources, self.slip = sources, slip

    def play(self, line):
        """None, or what went wrong in words. It is lines.words that makes lines of a
        text."""
        modules = self.sources.modules_with(self.slip)
        words = modules["lines.words"]
        if self.slip.module == words.__name__ and words.lines_of(self.text) != self.record.lines:
            return b"(reads other lines)"
        self.made = Slipped(self.kind, self.record, modules[self.kind.player_module].Player())
        return None
