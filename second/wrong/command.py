"""Tries wrong programs on the stored script: all of them, or some by name."""

import multiprocessing
import sys

from compare import first_difference, readable
from wrong.by_hand import ByHand
from wrong.by_slip import Sources, places_run, try_slip
from wrong.corridor import CORRIDOR
from wrong.readers import readers_of, try_reader
from wrong.record import Record
from wrong.trial import watch_the_time
from wrong.workshop import WORKSHOP

KINDS = {kind.program.name: kind for kind in (CORRIDOR, WORKSHOP)}


class Trials:
    """Everything that is needed to try a wrong program by its name."""

    def __init__(self, kind):
        self.kind = kind
        program = kind.program
        self.text = program.stored_script()
        self.record = Record(self.text, program.rules, kind.state_of)
        catalogue = kind.catalogue()
        self.record.play(catalogue.look)
        self.by_rule = catalogue.places
        self.sources = Sources(kind.modules)
        self.by_slip = self.sources.slips()
        self.places_run = places_run(kind, self.sources, self.record)
        self.readers = readers_of(program.player.table.longest)

    def families(self):
        """The names of the wrong programs, by family."""
        return {"by rule": list(self.by_rule), "by slip": list(self.by_slip),
                "by reading": list(self.readers), "by hand": list(self.kind.by_hand)}

    def names(self):
        return [name for family in self.families().values() for name in family]

    def line_of(self, name):
        """Where a slip is in its file, in words; nothing for other wrong programs."""
        return f" (line {self.by_slip[name].node.lineno})" if name in self.by_slip else ""

    def try_one(self, name):
        """The first Difference, or None."""
        if name in self.by_rule:
            return self.kind.try_rule(self.record, self.by_rule[name], name)
        if name in self.by_slip:
            slip = self.by_slip[name]
            return self.try_source(slip, self.places_run.get((slip.module, slip.statement), []))
        if name in self.kind.by_hand:
            return self.try_source(ByHand(self.kind.by_hand[name], self.sources), range(len(self.record.lines)))
        return try_reader(self.record, self.text, self.readers[name], self.kind.program.player())

    def try_source(self, slip, places):
        return try_slip(self.kind, self.record, self.text, places, self.sources, slip)


# Made before the processes that try begin, so that each has it.
TRIALS = None


def try_by_name(name):
    return name, TRIALS.try_one(name)


def prepare(program_name):
    global TRIALS
    TRIALS = Trials(KINDS[program_name])
    watch_the_time()


def try_all(program_name, jobs):
    """Tries all of one program; True if nothing is unnoticed but what means nothing."""
    prepare(program_name)
    names = TRIALS.names()
    unnoticed = set()
    with multiprocessing.get_context("fork").Pool(jobs) as pool:
        for done, (name, difference) in enumerate(pool.imap_unordered(try_by_name, names, 16), 1):
            if difference is None:
                unnoticed.add(name)
            if sys.stderr.isatty() and done % 50 == 0:
                print(f"\r{done} of {len(names)} wrong programs, {len(unnoticed)} not noticed",
                      end="", file=sys.stderr)
    if sys.stderr.isatty():
        print(file=sys.stderr)
    return report(names, unnoticed)


def report(names, unnoticed):
    """Says what nobody notices; True if it is what is listed."""
    meaningless = TRIALS.kind.meaningless
    left = [name for name in names if name in unnoticed and name not in meaningless]
    noticed_after_all = [name for name in meaningless if name in names and name not in unnoticed]
    gone = [name for name in meaningless if name not in names]
    for name in left:
        print(f"not noticed: {name}{TRIALS.line_of(name)}")
    for name in noticed_after_all:
        print(f"listed as meaningless, but noticed: {name}")
    for name in gone:
        print(f"listed as meaningless, but there is none: {name}")
    families = ", ".join(f"{len(family)} {kind}" for kind, family in TRIALS.families().items())
    print(f"{TRIALS.kind.program.name}: {len(names)} wrong programs ({families}): "
          f"{len(names) - len(unnoticed)} noticed, {len(unnoticed)} not, "
          f"{len(unnoticed) - len(left)} of them listed with the reason", flush=True)
    return not (left or noticed_after_all or gone)


def try_named(program_name, part):
    """Tries those of a program whose name is this, or has it in it; True if each is
    noticed or listed, None if there is none."""
    prepare(program_name)
    names = TRIALS.names()
    chosen = [part] if part in names else [name for name in names if part in name]
    good = bool(chosen) or None
    for name in chosen:
        difference = TRIALS.try_one(name)
        print(told(name, difference), flush=True)
        if difference is None and name not in TRIALS.kind.meaningless:
            good = False
    return good


def told(name, difference):
    """What came of a wrong program, in words."""
    heading = f"{TRIALS.kind.program.name}: {name}{TRIALS.line_of(name)}"
    if difference is None:
        reason = TRIALS.kind.meaningless.get(name)
        return f"{heading}\n    not noticed" + (f": {reason}" if reason else "")
    due = TRIALS.record.answers[difference.place]
    due = b"(no answer)" if due is None else due
    given = b"(no answer)" if difference.given is None else difference.given
    place = first_difference(due, given)
    return (f"{heading}\n    line {difference.place + 1}: {readable(TRIALS.record.lines[difference.place])}\n"
            f"    due:   {readable(due, place)}\n    given: {readable(given, place)}")
