"""The two programs that are held against a second opinion."""

from pathlib import Path
from typing import Callable, NamedTuple

import lines.player
import rules.corridor
import rules.workshop
import scenes.stored
import scenes.workshop.stored
import workshop.player
from rules.book import RuleBook

ROOT = Path(__file__).resolve().parent.parent


class Program(NamedTuple):
    """What is known of a program, beside what `wrong` knows."""

    name: str
    player: type                # plays its lines
    rules: RuleBook
    stored_script: Callable     # makes the script that is stored
    fresh_script: Callable      # makes one from a seed, of so many lines
    share: int                  # of ten lines of a long run, so many are for it

    @property
    def folder(self):
        """Where its stored script lies, as stdin and stdout."""
        return ROOT / "crates" / self.name

    @property
    def launcher(self):
        return ROOT / self.name


PROGRAMS = {program.name: program for program in [
    Program("corridor", lines.player.Player, rules.corridor.BOOK,
            scenes.stored.stored_script, scenes.stored.fresh_script, 9),
    Program("workshop", workshop.player.Player, rules.workshop.BOOK,
            scenes.workshop.stored.stored_script, scenes.workshop.stored.fresh_script, 1),
]}
