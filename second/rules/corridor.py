"""The rules of `corridor`."""

from lines.reading import TABLE
from rules import (active, bad_lines, both_sides, bus, counter, crc_answers, crc_frames, crc_parts, crc_ready,
                   entered_by_read, lines, locks, memory, memory_lines, mirror_places, mirror_reads,
                   mirror_stored, mirror_text, password, reads, reads_at_once, ready_commands, records,
                   refusals, returns, selection, waiting, writes)
from rules.book import Group, RuleBook
from rules.step import Watched

# Its longest line is a good one.
RETURN_RULES = {**returns.rules_of(TABLE), **returns.limit_rule_of(TABLE)}

GROUPS = [
    Group("LINES.md: the lines", lines.RULES, lines.met),
    Group("LINES.md: the board in words", records.RULES, records.met),
    Group("LINES.md: the data memory in lines", {**memory_lines.RULES, **memory_lines.LIMIT_RULES},
          memory_lines.met),
    Group("LINES.md: carriage returns", RETURN_RULES, returns.met),
    Group("LINES.md: bad lines", bad_lines.RULES, bad_lines.met),
    Group("Numbers for a refused call", refusals.RULES, refusals.met),
    Group("Radio states: IDLE, HALT, field loss", waiting.RULES, waiting.met),
    Group("Radio states: READY1, READY2", selection.RULES, selection.met),
    Group("Radio states: ACTIVE", active.RULES, active.met),
    Group("Q-2: READ 00h in READY1, READY2", reads_at_once.RULES, reads_at_once.met),
    Group("Q-2: any other READ there", ready_commands.RULES, ready_commands.met),
    Group("Q-2: ACTIVE, entered by READ 00h", entered_by_read.RULES, entered_by_read.met),
    Group("READ and FAST_READ", reads.RULES, reads.met),
    Group("The counter, GET_VERSION", counter.RULES, counter.met),
    Group("Q-3: where the mirror is", mirror_places.RULES, mirror_places.met),
    Group("Q-3: reads of the mirror", mirror_reads.RULES, mirror_reads.met),
    Group("Q-3: the mirror's characters", mirror_text.RULES, mirror_text.met),
    Group("Q-3: the bytes under the mirror, its settings", mirror_stored.RULES, mirror_stored.met),
    Group("Q-4: the check sum of frames", crc_frames.RIGHT_RULES, crc_frames.met),
    Group("Q-4: frames with another check", crc_frames.WRONG_RULES, crc_frames.met),
    Group("Q-4: frames with a byte less or more", crc_parts.RULES, crc_parts.met),
    Group("Q-4: frames with another check in READY1, READY2", crc_ready.RULES, crc_ready.met),
    Group("Q-4: the check sum of answers", crc_answers.RULES, crc_answers.met),
    Group("PWD_AUTH", password.RULES, password.met),
    Group("WRITE", writes.RULES, writes.met),
    Group("Static locks", locks.STATIC_RULES, locks.met),
    Group("Dynamic locks, N=45", locks.RULES_45, locks.met),
    Group("Dynamic locks, N=135", locks.RULES_135, locks.met),
    Group("Dynamic locks, N=231", locks.RULES_231, locks.met),
    Group("Two wires: events by phase", bus.PHASE_RULES, bus.met),
    Group("Two wires: addresses, stores, reads", bus.RULES, bus.met),
    Group("Q-1: events by phase, the counter in the data memory", memory.PHASE_RULES, memory.met),
    Group("Q-1: the data memory and the window", memory.RULES, memory.met),
    Group("Two sides of one tag", both_sides.RULES, both_sides.met),
]

BOOK = RuleBook(GROUPS, Watched, TABLE)
