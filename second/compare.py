"""Holds a proved program against the second opinion, on fresh scripts."""

import multiprocessing
import subprocess
import sys

from programs import PROGRAMS

PIECE_LINES = 4000
DIFFERENCES_PRINTED = 5
UNREACHED_PRINTED = 8
END = b"(end of the script)"


def piece_seeds(seed, lines):
    """The seeds of the pieces: enough pieces for so many lines."""
    pieces = -(-lines // PIECE_LINES)
    return [(seed * 1000003 + number) % 2 ** 64 for number in range(pieces)]


def compare_answers(lines, due, given):
    """The places where answers differ: (line number, line, due, given)."""
    expected = [(number, line, answer) for number, (line, answer) in enumerate(zip(lines, due), 1)
                if answer is not None]
    nothing = b"(no answer)"
    differing = []
    for place in range(max(len(expected), len(given))):
        number, line, answer = expected[place] if place < len(expected) else (
            len(lines), END, nothing)
        got = given[place] if place < len(given) else nothing
        if got != answer:
            differing.append((number, line, answer, got))
    return len(expected), differing


def compare_piece(work):
    """Sends one piece to the program; gives what came of it."""
    seed, lines_wished, name, path = work
    text = PROGRAMS[name].fresh_script(seed, lines_wished)
    lines, due, counts = PROGRAMS[name].rules.play_and_count(text)
    run = subprocess.run([path], input=text, stdout=subprocess.PIPE, check=False)
    given = run.stdout.split(b"\n")
    if given[-1] == b"":
        given.pop()
    answers, differing = compare_answers(lines, due, given)
    if run.returncode != 0:
        differing.append((len(lines), END, b"exit 0", b"exit %d" % run.returncode))
    return seed, len(lines), answers, differing, counts


def readable(line, place=0):
    """A line as text; of a long one, the part around a place."""
    text = line.decode("latin-1")
    start = max(0, place - 30)
    part = text[start:start + 120].encode("unicode_escape").decode("ascii")
    before = f"({start} characters) ..." if start else ""
    behind = f"... ({len(text) - start - 120} characters)" if len(text) > start + 120 else ""
    return before + part + behind


def first_difference(one, other):
    """The first place where two lines differ."""
    same = 0
    while same < min(len(one), len(other)) and one[same] == other[same]:
        same += 1
    return same


def compare_long(name, path, lines_wished, seed, jobs):
    """The whole comparison of one program; True if no answer differs."""
    print(f"long {lines_wished} {seed} --of {name}: fresh scripts for {path}", flush=True)
    work = [(piece_seed, min(lines_wished, PIECE_LINES), name, path)
            for piece_seed in piece_seeds(seed, lines_wished)]
    rules = PROGRAMS[name].rules
    lines = answers = differences = 0
    total = dict.fromkeys(rules.rules, 0)
    with multiprocessing.Pool(jobs) as pool:
        for done, (piece, sent, compared, differing, counts) in enumerate(
                pool.imap_unordered(compare_piece, work), 1):
            lines += sent
            answers += compared
            for key, count in counts.items():
                total[key] += count
            for number, line, due, given in differing[:max(0, DIFFERENCES_PRINTED - differences)]:
                place = first_difference(due, given)
                print(f"piece {piece}, line {number}: {readable(line)}\n"
                      f"    due:   {readable(due, place)}\n    given: {readable(given, place)}", flush=True)
            differences += len(differing)
            if sys.stderr.isatty():
                print(f"\r{lines} lines, {done} of {len(work)} pieces", end="", file=sys.stderr)
    if sys.stderr.isatty():
        print(file=sys.stderr)
    unreached = rules.never_reached(total)
    print(f"{lines} lines sent, {answers} answers compared, {differences} differing")
    print(f"{len(total) - len(unreached)} of {len(total)} rules reached{without(unreached)}")
    return differences == 0


def without(unreached):
    """The first of the rules that were never reached, and how many more there are."""
    if not unreached:
        return ""
    more = len(unreached) - UNREACHED_PRINTED
    return f"; never: {', '.join(unreached[:UNREACHED_PRINTED])}" + (f" and {more} more" if more > 0 else "")
