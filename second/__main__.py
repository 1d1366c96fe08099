"""The second opinion: independent programs that the proved ones are held against.

usage: python3 second COMMAND

  write                   writes the stored scripts and their answers
  check                   says how often the stored scripts reach each rule, and
                          whether the files are as generated
  long [LINES] [SEED]     sends fresh scripts (1,000,000 lines, a seed from the
                          clock) to the programs, nine lines of ten to corridor and
                          one to workshop, and compares every answer
  wrong [NAME]            tries programs that are wrong in one thing each, and names
                          those that the stored scripts don't notice; with a name,
                          or a part of one, says where those are noticed
  piece SEED              prints one piece of a long run, by the seed it names
  answers                 reads lines and prints the second opinion's answers
  help                    prints this

options:
  --of NAME               this program alone, corridor or workshop: write, check, long
                          and wrong take both without it, piece and answers corridor
  --into DIR              write, check: DIR/NAME/stdin and DIR/NAME/stdout, not the
                          stored files
  --program PATH          long: this program in place of ./NAME, and that one alone;
                          without --of it is corridor
  --jobs N                long, wrong: this many processes at a time (2)
"""

import sys
import time
from pathlib import Path

sys.dont_write_bytecode = True

from compare import PIECE_LINES, compare_long, first_difference, readable
from programs import PROGRAMS
from wrong.command import try_all, try_named

ALL_SHARES = sum(program.share for program in PROGRAMS.values())


class WrongUse(Exception):
    """A command line that isn't in the usage text."""


def options_of(arguments, allowed):
    """Splits off the options of the form --name VALUE."""
    plain, options = [], {}
    left = list(arguments)
    while left:
        argument = left.pop(0)
        if not argument.startswith("--"):
            plain.append(argument)
        elif argument in allowed and left:
            options[argument] = left.pop(0)
        else:
            raise WrongUse(f"{argument} isn't an option here, or has no value")
    return plain, options


def at_most(amount, plain, hint=""):
    if len(plain) > amount:
        raise WrongUse(f"{plain[amount]} is one word too many{hint}")


def whole_number(word, least=0):
    if not word.isdecimal() or int(word) < least:
        raise WrongUse(f"{word} isn't a number from {least} up")
    return int(word)


def program_named(name):
    if name not in PROGRAMS:
        raise WrongUse(f"{name} isn't one of {', '.join(PROGRAMS)}")
    return PROGRAMS[name]


def programs_of(options):
    """The program of --of, or all."""
    return [program_named(options["--of"])] if "--of" in options else list(PROGRAMS.values())


def stored_files(program, into):
    """Makes script and answers anew; gives each file with its content, and how
    often the script reaches each rule."""
    text = program.stored_script()
    _, answers, counts = program.rules.play_and_count(text)
    given = b"".join(answer + b"\n" for answer in answers if answer is not None)
    folder = Path(into) / program.name if into else program.folder
    return [(folder / "stdin", text), (folder / "stdout", given)], counts


def write(arguments):
    plain, options = options_of(arguments, ["--of", "--into"])
    at_most(0, plain)
    for program in programs_of(options):
        files, _ = stored_files(program, options.get("--into"))
        for path, content in files:
            path.parent.mkdir(parents=True, exist_ok=True)
            path.write_bytes(content)
            print(f"{path}: {len(content)} bytes")
    return 0


def verdict(path, content):
    """Whether a stored file is as generated, in words; None if it is."""
    if not path.exists():
        return f"{path} is missing"
    stored = path.read_bytes()
    if stored == content:
        return None
    stored_lines, due_lines = stored.split(b"\n"), content.split(b"\n")
    same = first_difference(stored_lines, due_lines)
    if same in (len(stored_lines), len(due_lines)):
        return f"{path} has {len(stored_lines)} lines, {len(due_lines)} are due, the first {same} alike"
    there, due = stored_lines[same], due_lines[same]
    place = first_difference(there, due)
    return (f"{path}, line {same + 1}: {readable(there, place)} is stored, "
            f"{readable(due, place)} is due")


def check(arguments):
    plain, options = options_of(arguments, ["--of", "--into"])
    at_most(0, plain)
    made = [(program, *stored_files(program, options.get("--into"))) for program in programs_of(options)]
    for program, _, counts in made:
        print(f"{program.name}\n\n{program.rules.table(counts)}\n")
    return 0 if all([check_one(*one) for one in made]) else 1


def check_one(program, files, counts):
    """Says what is reached and what is stored of one program; True if it is all."""
    good = True
    rules = program.rules.rules
    unreached = program.rules.never_reached(counts)
    print(f"{program.name}: {len(rules) - len(unreached)} of {len(rules)} rules reached")
    for key in unreached:
        print(f"never reached: {key}: {rules[key]}")
        good = False
    for path, content in files:
        difference = verdict(path, content)
        if difference:
            print(f"{difference}; run 'make scripts' to write them anew")
            good = False
        else:
            print(f"{path} is as generated: {len(content)} bytes")
    return good


def long(arguments):
    plain, options = options_of(arguments, ["--of", "--program", "--jobs"])
    at_most(2, plain)
    lines = whole_number(plain[0], 1) if plain else 1000000
    seed = whole_number(plain[1]) if len(plain) > 1 else int(time.time())
    jobs = whole_number(options.get("--jobs", "2"), 1)
    if "--program" in options:
        options.setdefault("--of", "corridor")
    programs = programs_of(options)
    paths = [Path(options.get("--program", program.launcher)).resolve() for program in programs]
    for path in paths:
        if not path.exists():
            raise WrongUse(f"there is no program {path}")
    good = True
    for program, path in zip(programs, paths):
        share = lines if len(programs) == 1 else -(-lines * program.share // ALL_SHARES)
        good = compare_long(program.name, str(path), share, seed, jobs) and good
    return 0 if good else 1


def wrong(arguments):
    plain, options = options_of(arguments, ["--of", "--jobs"])
    at_most(1, plain, "; put a name that has spaces in quotes")
    jobs = whole_number(options.get("--jobs", "2"), 1)
    names = [program.name for program in programs_of(options)]
    if not plain:
        return 0 if all([try_all(name, jobs) for name in names]) else 1
    found = [good for good in [try_named(name, plain[0]) for name in names] if good is not None]
    if not found:
        raise WrongUse(f"no wrong program has {plain[0]} in its name")
    return 0 if all(found) else 1


def piece(arguments):
    plain, options = options_of(arguments, ["--of"])
    if len(plain) != 1:
        raise WrongUse("piece takes one seed")
    program = program_named(options.get("--of", "corridor"))
    sys.stdout.buffer.write(program.fresh_script(whole_number(plain[0]), PIECE_LINES))
    return 0


def answers(arguments):
    plain, options = options_of(arguments, ["--of"])
    at_most(0, plain)
    player = program_named(options.get("--of", "corridor")).player()
    for line in sys.stdin.buffer:
        answer = player.answer(line[:-1] if line.endswith(b"\n") else line)
        if answer is not None:
            sys.stdout.buffer.write(answer + b"\n")
            sys.stdout.buffer.flush()
    return 0


def help_text(arguments):
    print(__doc__.strip())
    return 0


COMMANDS = {"write": write, "check": check, "long": long, "wrong": wrong, "piece": piece,
            "answers": answers, "help": help_text}


def main(arguments):
    command, *rest = arguments or ["help"]
    try:
        if command not in COMMANDS:
            raise WrongUse(f"{command} isn't a command")
        return COMMANDS[command](rest)
    except WrongUse as wrong:
        print(f"{wrong}\n\n{__doc__.strip()}", file=sys.stderr)
        return 2


if __name__ == "__main__":
    sys.exit(main(sys.argv[1:]))
