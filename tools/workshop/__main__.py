"""The words of ./workshop, for people with files. The launcher hands over all words but none and --build alone.

A word has a file of its own and a place in WORDS. The file has USAGE, how the word is written; ABOUT, what it does, in a line; HELP, what
`./workshop WORD --help` says behind USAGE; read(words), which takes the words behind it, reads its files and gives what answer wants; and
answer(ask, ..), which asks the proved program by its lines, writes its files and gives the text to print. What is wrong with the words or the
files that are read is found before the program is built.
"""
import os
import sys

sys.dont_write_bytecode = True

import reading  # noqa: E402
import screen  # noqa: E402
from failures import Failed, WrongUse  # noqa: E402
from program import Ended, NotStarted, Program, build  # noqa: E402

WORDS = {"screen": screen, "reading": reading}

HELP = """Does the workshop's work on images. Without words it plays lines on standard input and output: one line in, one line
out. The line "help" names the commands; docs/LINES.md says what each does and answers. With --build it only builds the
program. With a word it works on files:

{words}

./workshop WORD --help says more of a word. The exit status is 0; 1 where a file can't be read or written, what is in it is
refused, or an answer could not be written; 2 where a word is wrong or the program is not built."""


def usage():
    """What ./workshop --help says."""
    ways = ["./workshop [--build] [--help]"] + [f"./workshop {word.USAGE}" for word in WORDS.values()]
    about = "\n".join(f"    {name:<10}{word.ABOUT}" for name, word in WORDS.items())
    return "usage: " + "\n       ".join(ways) + "\n\n" + HELP.format(words=about)


def usage_of(word):
    """What ./workshop WORD --help says."""
    return f"usage: ./workshop {word.USAGE}\n\n{word.HELP.strip()}"


def asked_for_help(words):
    """What the words want to be told, or nothing where they want something done."""
    first, *rest = words
    if first in WORDS:
        return usage_of(WORDS[first]) if "-h" in rest or "--help" in rest else None
    if first not in ("-h", "--help", "help"):
        return None
    if not rest:
        return usage()
    if rest[1:] or rest[0] not in WORDS:
        raise WrongUse(f"{first} stands alone, or before one of the words: {', '.join(WORDS)}")
    return usage_of(WORDS[rest[0]])


def done(words):
    """Does what the words ask for. Gives the exit status."""
    first, *rest = words
    if first == "--build":
        raise WrongUse("--build stands alone")
    if first not in WORDS:
        raise WrongUse(f"unknown {'option' if first.startswith('-') else 'word'}: '{first}' (./workshop --help says what there is)")
    word = WORDS[first]
    taken = word.read(rest)
    status = build("workshop")
    if status:
        return status
    with Program("workshop") as program:
        text = word.answer(program.ask, *taken)
    print(text, flush=True)
    return 1 if program.status else 0


def say(what, status):
    print(f"workshop: {what}", file=sys.stderr)
    return status


def main(words):
    try:
        if sys.stdout is None:
            raise WrongUse("standard output is closed")
        sys.stdout.reconfigure(errors="backslashreplace")
        told = asked_for_help(words)
        if told is None:
            return done(words)
        print(told, flush=True)
        return 0
    except (WrongUse, NotStarted) as wrong:
        return say(wrong, 2)
    except Failed as failed:
        return say(failed, 1)
    except Ended as ended:
        return say(f"the program ended before it had answered, with status {ended.status}", 1)
    except KeyboardInterrupt:
        return say("stopped", 130)
    except OSError as error:
        # the answer is no longer read, or can't be written; at the end Python flushes what is left of it into nothing
        os.dup2(os.open(os.devnull, os.O_WRONLY), sys.stdout.fileno())
        return say(f"the answer can't be written: {error.strerror}", 1)


if __name__ == "__main__":
    sys.exit(main(sys.argv[1:] or ["--help"]))
