"""What the lines of both programs have in common, by LINES.md."""

from typing import NamedTuple

TOO_LONG = "line too long"
NO_SUCH_COMMAND = "no such command"
NOT_HOW = "not how this command is written"


class BadLine(Exception):
    """A line that changes nothing; its text is what follows `error: `."""


class Table(NamedTuple):
    """The lines that a program takes."""

    longest: int                # characters of its longest line
    arguments: dict             # for each command word, what reads the words behind it
    last_may_be_missing: tuple  # the command words whose last word may be


def lines_of(text):
    """The lines of an input: "a last line without its newline counts". Behind a
    last newline there is an empty line, which is skipped."""
    return text.split(b"\n")


def without_return(line):
    """"A carriage return at the end of a line is dropped, so a file with CRLF
    plays": one of them, before anything else is judged. "anywhere else it is
    wrong as before" """
    return line[:-1] if line.endswith(b"\r") else line


def is_skipped(text):
    """"Empty lines and lines that begin with `#` are skipped and answered by
    nothing." """
    return text == b"" or text.startswith(b"#")


def command_of(text, table):
    """The command word and its arguments, as numbers and bytes; BadLine for a
    line that is not in the table.

    "Words are separated by exactly one space; command words are lower case."
    "`error: no such command` where the first word is none of the commands [...],
    `error: not how this command is written` where what follows it is wrong,
    `error: line too long`, which goes before both."
    """
    if len(text) > table.longest:
        raise BadLine(TOO_LONG)
    word, *rest = text.split(b" ")
    if word not in table.arguments:
        raise BadLine(NO_SUCH_COMMAND)
    kinds = table.arguments[word]
    missing = len(kinds) - len(rest)
    # A doubled or trailing space makes an empty word.
    if b"" in rest or missing not in ((0, 1) if word in table.last_may_be_missing else (0,)):
        raise BadLine(NOT_HOW)
    return word.decode("ascii"), [kind(word) for kind, word in zip(kinds, rest)]


def number_in(word, digits, largest):
    """A decimal number of so many digits at most: "leading zeros are fine"."""
    if word.strip(b"0123456789") or len(word) > digits or int(word) > largest:
        raise BadLine(NOT_HOW)
    return int(word)


def bytes_in(word, most):
    """"Bytes are pairs of hex digits, either case in, capitals out." """
    if word.strip(b"0123456789ABCDEFabcdef") or len(word) % 2 or len(word) > 2 * most:
        raise BadLine(NOT_HOW)
    return bytes.fromhex(word.decode("ascii"))
