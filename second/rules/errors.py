"""The three `error: ..` lines, in both programs."""

from rules.naming import each

ODD_BYTES = [(b"\t", "tab"), (b"\r", "carriage-return"), (b"\0", "nul")]


def rules_of(table):
    """What can be wrong with a line of either program, but for the words behind
    the command word: each program has these for itself."""
    longest = table.longest
    return {
        **each("error.too-long", [f"{longest + 1}", f"{longest + 1}-and-return", f"{longest}-and-two-returns",
                                  f"{longest}-return-and-another", "longer"],
               "a longer line: `error: line too long` ({})"),
        **each("error.too-long.before", ["no-such-command", "empty-word", "not-how"],
               "`error: line too long`, which goes before both ({})"),
        **each("error.no-such-command", ["unknown-word", "part-of-a-command", "longer-than-a-command", "nul",
                                         "above-127", "carriage-return"],
               "`error: no such command` where the first word is none of the commands ({})"),
        **each("error.no-such-command", ["empty-word", "capital", "tab"],
               "an empty word, a capital, a tab in it among them ({})"),
        **each("error.no-such-command.before", ["extra-space", "odd-byte", "too-many-words"],
               "where the first word is none of the commands, whatever follows it ({})"),
        **each("error.not-how.of", [word.decode("ascii") for word in table.arguments],
               "`error: not how this command is written` where what follows it is wrong ({})"),
        **each(f"error.at-{longest}", ["no-such-command", "not-how"],
               f"the longest line is [...] {longest:,} characters: {{}}, and not too long"),
        "error.not-how/tab": "a tab",
        "error.not-how/carriage-return": "a carriage return",
        "error.not-how/nul": "Any other line (a byte 00h)",
        "error.not-how/above-127": "Any other line (a byte above 127)",
        "error.not-how/doubled-space": "a doubled [...] space",
        "error.not-how/trailing-space": "a [...] trailing space",
        "error.not-how/odd-digit": "an odd [...] digit",
        "error.not-how/bad-digit": "a [...] bad digit",
        "error.not-how/bad-number": "Numbers are decimal: no sign, no letters",
        "error.not-how/missing-word": "a missing [...] word",
        "error.not-how/extra-word": "an extra word",
    }


def error_of(text, table):
    """Which of the three errors a bad line is."""
    if len(text) > table.longest:
        return "too-long"
    return "not-how" if text.split(b" ")[0] in table.arguments else "no-such-command"


def met(step, why_not_how):
    """The rules that a bad line meets. `why_not_how(word, rest)` names what is
    wrong behind a command word."""
    word, *rest = step.text.split(b" ")
    if step.error == "too-long":
        yield f"error.too-long/{how_long(step.line, step.text, step.table.longest)}"
        return
    if step.error == "no-such-command":
        yield f"error.no-such-command/{why_unknown(word, step.table.arguments)}"
        yield from also_wrong(rest, most_words(step.table))
    else:
        yield f"error.not-how.of/{word.decode('ascii')}"
        yield f"error.not-how/{why_not_how(word, rest)}"
    if len(step.text) == step.table.longest:
        yield f"error.at-{step.table.longest}/{step.error}"


def how_long(line, text, longest):
    over = line[longest:]
    if over == b"\r\r":
        return f"{longest}-and-two-returns"
    if len(over) == 2 and over.startswith(b"\r"):
        return f"{longest}-return-and-another"
    if len(text) > longest + 1:
        return "longer"
    return f"{longest + 1}" if text == line else f"{longest + 1}-and-return"


def before_what(step):
    """What else is wrong with a line that is too long."""
    word = step.text.split(b" ")[0]
    if word in step.table.arguments:
        return "not-how"
    return "no-such-command" if word else "empty-word"


def odd_byte_in(words):
    for byte, why in ODD_BYTES:
        if any(byte in word for word in words):
            return why
    return "above-127" if any(byte > 127 for word in words for byte in word) else None


def why_unknown(word, commands):
    """Why a first word is none of the commands; of several reasons, one."""
    if word == b"":
        return "empty-word"
    if odd_byte_in([word]):
        return odd_byte_in([word])
    if word.lower() in commands:
        return "capital"
    if any(command.startswith(word) for command in commands):
        return "part-of-a-command"
    longer = any(word.startswith(command) for command in commands)
    return "longer-than-a-command" if longer else "unknown-word"


def most_words(table):
    """How many words a command word has behind it at most."""
    return max(map(len, table.arguments.values()))


def also_wrong(rest, most):
    """What would be wrong behind any command word."""
    if b"" in rest:
        yield "error.no-such-command.before/extra-space"
    if odd_byte_in(rest):
        yield "error.no-such-command.before/odd-byte"
    if len(rest) > most:
        yield "error.no-such-command.before/too-many-words"


def wrong_words(word, rest, table):
    """What is wrong with the words behind a command word before any of them is
    read; of several faults, one. None where it is none of these."""
    if odd_byte_in(rest):
        return odd_byte_in(rest)
    if b"" in rest:
        return "trailing-space" if rest[-1] == b"" else "doubled-space"
    missing = len(table.arguments[word]) - len(rest)
    if missing > (word in table.last_may_be_missing):
        return "missing-word"
    return "extra-word" if missing < 0 else None


def wrong_number(word, digits, largest):
    if any(digit not in "0123456789" for digit in word):
        return "bad-number"
    if len(word) > digits:
        return "number-too-long"
    if int(word) > largest:
        return f"{largest + 1}" if int(word) == largest + 1 else "number-too-large"
    return None


def wrong_hex(word):
    if any(digit not in "0123456789ABCDEFabcdef" for digit in word):
        return "bad-digit"
    return "odd-digit" if len(word) % 2 else None


def longer_than(most, word, by_one, by_more):
    if len(word) <= 2 * most:
        return None
    return by_one if len(word) == 2 * most + 2 else by_more
