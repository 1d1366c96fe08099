"""Carriage returns: at the end of a line one is dropped, in both programs."""

from rules.naming import each


def rules_of(table):
    return {
        **each("return.at-end", [word.decode("ascii") for word in table.arguments],
               "A carriage return at the end of a line is dropped ({})"),
        **each("return.at-end", ["no-such-command", "not-how", "too-long"],
               "A carriage return at the end of a line is dropped: {}"),
        "return.at-end/last-line":
            "A carriage return at the end of a line is dropped: a last line without newline",
        **each("return.skipped", ["empty-line", "comment", "long-comment", "comment-with-two"],
               "A carriage return at the end of a line is dropped ({})"),
        **each("return.elsewhere", ["second-at-end-of-word", "second-at-end-of-line", "second-of-two-alone",
                                    "first-word", "before-the-word", "before-a-comment", "in-the-word",
                                    "between-words", "in-the-rest"],
               "anywhere else it is wrong as before ({})"),
    }


def limit_rule_of(table):
    """Of a program whose longest line is a good one."""
    return {f"limit/line-{table.longest}-and-return":
            f"the longest line is [...] {table.longest:,} characters: the carriage return is none"}


def of_text(text):
    """The rules that a whole text meets by its end."""
    if text.endswith(b"\r"):
        yield "return.at-end/last-line"


def of_skipped(line, table):
    """The rules that a skipped line meets."""
    if line == b"\r":
        yield "return.skipped/empty-line"
    elif line.endswith(b"\r"):
        yield "return.skipped/comment"
        if len(line) > table.longest + 1:
            yield "return.skipped/long-comment"
        if line.endswith(b"\r\r"):
            yield "return.skipped/comment-with-two"


def met(step):
    if step.line != step.text:
        yield f"return.at-end/{step.word or step.error}"
        if step.word and len(step.text) == step.table.longest:
            yield f"limit/line-{step.table.longest}-and-return"
    if step.word is None and b"\r" in step.text:
        yield f"return.elsewhere/{where_in(step.text, step.table.arguments)}"


def where_in(text, commands):
    """Where a line has a carriage return that isn't dropped; of several, one."""
    word, _, rest = text.partition(b" ")
    if text == b"\r":
        return "second-of-two-alone"
    if word == b"\r":
        return "first-word"
    if word.startswith(b"\r"):
        return "before-a-comment" if word[1:2] == b"#" else "before-the-word"
    if b"\r" in word:
        return ("between-words" if word.split(b"\r")[0] in commands and not word.endswith(b"\r")
                else "second-at-end-of-word" if text.endswith(b"\r") else "in-the-word")
    return "second-at-end-of-line" if rest.endswith(b"\r") else "in-the-rest"
