"""Wrong by hand: lines that are read otherwise than LINES.md says, in both programs."""

DROPPED = "return line[:-1] if line.endswith(b\"\\r\") else line"
UNKNOWN = "    if word not in table.arguments:"


def of_lines(longest):
    """Those of a program whose longest line has so many characters."""
    return {
        "all carriage returns at the end of a line are dropped": (
            "lines.words", DROPPED, "return line.rstrip(b'\\r')"),
        "carriage returns are dropped anywhere": (
            "lines.words", DROPPED, "return line.replace(b'\\r', b'')"),
        "white space at the end of a line is dropped": (
            "lines.words", DROPPED, "return line.rstrip()"),
        "an empty line with a carriage return is an error": (
            "lines.answering", "if is_skipped(text):", "if is_skipped(line):"),
        "the carriage return counts for a line's length": (
            "lines.answering", "command_of(text, ", f"command_of(text if len(line) <= {longest} else line, "),
        "a comment that is too long is an error": (
            "lines.words", 'text.startswith(b"#")', f'text.startswith(b"#") and len(text) <= {longest}'),
        "an unknown word goes before a line that is too long": (
            "lines.words", "if len(text) > table.longest:",
            "if len(text) > table.longest and text.split(b' ')[0] in table.arguments:"),
        "a fault behind the word goes before a line that is too long": (
            "lines.words", "if len(text) > table.longest:",
            "if len(text) > table.longest and b'' not in text.split(b' ')[1:]:"),
        "a space too many goes before an unknown word": (
            "lines.words", UNKNOWN,
            "    if b'' in rest:\n        raise BadLine(NOT_HOW)\n" + UNKNOWN),
        "an odd byte goes before an unknown word": (
            "lines.words", UNKNOWN,
            "    if any(byte < 32 or byte > 126 for byte in text):\n        raise BadLine(NOT_HOW)\n"
            + UNKNOWN),
        "an empty first word is not how a command is written": (
            "lines.words", UNKNOWN,
            "    if word == b'':\n        raise BadLine(NOT_HOW)\n" + UNKNOWN),
        "a capital in a command word is not how it is written": (
            "lines.words", "raise BadLine(NO_SUCH_COMMAND)",
            "raise BadLine(NOT_HOW if word.lower() in table.arguments else NO_SUCH_COMMAND)"),
    }
