"""Lines that are skipped, and the end of the input, in both programs."""

from lines.words import without_return

RULES = {
    "line.skipped/empty": "Empty lines [...] are skipped and answered by nothing",
    "line.skipped/comment": "lines that begin with `#` are skipped and answered by nothing",
    "line.skipped/long-comment": "A comment may be of any length",
    "line.skipped/comment-odd-bytes": "lines that begin with `#` are skipped, whatever they hold",
    "line.last/without-newline": "a last line without its newline counts",
}


def of_text(text):
    """The rules that a whole text meets by its end."""
    if text and not text.endswith(b"\n"):
        yield "line.last/without-newline"


def of_skipped(line, table):
    """The rules that a skipped line meets."""
    if line == b"":
        yield "line.skipped/empty"
    line = without_return(line)
    if line == b"":
        return
    yield "line.skipped/comment"
    if len(line) > table.longest:
        yield "line.skipped/long-comment"
    if any(byte < 32 or byte > 126 for byte in line):
        yield "line.skipped/comment-odd-bytes"
