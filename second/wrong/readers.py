"""Wrong by reading: programs that read their input by chunks, and lose some of it.

Each wrong reader takes the text and gives the lines that it makes of it. What
plays the lines is right.
"""

from lines.words import lines_of
from wrong.trial import Difference

CHUNK = 4096
MOST_TURNS = 65536


def chunks_of(text):
    return [text[start:start + CHUNK] for start in range(0, len(text), CHUNK)]


def front_lost(text):
    """Of a line that lies across two reads, only what the last read brought is taken."""
    for chunk in chunks_of(text):
        *whole, last = chunk.split(b"\n")
        yield from whole
    if last:
        yield last


def tail_lost(text):
    """Of a line that lies across two reads, only what the first read brought is taken."""
    inside = False
    for chunk in chunks_of(text):
        lines = chunk.split(b"\n")
        if inside:
            lines = lines[1:]
        yield from lines_of(b"\n".join(lines))
        inside = not chunk.endswith(b"\n")


def cut_in_two(text):
    """A read ends a line."""
    for chunk in chunks_of(text):
        yield from lines_of(chunk)


def two_reads_at_most(text):
    """Of a line that lies across more than two reads, what the last two brought is taken."""
    for line, start in lines_and_starts(text):
        last_read = (start + len(line)) // CHUNK
        yield line[max(0, (last_read - 1) * CHUNK - start):]


def first_two_reads_at_most(text):
    """Of a line that lies across more than two reads, what the first two brought is taken."""
    for line, start in lines_and_starts(text):
        yield line[:(start // CHUNK + 2) * CHUNK - start]


def lines_and_starts(text):
    start = 0
    for line in lines_of(text):
        yield line, start
        start += len(line) + 1


def byte_lost(place):
    """A byte of each read is lost."""
    def read(text):
        return lines_of(b"".join(chunk[:place] + chunk[place + 1:] if place >= 0 else chunk[:place]
                                 for chunk in chunks_of(text)))
    return read


def newline_lost(place):
    """A newline at this place of a read is not seen."""
    def read(text):
        chunks = chunks_of(text)
        for number, chunk in enumerate(chunks):
            if len(chunk) == CHUNK and chunk[place] == ord("\n"):
                chunks[number] = chunk[1:] if place == 0 else chunk[:-1]
        return lines_of(b"".join(chunks))
    return read


def last_line_lost(text):
    """A last line without its newline isn't answered."""
    return text.split(b"\n")[:-1]


def long_line_cut(longest):
    """A line that is too long is cut, and what is left is taken."""
    return lambda text: [line[:longest] for line in lines_of(text)]


def long_line_in_parts(longest):
    """What a line has beyond the longest is taken for the next line."""
    def read(text):
        for line in lines_of(text):
            yield line[:longest]
            if len(line) > longest and not line.startswith(b"#"):
                yield line[longest:]
    return read


def long_comment_refused(longest):
    """A comment that is longer than the longest line is answered."""
    return lambda text: [b"error" if len(line) > longest and line.startswith(b"#") else line
                         for line in lines_of(text)]


def turns_end(text):
    """After so many lines the program ends."""
    return lines_of(text)[:MOST_TURNS]


def return_stays_at_the_end(text):
    """A carriage return is dropped before a newline, and not before the end."""
    return lines_of(text + b"\r" if text.endswith(b"\r") else text)


def return_stays_in_another_read(text):
    """A carriage return is dropped only if the same read brought its newline."""
    for line, start in lines_and_starts(text):
        apart = line.endswith(b"\r") and (start + len(line)) % CHUNK == 0
        yield line + b"\r" if apart else line


def return_lost_at_the_end_of_a_read(text):
    """A carriage return at the end of a read is dropped, wherever in its line."""
    return lines_of(b"".join(chunk.removesuffix(b"\r") for chunk in chunks_of(text)))


def return_ends_a_line(text):
    """A carriage return ends a line, as a newline does."""
    return lines_of(text.replace(b"\r", b"\n"))


def empty_line_ends(text):
    """An empty line ends the program."""
    lines = lines_of(text)
    return lines[:lines.index(b"")] if b"" in lines else lines


READERS = {
    "a line across two reads loses its front": front_lost,
    "a line across two reads loses its tail": tail_lost,
    "a line across two reads becomes two lines": cut_in_two,
    "a line across many reads keeps the last two": two_reads_at_most,
    "a line across many reads keeps the first two": first_two_reads_at_most,
    "the last byte of a read is lost": byte_lost(-1),
    "the first byte of a read is lost": byte_lost(0),
    "a newline at the end of a read is lost": newline_lost(-1),
    "a newline at the start of a read is lost": newline_lost(0),
    "a last line without its newline is lost": last_line_lost,
    "the program ends after 65,536 lines": turns_end,
    "an empty line ends the program": empty_line_ends,
    "a carriage return before the end of the input stays": return_stays_at_the_end,
    "a carriage return in another read than its newline stays": return_stays_in_another_read,
    "a carriage return at the end of a read is dropped": return_lost_at_the_end_of_a_read,
    "a carriage return ends a line": return_ends_a_line,
}


def readers_of(longest):
    """The wrong readers of a program whose longest line has so many characters."""
    return {
        **READERS,
        "a line that is too long is cut and taken": long_line_cut(longest),
        "a line that is too long is cut behind a carriage return and taken": long_line_cut(longest + 1),
        "the rest of a line that is too long is taken": long_line_in_parts(longest),
        "a long comment is refused": long_comment_refused(longest),
    }


def try_reader(record, text, reader, player):
    """The first Difference of a wrong reader; or None."""
    due = [place for place, answer in enumerate(record.answers) if answer is not None]
    given = (answer for answer in map(player.answer, reader(text)) if answer is not None)
    for place in due:
        answer = next(given, b"(end of the answers)")
        if answer != record.answers[place]:
            return Difference(place, answer)
    more = next(given, None)
    return None if more is None else Difference(len(record.lines) - 1, more)
