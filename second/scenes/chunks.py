"""Input that is read by chunks: lines that lie across two reads or more, and more
lines than sixteen bits count."""

from scenes.lines import LONGEST

CHUNK = 4096
EMPTY_LINES = 32000


def across(s, line, front):
    """A line whose first `front` characters are the last of a chunk. With all of
    them before its end the newline begins the next chunk; with one more, the
    newline ends this one."""
    s.comment_up_to(-front % CHUNK)
    s.say(line)


def split_at_each_place(s):
    """A line cut by the end of a chunk at each of its places: without its front,
    or without its tail, it gets another answer."""
    s.image(45)
    line = b"frame 7 52"
    for front in range(len(line) + 2):
        s.say("field")
        across(s, line, front)


def line_of_length(length):
    """A line of so many characters, with an answer of its own."""
    short = {4: b"stop", 5: b"start", 6: b"shows!", 7: b"send A1", 8: b"read ack", 9: b"read acks"}
    if length in short:
        return short[length]
    data = b"52" * ((length - 8) // 2)
    digits = length - 7 - len(data)
    return b"frame " + b"7".zfill(digits) + b" " + data


def each_length(s):
    """Lines of every length from 4 to 40, each cut in its middle."""
    s.image(45)
    for length in range(4, 41):
        across(s, line_of_length(length), length // 2)


def returns_across_chunks(s):
    """A carriage return that ends a chunk, its newline in the next; one that begins
    a chunk; and one that ends a chunk while its line goes on: it is wrong there."""
    s.image(45)
    for line, front in [(b"read ack\r", 8), (b"read ack\r", 9), (b"read ack\r\r", 9), (b"st\rop", 3)]:
        across(s, line, front)


def long_across_chunks(s):
    """Long lines over several chunks. Images, which answer how long they are; the
    longest line, which is an error without its front; and lines that are an
    error because they are one byte too long: without a part of them they aren't."""
    for size in (45, 135, 231):
        s.raw_image(s.dice.bytes(4 * size + 4))
    too_long = b"frame 512 " + b"00" * 8193
    for line, front in [(LONGEST, 7), (too_long, 11), (too_long, len(too_long) % CHUNK)]:
        across(s, line, front)
        s.say("read ack")
    s.image(45)


def many_turns(s):
    """More lines than sixteen bits count, most of them empty: the tag is in
    ACTIVE, authenticated and in the middle of a write before and behind them."""
    s.image(45)
    s.active(authenticated=True)
    s.address(0x4010)
    s.send(0x5A, 0xA5)
    for _ in range(EMPTY_LINES):
        s.say("")
    s.send(0xC3)
    s.look_at_radio()
    s.look_at_bus()


def stored(s):
    split_at_each_place(s)
    each_length(s)
    returns_across_chunks(s)
    long_across_chunks(s)


RARE = [long_across_chunks, returns_across_chunks]
