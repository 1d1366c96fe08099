"""The lines of LINES.md."""

from lines.reading import LARGEST_FRAME, LARGEST_IMAGE, LARGEST_NUMBER, LONGEST_LINE
from rules import skipped
from rules.naming import each
from tag.regions import MEMORY_LENGTH

RULES = {
    **each("line", ["image", "image-alone", "buffer", "field", "frame", "frame-without-hex",
                    "parity", "parity-without-hex", "start", "stop", "send", "read-ack",
                    "read-nak", "show", "show-empty", "show-page", "tag", "bus", "memory", "recall", "help"],
           "the table of lines: {}"),
    **each("line.event", ["0", "1", "2", "3", "4", "other"],
           "`event N HH`: the two-wire event of number N ({})"),
    **skipped.RULES,
    "form.hex/lower": "Bytes are pairs of hex digits, either case in, capitals out",
    "form.hex/upper": "Bytes are pairs of hex digits, either case in, capitals out",
    "form.hex/mixed": "Bytes are pairs of hex digits, either case in, capitals out",
    **each("form.digits", range(1, 6), "Numbers are decimal, of one to five digits ({})"),
    "form.number/leading-zero": "leading zeros are fine",
    "form.number/65535": "at most 65535",
    "limit/image-1024": "takes this image, of 0 to 1,024 bytes",
    "limit/buffer-0": "an answer buffer of N bytes, 0 to 1,024",
    "limit/buffer-1023": "an answer buffer of N bytes, 0 to 1,024",
    "limit/buffer-1024": "an answer buffer of N bytes, 0 to 1,024",
    "limit/hex-8192": "HEX may hold up to 8,192 bytes for a frame",
    "limit/line-16397": "the longest line is `parity 65535` with them: 16,397 characters",
    "image.resets/radio": "the tag record becomes field off",
    "image.resets/bus": "the bus record at rest with nothing gathered and counter 4000h",
    "image.resets/not-the-buffer": "the buffer's length stays",
    "image.resets/not-the-memory": "Q-1: An `image` line leaves it as it is",
    "image.resets/not-the-memory-length": "Q-1: An `image` line leaves it as it is: its length too",
}


def met(step):
    if step.word is None:
        return
    words = step.text.decode("ascii").split(" ")
    yield from of_word(step, words)
    yield from of_limits(step)
    hex_word = {"image": 1, "frame": 2, "parity": 2, "send": 1, "event": 2, "show": 1, "recall": 1}.get(words[0])
    if hex_word and hex_word < len(words):
        yield from of_hex(words[hex_word])
    number_word = {"buffer": 1, "frame": 1, "parity": 1, "event": 1, "memory": 1, "recall": 2}.get(words[0])
    if number_word:
        yield from of_number(words[number_word])


def of_word(step, words):
    if step.word == "image":
        yield "line/image" if step.arguments else "line/image-alone"
        yield from of_new_image(step.before)
    elif step.word in ("frame", "parity"):
        yield f"line/{step.word}" + ("" if len(words) == 3 else "-without-hex")
    elif step.word == "event":
        yield f"line.event/{step.number if step.number < 5 else 'other'}"
    elif step.word == "read":
        yield f"line/read-{words[1]}"
    elif step.word == "show" and step.arguments:
        yield "line/show-page"
    elif step.word == "show":
        yield "line/show" if step.image.everything() else "line/show-empty"
    elif not step.answer.startswith(b"error"):
        yield f"line/{step.word}"


def of_new_image(before):
    if before.tag.radio.state != "IDLE":
        yield "image.resets/radio"
    if before.tag.bus.phase != "rest" or before.tag.bus.counter != 0x4000:
        yield "image.resets/bus"
    if before.buffer_length != 1024:
        yield "image.resets/not-the-buffer"
    if before.tag.data_memory.data.strip(b"\0"):
        yield "image.resets/not-the-memory"
    if len(before.tag.data_memory.data) != MEMORY_LENGTH:
        yield "image.resets/not-the-memory-length"


def of_limits(step):
    if step.word == "image" and step.arguments and len(step.arguments[0]) == LARGEST_IMAGE:
        yield "limit/image-1024"
    if step.word == "buffer" and step.arguments[0] in (0, 1023, 1024):
        yield f"limit/buffer-{step.arguments[0]}"
    if step.word in ("frame", "parity") and len(step.data) == LARGEST_FRAME:
        yield "limit/hex-8192"
        if len(step.line) == LONGEST_LINE:
            yield "limit/line-16397"


def of_hex(word):
    if word != word.upper():
        yield "form.hex/lower" if word == word.lower() else "form.hex/mixed"
    elif word != word.lower():
        yield "form.hex/upper"


def of_number(word):
    yield f"form.digits/{len(word)}"
    if len(word) > 1 and word[0] == "0":
        yield "form.number/leading-zero"
    if int(word) == LARGEST_NUMBER:
        yield "form.number/65535"
