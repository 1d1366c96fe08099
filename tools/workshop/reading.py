"""./workshop reading: a reading written into an area of user pages."""
import re

from failures import Failed, WrongUse
from files import area_in, hexed, image_in, shown, write_new, write_over
from refusals import in_words
from seconds import now, number_in

USAGE = "reading AREA.img SECONDS WATTS [--board | --area] [--out FILE]"
ABOUT = "writes a reading as the logger does"
HELP = """
Writes a reading at the start of an area of user pages: the 14 bytes that the corridor screen reads. The rest of the file
stays as it is.

AREA.img     the raw bytes of the area, 14 or more. It is changed where it is; - is standard input, and wants --out
SECONDS      the second of the reading, 0 to 4294967295, as logger and board count them; or `now`, the seconds since 1970, UTC
WATTS        0 to 4294967295
--board      the file is a whole board's image, of 184, 544 or 928 bytes: its user pages are the area, from page 04h on
--area       the file is an area, though it has as many bytes as a whole board
--out FILE   what comes out goes into FILE, and AREA.img stays as it is; a file of that name is replaced

To try it on the board of a day, and see what its screen says a minute later:

    day/play --save /tmp/board.img
    ./workshop reading --board /tmp/board.img 64800 275
    ./workshop screen /tmp/board.img 64860

The exit status is 0; 1 where a file can't be read or written or the area is refused: standard error then says why, and no
file is changed. It is also 1 where this can't be said on standard output, and the reading is then written; 2 where a word
is wrong or the program is not built.
"""

BOARDS = (184, 544, 928)  # the bytes of a whole board
FIRST, BEHIND = 16, 24  # the bytes before its user pages, and those behind them
READING = 14


# ---- the words


def option_in(word, left, options):
    """Takes an option of the words, and its file where it has one, into `options`."""
    if word in options:
        raise WrongUse(f"reading: {word} stands once")
    if word == "--out":
        options[word] = left.pop(0) if left else ""
        if not options[word] or options[word].startswith("-"):
            raise WrongUse("reading: --out wants a file's name behind it")
    elif word in ("--board", "--area"):
        options[word] = True
    else:
        raise WrongUse(f"reading: unknown option: '{word}' (./workshop reading --help says what there is)")


def split(words):
    """The words that are no options, and the options."""
    plain, options, left = [], {}, list(words)
    while left:
        word = left.pop(0)
        if word.startswith("-") and not re.fullmatch("-[0-9]*", word):
            option_in(word, left, options)
        else:
            plain.append(word)
    if "--board" in options and "--area" in options:
        raise WrongUse("reading: a file is a whole board or an area: one of --board and --area")
    return plain, options


def place_of(name, size, options):
    """The place of the area in a file of so many bytes: the first byte, and how many are behind it."""
    if "--board" in options:
        if size not in BOARDS:
            raise Failed(f"{shown(name)}: no board: it has {size} bytes, and a whole board has 184, 544 or 928")
        return FIRST, BEHIND
    if size in BOARDS and "--area" not in options:
        raise Failed(f"{shown(name)}: it has {size} bytes, as a whole board has, whose UID a reading at its start would replace: "
                     "--board writes it at page 04h, --area at the start all the same")
    return 0, 0


def read(words):
    """The file's name and bytes, the place of the area in it, the reading, and the file to be written or nothing."""
    plain, options = split(words)
    if len(plain) < 3:
        missing = ["no area is", "no second is", "no watts are"][len(plain)]
        raise WrongUse(f"reading: {missing} named (./workshop {USAGE})")
    if plain[3:]:
        raise WrongUse(f"reading: a word too many: '{plain[3]}' (./workshop {USAGE})")
    name, second, watts = plain
    second = now() if second == "now" else number_in(second)
    watts = number_in(watts, "watts")
    out = options.get("--out")
    if name == "-" and out is None:
        raise WrongUse("reading: standard input can't be changed where it is: --out FILE names a file for what comes out")
    data = image_in(name) if "--board" in options else area_in(name)
    return name, data, place_of(name, len(data), options), (second, watts), out


# ---- the work


def written(ask, area, second, watts):
    """The area with the reading in it, by the proved program; or the number of the refusal."""
    answer = ask(f"reading {second} {watts} {hexed(area)}")
    told = re.fullmatch("area ([0-9A-F]+)|refused ([0-9]+)", answer)
    if not told:
        raise Failed(f"the program's answer is none of the writer's: {answer}")
    return (bytes.fromhex(told[1]), None) if told[1] else (None, int(told[2]))


def answer(ask, name, data, place, reading, out):
    first, behind = place
    end = len(data) - behind
    area, refusal = written(ask, data[first:end], *reading)
    if refusal is not None:
        raise Failed(f"{shown(name)}: {in_words(refusal)}")
    whole = data[:first] + area + data[end:]
    if out is None:
        write_over(name, whole)
    else:
        write_new(out, whole)
    return f"{shown(name if out is None else out)}: {in_short(reading, first, len(whole) - READING)}"


def in_short(reading, first, others):
    """What was written, and where."""
    second, watts = reading
    rest = "" if not others else "; the other is as it was" if others == 1 else f"; the other {others} are as they were"
    return f"{watts} W of second {second}, {READING} bytes at {'page 04h' if first else 'the start'}{rest}"
