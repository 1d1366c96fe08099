"""Wrong by hand: the lines `reading`, read otherwise than LINES.md says, and what is
kept of them."""

from wrong.workshop.lines_by_hand import words

ALIKE = "watts_of, area_of = second_of, image_of"
KINDS = 'b"reading": [second_of, watts_of, area_of]'
LENT = "lent = bytearray(area)"
SHOWN = "word, watts = screen(present, image)"
HELP = "commands: screen SECONDS IMAGE, reading SECONDS WATTS AREA, help"


def watts(expression):
    """Another way to read WATTS, and not SECONDS."""
    return "workshop.reading", ALIKE, f"watts_of, area_of = lambda word: {expression}, image_of"


def area(expression):
    """Another way to read AREA, and not IMAGE."""
    return "workshop.reading", ALIKE, f"watts_of, area_of = second_of, lambda word: {expression}"


def most_bytes(most):
    return area(f'b"" if word == b"-" else bytes_in(word, {most})')


def seconds(expression):
    """Another way to read the SECONDS of `reading`, and not of `screen`."""
    return "workshop.reading", KINDS, f'b"reading": [lambda word: {expression}, watts_of, area_of]'


def reading_words(statement):
    """Something is done with the words behind `reading` before they are judged."""
    return words(f"if word == b'reading':\n        {statement}")


def first_play(statement):
    """Something is done before each play of a `reading` line."""
    return "workshop.player", LENT, f"{statement}\n        {LENT}"


def screens_then(arguments):
    """What a `screen` line gets behind a `reading` line; `lent` is the area as it is
    left."""
    return ("workshop.player", "write(seconds, watts, lent)",
            "write(seconds, watts, lent)\n"
            f"        self.play_screen = lambda present, image: Player.play_screen(self, {arguments})")


def readings_then(arguments):
    """What a `reading` line gets behind a `screen` line."""
    return ("workshop.player", SHOWN, "self.play_reading = lambda seconds, watts, area: Player.play_reading(\n"
            f"            self, {arguments})\n        {SHOWN}")


def helped(text):
    return "workshop.player", HELP, text


NUMBERS_BY_HAND = {
    "eleven digits of watts are taken": watts("number_in(word, 11, LARGEST_SECOND)"),
    "nine digits of watts are the most": watts("number_in(word, 9, LARGEST_SECOND)"),
    "five digits of watts are the most": watts("number_in(word, 5, LARGEST_SECOND)"),
    "zeros before watts aren't counted": watts("number_in(word.lstrip(b'0') or b'0', 10, LARGEST_SECOND)"),
    "zeros before watts are wrong": watts(
        "number_in(word if word == b'0' else b'-' * word.startswith(b'0') + word, 10, LARGEST_SECOND)"),
    "zeros before watts make them octal": watts(
        "int(word, 8) if word[:1] == b'0' and word.isdigit() and not word.strip(b'01234567') and len(word) < 11"
        " else number_in(word, 10, LARGEST_SECOND)"),
    "4294967296 watts are taken as 0": watts("number_in(word, 10, LARGEST_SECOND + 1) % 2 ** 32"),
    "watts that are too large wrap around": watts("number_in(word, 10, 10 ** 10) % 2 ** 32"),
    "watts that are too large are the largest": watts("min(number_in(word, 10, 10 ** 10), LARGEST_SECOND)"),
    "4294967295 watts are too many": watts("number_in(word, 10, LARGEST_SECOND - 1)"),
    "2147483648 watts are too many": watts("number_in(word, 10, 2 ** 31 - 1)"),
    "65536 watts are too many": watts("number_in(word, 10, 65535)"),
    "`-` is 0 watts": watts("0 if word == b'-' else second_of(word)"),
    "`+` before watts is taken": watts("second_of(word.removeprefix(b'+') or b'+')"),
    "`-` before watts is taken": watts("second_of(word.removeprefix(b'-') or b'-')"),
    "watts are read in hex": watts("int(word, 16) if len(word) < 9 and word.isalnum() else second_of(word)"),
    "watts end at a comma": watts("second_of(word.partition(b',')[0] or word)"),
    "eleven digits of a reading's seconds are taken": seconds("number_in(word, 11, LARGEST_SECOND)"),
    "five digits of a reading's seconds are the most": seconds("number_in(word, 5, LARGEST_SECOND)"),
    "a reading's seconds that are too large wrap around": seconds("number_in(word, 10, 10 ** 10) % 2 ** 32"),
    "a reading's 2147483648 seconds are too many": seconds("number_in(word, 10, 2 ** 31 - 1)"),
    "`-` is a reading's second 0": seconds("0 if word == b'-' else second_of(word)"),
}

AREAS_BY_HAND = {
    "`-` is no area": area("bytes_in(word, LARGEST_IMAGE)"),
    "`--` is an area": area('b"" if set(word) == set(b"-") else image_of(word)'),
    "an area ends at `-`": area('image_of(word.partition(b"-")[0] or b"-")'),
    "1,101 bytes of an area are taken": most_bytes("LARGEST_IMAGE + 1"),
    "any number of bytes of an area is taken": most_bytes("99999"),
    "1,100 bytes of an area are too many": most_bytes("LARGEST_IMAGE - 1"),
    "1,024 bytes of an area are the most": most_bytes("1024"),
    "888 bytes of an area are the most": most_bytes("888"),
    "an area that is too long is 23": area('b"" if len(word) > 2200 else image_of(word)'),
    "an area that is too long is cut": area("image_of(word[:2200])"),
    "an area that is too short is no area": area("image_of(word if len(word) > 27 else b'0')"),
    "an area without bytes is no area": area("image_of(word if word != b'-' else b'0')"),
    "an area in small letters is no area": area("image_of(word if word == word.upper() else b'0')"),
    "an area in letters of both kinds is no area": area(
        "image_of(word if word in (word.upper(), word.lower()) else b'0')"),
    "an odd digit of an area is passed over": area("image_of(word[:len(word) // 2 * 2] or word)"),
    "0x before an area is passed over": area('image_of(word.removeprefix(b"0x") or b"0")'),
    "an area is filled up to fourteen bytes": area("image_of(word).ljust(14, b'\\0')"),
    "an area is filled up to a page": area("image_of(word) + bytes(-len(image_of(word)) % 4)"),
}

WORDS_BY_HAND = {
    "the longest line is that of `reading`": ("workshop.reading", "Table(LONGEST_LINE, ", "Table(2230, "),
    "a `reading` line without watts has 0": reading_words("rest[1:1] = [b'0'] if len(rest) == 2 else []"),
    "a `reading` line without an area has none": reading_words("rest += [b'-'] if len(rest) == 2 else []"),
    "a `reading` line without anything has 0": reading_words("rest = rest or [b'0', b'0', b'-']"),
    "an empty area is none": reading_words("rest = rest[:2] + [b'-'] if rest[2:] == [b''] else rest"),
    "words behind an area are passed over": reading_words("rest = rest[:3]"),
    "words behind an area belong to it": reading_words("rest[2:] = [b''.join(rest[2:])] if rest[2:] else []"),
    "an area may come first": reading_words(
        "rest = rest[1:] + rest[:1] if rest and len(rest[0]) > 20 else rest"),
    "an area may come before the watts": reading_words(
        "rest = [rest[0], rest[2], rest[1]] if len(rest) == 3 and len(rest[1]) > 20 else rest"),
    "watts are told before seconds": reading_words("rest[:2] = rest[1::-1]"),
    "`read` is enough": words("word = b'reading' if word == b'read' else word"),
    "`write` is a command": words("word = b'reading' if word == b'write' else word"),
    "`area` is a command": words("word = b'reading' if word == b'area' else word"),
    "`Reading` is a command": words("word = b'reading' if word == b'Reading' else word"),
    "`screen` takes watts too": words(
        "rest = [rest[0], rest[2]] if word == b'screen' and len(rest) == 3 else rest"),
    "a `screen` line with watts is a `reading` line": words(
        "word = b'reading' if word == b'screen' and len(rest) == 3 else word"),
    "a `reading` line without watts is a `screen` line": words(
        "word = b'screen' if word == b'reading' and len(rest) == 2 else word"),
    "`help` doesn't name `reading`": helped("commands: screen SECONDS IMAGE, help"),
    "`help` names `reading` first": helped("commands: reading SECONDS WATTS AREA, screen SECONDS IMAGE, help"),
    "`help` names an image for an area": helped(HELP.replace("AREA", "IMAGE")),
}

KEPT_BY_HAND = {
    "a reading has the second of the one before": first_play(
        "seconds, self.kept = vars(self).get('kept', seconds), seconds"),
    "a reading has the watts of the one before": first_play(
        "watts, self.kept = vars(self).get('kept', watts), watts"),
    "a reading is written into the area before": first_play(
        "area, self.kept = vars(self).get('kept', area), area"),
    "the first area is lent for ever": first_play("area = vars(self).setdefault('kept', area)"),
    "without an area that of the line before is lent": first_play(
        "area = self.kept = area or vars(self).get('kept', area)"),
    "an area that is too short keeps the end of the one before": first_play(
        "area = self.kept = area + vars(self).get('kept', b'')[len(area):14]"),
    "a shorter area keeps the end of the one before": first_play(
        "area = self.kept = area + vars(self).get('kept', b'')[len(area):]"),
    "a longer area keeps the front of the rest before": first_play(
        "self.kept, kept = area, vars(self).get('kept', b'')\n"
        "        area = area[:14] + kept[14:] + area[len(kept):] if len(area) > len(kept) > 14 else area"),
    "the second of a reading never goes back": first_play(
        "seconds = self.kept = max(seconds, vars(self).get('kept', 0))"),
    "the watts of readings are added up": first_play(
        "watts = self.kept = (watts + vars(self).get('kept', 0)) % 2 ** 32"),
    "the same area is answered as before": first_play(
        "seconds, watts = vars(self).setdefault('kept', {}).setdefault(area, (seconds, watts))"),
    "the same reading is answered as before": first_play(
        "area = vars(self).setdefault('kept', {}).setdefault((seconds, watts), area)"),
    "a reading told twice is written a second later": first_play(
        "self.kept, kept = (seconds, watts, area), vars(self).get('kept')\n"
        "        seconds = seconds + 1 if kept == self.kept and seconds < 2 ** 32 - 1 else seconds"),
    "behind an area that is too short the next is too": first_play(
        "area, self.kept = b'' if vars(self).get('kept') else area, len(area) < 14"),
    "a reading over another isn't written": first_play(
        "kept, self.kept = vars(self).get('kept', ()), (seconds, watts)\n"
        "        seconds, watts = kept if kept and area.startswith(b'\\3\\x0B') else (seconds, watts)"),
    "a screen has the second of the reading before": screens_then("seconds, image"),
    "a screen shows the area before": screens_then("present, bytes(lent)"),
    "a screen shows what was written before": screens_then(
        "present, image[:16] + bytes(lent) + image[16 + len(lent):]"),
    "a screen shows what was written into its area before": screens_then(
        "present, image[:16] + bytes(lent) + image[16 + len(lent):] if image[16:].startswith(area) else image"),
    "a reading has the second of the screen before": readings_then("present, watts, area"),
    "a reading is written into the image before": readings_then("seconds, watts, image"),
    "a reading is written into the user pages before": readings_then(
        "seconds, watts, image[16:160] if len(area) == 144 else area"),
    "without an area the image before is lent": readings_then("seconds, watts, area or image"),
}

READING_LINES_BY_HAND = {**NUMBERS_BY_HAND, **AREAS_BY_HAND, **WORDS_BY_HAND, **KEPT_BY_HAND}
