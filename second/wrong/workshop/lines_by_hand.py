"""Wrong by hand: the lines of `workshop`, read otherwise than LINES.md says."""

from workshop.reading import LONGEST_LINE
from wrong.by_hand_lines import of_lines

BAD_DIGIT, ODD, TOO_LONG = 'word.strip(b"0123456789ABCDEFabcdef")', "len(word) % 2", "len(word) > 2 * most"
HEX_BYTES = (f"if {BAD_DIGIT} or {ODD} or {TOO_LONG}:\n        raise BadLine(NOT_HOW)\n"
             '    return bytes.fromhex(word.decode("ascii"))')
IMAGE = 'return b"" if word == b"-" else bytes_in(word, LARGEST_IMAGE)'
SPLIT = 'word, *rest = text.split(b" ")'
PLAYED = "word, watts = screen(present, image)"
ANSWERED = 'return f"{word} {watts}"'


def number(expression):
    """Another way to read SECONDS."""
    return "workshop.reading", "number_in(word, 10, LARGEST_SECOND)", expression


def image(expression):
    """Another way to read IMAGE."""
    return "workshop.reading", IMAGE, f"return {expression}"


def most_bytes(most):
    return image(f'b"" if word == b"-" else bytes_in(word, {most})')


def hex_bytes(wrong, expression='bytes.fromhex(word.decode("ascii"))'):
    """Another test of what is wrong with an image, and other bytes made of it."""
    return "lines.words", HEX_BYTES, f"if {wrong}:\n        raise BadLine(NOT_HOW)\n    return {expression}"


def words(statement):
    """Something is done with the words before they are judged."""
    return "lines.words", SPLIT, f"{SPLIT}\n    {statement}"


def longest_line(longest):
    return "workshop.reading", "Table(LONGEST_LINE, ", f"Table({longest}, "


def first_play(statement):
    """Something is done before each play of a `screen` line."""
    return "workshop.player", PLAYED, f"{statement}\n        {PLAYED}"


def answered(expression):
    """The answer is written otherwise."""
    return "workshop.player", ANSWERED, f"return {expression}"


NUMBERS_BY_HAND = {
    "eleven digits are taken": number("number_in(word, 11, LARGEST_SECOND)"),
    "any number of digits is taken": number("number_in(word, 99999, LARGEST_SECOND)"),
    "nine digits are the most": number("number_in(word, 9, LARGEST_SECOND)"),
    "five digits are the most": number("number_in(word, 5, LARGEST_SECOND)"),
    "zeros before a number aren't counted": number("number_in(word.lstrip(b'0') or b'0', 10, LARGEST_SECOND)"),
    "leading zeros are wrong": number(
        "number_in(word if word == b'0' else b'-' * word.startswith(b'0') + word, 10, LARGEST_SECOND)"),
    "nothing but zeros is wrong": number("number_in(word if word.strip(b'0') else b'-', 10, LARGEST_SECOND)"),
    "4294967296 is taken": number("number_in(word, 10, LARGEST_SECOND + 1)"),
    "what is too large is taken": number("number_in(word, 10, 10 ** 10)"),
    "what is too large wraps around": number("number_in(word, 10, 10 ** 10) % 2 ** 32"),
    "what is too large is taken as the largest": number("min(number_in(word, 10, 10 ** 10), LARGEST_SECOND)"),
    "4294967295 is too large": number("number_in(word, 10, LARGEST_SECOND - 1)"),
    "2147483648 is too large": number("number_in(word, 10, 2 ** 31 - 1)"),
    "`+` before a number is taken": number("number_in(word.removeprefix(b'+'), 10, LARGEST_SECOND)"),
    "`-` before a number is taken": number("number_in(word.removeprefix(b'-') or b'-', 10, LARGEST_SECOND)"),
    "`-` is the second 0": number("0 if word == b'-' else number_in(word, 10, LARGEST_SECOND)"),
    "seconds are written in hex": number(
        "int(word, 16) if len(word) < 9 and word.isalnum() else number_in(word, 10, LARGEST_SECOND)"),
    "any character is a digit of a number": number(
        "sum((byte - 48) * 10 ** at for at, byte in enumerate(word[::-1])) % 2 ** 32"),
    "letters behind a number are passed over": number(
        "number_in(word.rstrip(b'ABCDEFabcdefhx') or word, 10, LARGEST_SECOND)"),
}

IMAGES_BY_HAND = {
    "`-` is not taken": image("bytes_in(word, LARGEST_IMAGE)"),
    "`--` is taken": image('b"" if set(word) == set(b"-") else bytes_in(word, LARGEST_IMAGE)'),
    "what begins with `-` is none": image('b"" if word.startswith(b"-") else bytes_in(word, LARGEST_IMAGE)'),
    "what ends with `-` is taken without it": image(
        'bytes_in(word.removesuffix(b"-"), LARGEST_IMAGE)'),
    "an empty image is none": words('rest = rest[:1] + [b"-"] if rest[1:] == [b""] else rest'),
    "an image that isn't there is none": words(
        'rest += [b"-"] if word == b"screen" and len(rest) == 1 else []'),
    "1,101 bytes are taken": most_bytes("LARGEST_IMAGE + 1"),
    "any number of bytes is taken": most_bytes("99999"),
    "1,100 bytes are too many": most_bytes("LARGEST_IMAGE - 1"),
    "1,024 bytes are the most": most_bytes("1024"),
    "928 bytes are the most": most_bytes("928"),
    "an image that is too long is 1": image(
        'b"" if word == b"-" or len(word) > 2200 else bytes_in(word, LARGEST_IMAGE)'),
    "an image that is too long is cut": image('b"" if word == b"-" else bytes_in(word[:2200], LARGEST_IMAGE)'),
    "small letters are wrong": hex_bytes(f"{BAD_DIGIT} or word != word.upper() or {ODD} or {TOO_LONG}"),
    "capitals are wrong": hex_bytes(f"{BAD_DIGIT} or word != word.lower() or {ODD} or {TOO_LONG}"),
    "letters of both kinds are wrong": hex_bytes(
        f"{BAD_DIGIT} or word not in (word.lower(), word.upper()) or {ODD} or {TOO_LONG}"),
    "letters up to Z are digits": hex_bytes(
        f"not word.isalnum() or {ODD} or {TOO_LONG}",
        "bytes(int(word[at:at + 1], 36) % 16 * 16 + int(word[at + 1:at + 2], 36) % 16\n"
        "                 for at in range(0, len(word), 2))"),
    "an odd digit at the end is passed over": hex_bytes(
        f"{BAD_DIGIT} or len(word) // 2 > most", 'bytes.fromhex(word[:len(word) // 2 * 2].decode("ascii"))'),
    "an odd digit at the end is a byte": hex_bytes(
        f"{BAD_DIGIT} or {TOO_LONG}",
        'bytes.fromhex((word[:-1] + b"0" * (len(word) % 2) + word[-1:]).decode("ascii"))'),
    "the two digits of a byte are exchanged": hex_bytes(
        f"{BAD_DIGIT} or {ODD} or {TOO_LONG}", 'bytes.fromhex(word[::-1].decode("ascii"))[::-1]'),
    "0x before an image is passed over": image(
        'b"" if word == b"-" else bytes_in(word.removeprefix(b"0x"), LARGEST_IMAGE)'),
}

WORDS_BY_HAND = {
    "the longest line is that of `corridor`": longest_line("16397"),
    "the longest line is that of `screen`": longest_line("2218"),
    "no line is too long": longest_line("10 ** 9"),
    "words may stand apart by several spaces": ("lines.words", SPLIT, "word, *rest = text.split() or [b'']"),
    "words that are too many are passed over": (
        "lines.words", "missing not in (", "missing > 0 and missing not in ("),
    "`help` takes any words": ("lines.words", "missing not in (", "word != b'help' and missing not in ("),
    "`help` takes a space behind it": words("rest = [] if text == b'help ' else rest"),
    "capitals in a command word are taken": words("word = word.lower()"),
    "a part of a command word is enough": words(
        "word = ([command for command in table.arguments if word and command.startswith(word)] or [word])[0]"),
    "more than a command word is enough": words(
        "word = ([command for command in table.arguments if word.startswith(command)] or [word])[0]"),
    "a space before the command word is passed over": (
        "lines.words", SPLIT, "word, *rest = text.removeprefix(b' ').split(b' ')"),
    "an image may come first": words("rest = rest[::-1] if len(rest) == 2 and len(rest[0]) > 20 else rest"),
    "`image` is a command, at second 5": words(
        "word, rest = (b'screen', [b'5', *rest]) if word == b'image' else (word, rest)"),
}

ANSWERS_BY_HAND = {
    "watts are written in hex": answered('f"{word} {watts:X}"'),
    "watts are written with ten digits": answered('f"{word} {watts:010}"'),
    "watts are written with commas": answered('f"{word} {watts:,}"'),
    "watts have a sign": answered('f"{word} {(watts + 2 ** 31) % 2 ** 32 - 2 ** 31}"'),
    "watts of 0 are left out": answered('f"{word} {watts}" if watts else word'),
    "the answer ends with a space": answered('f"{word} {watts} "'),
    "the answer begins with a capital": answered('f"{word.title()} {watts}"'),
}

KEPT_BY_HAND = {
    "the second of the line before is taken": first_play(
        "present, self.kept = vars(self).get('kept', present), present"),
    "the image of the line before is taken": first_play(
        "image, self.kept = vars(self).get('kept', image), image"),
    "the first image is taken for ever": first_play("image = vars(self).setdefault('kept', image)"),
    "without an image that of the line before is taken": first_play(
        "image = self.kept = image or vars(self).get('kept', image)"),
    "a shorter image keeps the end of the one before": first_play(
        "image = self.kept = image + vars(self).get('kept', b'')[len(image):]"),
    "a right image keeps the end of the one before": first_play(
        "self.kept = image + vars(self).get('kept', b'')[len(image):]\n"
        "        image = self.kept if len(image) == 184 else image"),
    "the second never goes back": first_play("present = self.kept = max(present, vars(self).get('kept', 0))"),
    "the same second is answered as before": (
        "workshop.player", PLAYED,
        PLAYED + "\n        word = vars(self).setdefault('kept', {}).setdefault(present, word)"),
    "the same image is answered as before": (
        "workshop.player", PLAYED,
        PLAYED + "\n        word = vars(self).setdefault('kept', {}).setdefault(image, word)"),
    "watts are added up": answered(
        'f"{word} {vars(self).setdefault(\'sum\', []).append(watts) or sum(self.sum) % 2 ** 32}"'),
    "behind a wrong image the next is wrong too": first_play(
        "image, self.kept = b'' if vars(self).get('kept') else image, len(image) not in (184, 544, 928)"),
}

LINES_BY_HAND = {**of_lines(LONGEST_LINE), **NUMBERS_BY_HAND, **IMAGES_BY_HAND, **WORDS_BY_HAND,
                 **ANSWERS_BY_HAND, **KEPT_BY_HAND}
