"""The lines of `workshop`, by LINES.md: what the words are behind each command word."""

from lines.words import Table, bytes_in, number_in

# "The longest line is `judge` with the longest words, 18,597 characters"
LONGEST_LINE = 18597
LARGEST_SECOND = 4294967295
LARGEST_IMAGE = 1100


def second_of(word):
    """"SECONDS and WATTS are decimal, of one to ten digits, at most 4294967295" """
    return number_in(word, 10, LARGEST_SECOND)


def image_of(word):
    """"HEX is bytes in pairs of hex digits, or `-` for none"; "An IMAGE, an AREA
    [...] HEX of at most 1,100 bytes". A word is never empty."""
    return b"" if word == b"-" else bytes_in(word, LARGEST_IMAGE)


watts_of, area_of = second_of, image_of

TABLE = Table(LONGEST_LINE, {b"screen": [second_of, image_of], b"reading": [second_of, watts_of, area_of],
                             b"help": []}, ())
