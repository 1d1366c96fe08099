"""The numbers of refusals in words."""

MEANINGS = {
    1: "no image: an image has 184, 544 or 928 bytes",
    20: "there is no message (block 03h) in its user pages",
    21: "a block's length, or the bytes that it counts, passes its user pages",
    22: "its first message (block 03h) is not a reading: D5 00 08 and eight bytes are wanted",
    23: "no room for a reading: it has under 14 bytes",
}


def in_words(number):
    return f"refused ({number}): {MEANINGS.get(number, 'a number that has no words here')}"
