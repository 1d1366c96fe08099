"""Wrong by hand: mistakes about the characters and the place of the ASCII mirror, document
02, Q-3."""

# tag.image
BIT_OF_UID, BIT_OF_COUNTER = "self.mirror_bits()[6] == 1", "self.mirror_bits()[7] == 1"
BITS = f"return {BIT_OF_UID}\n\n    def mirrors_counter(self):\n        return {BIT_OF_COUNTER}"
BYTE_0 = "BITS_OF_BYTE[self.pages[self.layout.settings[0]][0]]"
PAGE = "page = self.pages[self.layout.settings[0]][2]"
BYTE_IN_PAGE = "2 * self.mirror_bits()[5] + self.mirror_bits()[4]"

# tag.mirror
MISPLACED = "    if not is_in_user_pages(image, start, len(text)):\n        return {}\n"
FITS = "start >= 4 * 0x04 and start + length <= 4 * image.layout.lock_page"
END = "4 * image.layout.lock_page"
GOES_TOO_FAR = f"start + len(text) > {END}"
NONE_IF_BELOW = ["if start < 16:", "    return {}"]
NONE_IF_TOO_FAR = [f"if {GOES_TOO_FAR}:", "    return {}"]
WITHHELD = "image.mirrors_counter() and not radio.may_tell_counter()"
CHARACTERS_FROM_START = 'enumerate(text.encode("ascii"), start)'
PLACED = f"dict({CHARACTERS_FROM_START})"
UID = "bytes(image.uid()).hex().upper()"
COUNTER = 'f"{image.counter():06X}"'
BETWEEN = 'return "x".join(parts)'


def text_is(right, wrong):
    """Other characters."""
    return "tag.mirror", right, wrong


def start_is(right, wrong):
    """Other settings are read for the start, or for what is chosen."""
    return "tag.image", right, wrong


def fits_if(condition):
    """Another rule over start and length."""
    return "tag.mirror", FITS, condition


def instead_of_none(*lines):
    """A mirror that doesn't fit is changed until it does."""
    return "tag.mirror", MISPLACED, "".join(f"    {line}\n" for line in lines)


def placed_at(place, least=4 * 0x04):
    """All mirrors from a start of so much on are taken, with other places."""
    return instead_of_none(f"if start < {least} or {WITHHELD}:", "    return {}",
                           f"return {{{place}: character for place, character in {CHARACTERS_FROM_START}}}")


WHICH_CHARACTERS = {
    "the mirror's UID is in small letters": text_is(UID, "bytes(image.uid()).hex()"),
    "the mirror's counter is in small letters": text_is(COUNTER, 'f"{image.counter():06x}"'),
    "the mirror's counter is decimal": text_is(COUNTER, 'f"{image.counter():06}"'),
    "the mirror's counter has no zeros before it": text_is(COUNTER, 'f"{image.counter():X}"'),
    "the mirror's counter has spaces before it": text_is(COUNTER, 'f"{image.counter():6X}"'),
    "the mirror's counter is low byte first": text_is(COUNTER, "bytes(image.tail[:3]).hex().upper()"),
    "the mirror's counter is low digit first": text_is(COUNTER, f"{COUNTER}[::-1]"),
    "the mirror's counter has the failed count in it": text_is(
        COUNTER, "bytes([image.tail[3], *image.tail[1::-1]]).hex().upper()"),
    "the mirror's counter is one further": text_is(COUNTER, 'f"{min(image.counter() + 1, 0xFFFFFF):06X}"'),
    "the mirror's counter is 000000 at FFFFFFh": text_is(COUNTER, 'f"{image.counter() % 0xFFFFFF:06X}"'),
    "the mirror's UID has the stored BCC0 in it": text_is(
        UID, "bytes(image.pages[0] + image.pages[1]).hex().upper()[:14]"),
    "the mirror's UID has the stored BCC0 and 16 characters": text_is(
        UID, "bytes(image.pages[0] + image.pages[1]).hex().upper()"),
    "the mirror's UID begins with 88h": text_is(UID, "bytes([0x88, *image.uid()[:6]]).hex().upper()"),
    "the mirror's UID is last byte first": text_is(UID, "bytes(image.uid()[::-1]).hex().upper()"),
    "the mirror's UID is low digit first": text_is(
        UID, '"".join(f"{byte % 16:X}{byte // 16:X}" for byte in image.uid())'),
    "the mirror shows bytes, and no digits": text_is(
        UID, "bytes(byte % 128 for byte in image.uid()).decode()"),
    "58h is between UID and counter": text_is(BETWEEN, 'return "X".join(parts)'),
    "77h is between UID and counter": text_is(BETWEEN, 'return "w".join(parts)'),
    "00h is between UID and counter": text_is(BETWEEN, 'return "\\0".join(parts)'),
    "nothing is between UID and counter": text_is(BETWEEN, 'return "".join(parts)'),
    "78h is behind UID and counter": text_is(BETWEEN, 'return "".join(parts) + "x" * (len(parts) == 2)'),
    "78h is behind each of UID and counter": text_is(BETWEEN, 'return "".join(part + "x" for part in parts)'),
    "the counter comes before the UID": text_is(BETWEEN, 'return "x".join(parts[::-1])'),
    "both are the UID alone": text_is(BETWEEN, 'return "x".join(parts[:1])'),
    "both are the counter alone": text_is(BETWEEN, 'return "x".join(parts[-1:])'),
    "both are neither": text_is(BETWEEN, 'return "x".join(parts) if len(parts) == 1 else ""'),
}

WHAT_IS_CHOSEN = {
    "bits 7-6 choose the counter by 1 and the UID by 2": start_is(
        BITS, BITS.replace("[6]", "[8]").replace("[7]", "[6]").replace("[8]", "[7]")),
    "bits 7-6 choose both by any of the two": start_is(
        BITS, BITS.replace("== 1", "+ self.mirror_bits()[6] + self.mirror_bits()[7] > 0")),
    "bits 1-0 choose the mirror": start_is(BITS, BITS.replace("[6]", "[0]").replace("[7]", "[1]")),
    "bits 3-2 choose the mirror": start_is(BITS, BITS.replace("[6]", "[2]").replace("[7]", "[3]")),
    "bits 5-4 choose the mirror": start_is(BITS, BITS.replace("[6]", "[4]").replace("[7]", "[5]")),
    "the UID is mirrored, whatever is chosen": start_is(BIT_OF_UID, "True"),
    "the second settings page has the mirror's bits": start_is(BYTE_0, BYTE_0.replace("[0]][0]", "[1]][0]")),
    "byte 1 has the mirror's bits": start_is(BYTE_0, BYTE_0.replace("[0]][0]", "[0]][1]")),
    "bits 3-2 give the byte in the page": start_is(BYTE_IN_PAGE, "2 * self.mirror_bits()[3] + self.mirror_bits()[2]"),
    "bits 1-0 give the byte in the page": start_is(BYTE_IN_PAGE, "2 * self.mirror_bits()[1] + self.mirror_bits()[0]"),
    "bits 4-5 give the byte in the page": start_is(BYTE_IN_PAGE, "2 * self.mirror_bits()[4] + self.mirror_bits()[5]"),
    "bit 4 alone gives the byte in the page": start_is(BYTE_IN_PAGE, "self.mirror_bits()[4]"),
    "bits 5-2 give the byte in the page": start_is(
        BYTE_IN_PAGE, "sum(self.mirror_bits()[2 + k] << k for k in range(4))"),
    "every mirror begins at byte 0 of its page": start_is(BYTE_IN_PAGE, "0"),
    "every mirror begins at byte 1 of its page": start_is(BYTE_IN_PAGE, "1"),
    "every mirror begins at page 0Ch": start_is(PAGE, "page = 0x0C"),
    "byte 1 gives the mirror's page": start_is(PAGE, PAGE.replace("[2]", "[1]")),
    "byte 3 gives the mirror's page": start_is(PAGE, PAGE.replace("[2]", "[3]")),
    "the second settings page gives the mirror's page": start_is(PAGE, PAGE.replace("[0]][2]", "[1]][2]")),
    "the mirror's page has seven bits": start_is(PAGE, f"{PAGE} % 128"),
    "the mirror's page has six bits": start_is(PAGE, f"{PAGE} % 64"),
    "the mirror's page is counted from 04h": start_is(PAGE, f"{PAGE} + 4"),
}

WHERE_IT_FITS = {
    "a mirror may begin in page 00h": fits_if(FITS.replace("4 * 0x04", "0")),
    "a mirror may begin in page 02h": fits_if(FITS.replace("0x04", "0x02")),
    "a mirror may begin in page 03h": fits_if(FITS.replace("0x04", "0x03")),
    "a mirror may begin in byte 3 of page 03h": fits_if(FITS.replace("4 * 0x04", "15")),
    "a mirror may not begin in page 04h": fits_if(FITS.replace("0x04", "0x05")),
    "a mirror may not begin in byte 0 of page 04h": fits_if(FITS.replace(">=", ">")),
    "a mirror may begin in page 00h, though not in 01h to 03h": fits_if(f"start < 4 or {FITS}"),
    "a mirror may have a character past the user pages": fits_if(FITS.replace("length <=", "length <= 1 +")),
    "a mirror may not have a character in the last user byte": fits_if(FITS.replace("length <=", "length <")),
    "a mirror may not have a character in the last user page": fits_if(FITS.replace("length <=", "length + 4 <=")),
    "a mirror may go on into the lock page": fits_if(FITS.replace(END, f"{END} + 4")),
    "a mirror may go on up to the settings' end": fits_if(FITS.replace(END, "4 * image.layout.pwd")),
    "a mirror may go on up to page N-1": fits_if(FITS.replace(END, "4 * image.layout.size")),
    "a mirror is judged by its start alone": fits_if(f"16 <= start < {END}"),
    "a mirror is judged by its first page and whole pages": fits_if(
        "start >= 16 and start // 4 + (length + 3) // 4 <= image.layout.lock_page"),
    "a mirror is judged by pages as from byte 3": fits_if(
        "start >= 16 and start // 4 + (length + 6) // 4 <= image.layout.lock_page"),
    "a mirror is judged by pages and part of a page": fits_if(
        "start >= 16 and start // 4 + length // 4 < image.layout.lock_page"),
    **{f"every mirror is judged as of {length} characters": fits_if(f"length == 0 or {FITS}".replace(
        "start + length", f"start + {length}")) for length in (6, 14, 20, 21)},
    "the counter's mirror ends as the UID's": fits_if(FITS.replace("start + length", "start + max(length, 14)")),
    "both are judged as of 20 characters": fits_if(FITS.replace("start + length", "start + min(length, 20)")),
    **{f"every size has the user pages of N={size}": fits_if(FITS.replace(END, f"4 * {lock_page}"))
       for size, lock_page in ((45, 0x28), (135, 0x82), (231, 0xE2))},
    "the size of 135 pages has the user pages of N=45": fits_if(FITS.replace(
        END, "(4 * 0x28 if image.layout.size == 135 else 4 * image.layout.lock_page)")),
    "a mirror's end is counted in eight bits": fits_if(FITS.replace("start + length", "(start + length) % 256")),
}

WHERE_IT_IS = {
    "a mirror is cut off at the end of the user pages": instead_of_none(
        *NONE_IF_BELOW, f"text = text[:max({END} - start, 0)]"),
    "a mirror is cut off behind the last whole byte of the UID or counter": instead_of_none(
        *NONE_IF_BELOW, f"text = text[:max({END} - start, 0) // 2 * 2] if {GOES_TOO_FAR} else text"),
    "a mirror below 04h is shown from 04h on": instead_of_none(
        *NONE_IF_TOO_FAR, "text, start = text[max(16 - start, 0):], max(start, 16)"),
    "a mirror below 04h begins in 04h": instead_of_none("start = max(start, 16)", *NONE_IF_TOO_FAR),
    "a mirror that goes too far ends with the user pages": instead_of_none(
        *NONE_IF_BELOW, f"start = min(start, {END} - len(text))"),
    "a mirror of both that goes too far is one of the UID": instead_of_none(
        *NONE_IF_BELOW, f"if len(text) == 21 and {GOES_TOO_FAR}:", "    text = text[:14]", *NONE_IF_TOO_FAR),
    "the mirror's places are modulo 256": placed_at("place % 256"),
    "the mirror's places are modulo 256, and it may begin in page 00h": placed_at("place % 256", least=0),
    "the mirror's pages are modulo N": placed_at("place % (4 * image.layout.size)"),
    "the mirror's pages are modulo 256": placed_at("place % 1024"),
    "the mirror goes on from the last user page to the first": placed_at(f"16 + (place - 16) % ({END} - 16)"),
    "the mirror is one byte further": text_is(PLACED, PLACED.replace("start", "start + 1")),
    "the mirror rolls over within its 64-byte page": text_is(
        PLACED, f"{{start // 64 * 64 + place % 64: character for place, character in {CHARACTERS_FROM_START}}}"),
}

OF_MIRROR = {**WHICH_CHARACTERS, **WHAT_IS_CHOSEN, **WHERE_IT_FITS, **WHERE_IT_IS}
