"""The ASCII mirror of document 02, Q-3: characters that stand in for stored bytes.

"READ and FAST_READ show the characters [...]; memory and bus reads don't change."
"""


def mirror(radio):
    """The characters that are shown now, each by the image byte it stands in for.

    "Settle all modes by a rule over start and length." Where nothing is chosen,
    the length is 0.
    """
    image = radio.image
    start, text = image.mirror_start(), mirror_text(image)
    if not is_in_user_pages(image, start, len(text)):
        return {}
    # "So does a mirror with the counter in it when the counter is off, or is under
    # password and the tag isn't authenticated."
    if image.mirrors_counter() and not radio.may_tell_counter():
        return {}
    return dict(enumerate(text.encode("ascii"), start))


def is_in_user_pages(image, start, length):
    """"A page below 04h, or any character past the user pages, means no mirror at
    all." The user pages are those before the lock page."""
    return start >= 4 * 0x04 and start + length <= 4 * image.layout.lock_page


def mirror_text(image):
    """"UID (14 characters), counter (6) or both (21, with 78h between)": 78h is "x".
    "upper-case hex, counter high byte first" """
    parts = []
    if image.mirrors_uid():
        parts.append(bytes(image.uid()).hex().upper())
    if image.mirrors_counter():
        parts.append(f"{image.counter():06X}")
    return "x".join(parts)


def with_mirror(page, stored, characters):
    """The bytes of a page, with the characters that stand in for some of them."""
    return [characters.get(4 * page + place, byte) for place, byte in enumerate(stored)]
