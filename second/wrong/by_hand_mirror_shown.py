"""Wrong by hand: mistakes about who sees the ASCII mirror, in which reads, and what it leaves
as it is, document 02, Q-3."""

from wrong.by_hand_mirror import WITHHELD

# tag.mirror
WITHHOLDING = f"    if {WITHHELD}:\n        return {{}}\n"

# tag.reads
COUNTING = "    if not radio.read_answered:\n        image.count_one_read()\n    radio.read_answered = True\n"
CHARACTERS = "    characters = mirror(radio)\n"
BYTES_GIVEN = "byte for page in pages for byte in with_mirror(page, image.shown(page), characters)"

# lines.player
SHOWN = "        image = self.tag.image.everything()\n"

UNDER_PASSWORD = "image.counter_under_password() and not radio.authenticated"
UNDER_MIRROR = "dict(enumerate(mirror_text(self.image), self.image.mirror_start()))"


def withheld_if(condition):
    """Other mirrors aren't shown."""
    return "tag.mirror", WITHHELD, condition


def uid_alone_if(condition):
    """A mirror of both shows the UID alone, where it should not be shown."""
    return "tag.mirror", WITHHOLDING, (
        f"    if {WITHHELD}:\n        if not (image.mirrors_uid() and ({condition})):\n            return {{}}\n"
        "        text = text[:14]\n")


def read_with(characters):
    """READ and FAST_READ show other characters of the mirror."""
    return "tag.reads", CHARACTERS, f"{CHARACTERS}    characters = {characters}\n"


WHO_SEES_IT = {
    "the counter's mirror under password is shown": withheld_if("image.mirrors_counter() and not image.counter_on()"),
    "the counter's mirror is shown when the counter is off": withheld_if(
        f"image.mirrors_counter() and {UNDER_PASSWORD}"),
    "the counter's mirror is always shown": withheld_if("False"),
    "the counter's mirror is shown when off to who is authenticated": withheld_if(
        f"image.mirrors_counter() and not image.counter_on() and not radio.authenticated or {WITHHELD}"
        " and image.counter_on()"),
    "the counter's mirror is under password only with PROT": withheld_if(
        f"image.mirrors_counter() and (not image.counter_on() or image.prot() and {UNDER_PASSWORD})"),
    "the counter's mirror is under password only with AUTH0 below N": withheld_if(
        "image.mirrors_counter() and (not image.counter_on() or image.auth0() < image.layout.size"
        f" and {UNDER_PASSWORD})"),
    "the counter's mirror is for who is authenticated, always": withheld_if(
        "image.mirrors_counter() and not (image.counter_on() and radio.authenticated)"),
    "the counter's mirror under password is for who isn't authenticated": withheld_if(
        "image.mirrors_counter() and not (image.counter_on() and image.counter_under_password() <="
        " (not radio.authenticated))"),
    "the counter's mirror is hidden where PROT is set": withheld_if(
        f"{WITHHELD} or image.mirrors_counter() and image.prot() and not radio.authenticated"),
    "every mirror is hidden where the counter is": withheld_if("not radio.may_tell_counter()"),
    "the UID's mirror is hidden where the counter is off": withheld_if(f"{WITHHELD} or not image.counter_on()"),
    "the UID's mirror is hidden where the counter is under password": withheld_if(f"{WITHHELD} or {UNDER_PASSWORD}"),
    "only a mirror of the counter alone is hidden": withheld_if(f"{WITHHELD} and not image.mirrors_uid()"),
    "only a mirror of both is hidden": withheld_if(f"{WITHHELD} and image.mirrors_uid()"),
    "both under password are the UID alone": uid_alone_if("image.counter_on()"),
    "both with the counter off are the UID alone": uid_alone_if("not image.counter_on()"),
    "both are the UID alone where the counter is hidden": uid_alone_if("True"),
    "both are the UID and zeros where the counter is hidden": (
        "tag.mirror", WITHHOLDING, f'    if {WITHHELD}:\n        text = text[:-6] + "000000"\n'),
    "every mirror is hidden from who isn't authenticated, with PROT": withheld_if(
        f"{WITHHELD} or image.prot() and not radio.authenticated"),
    "a mirror from AUTH0 on is hidden without PROT": withheld_if(
        f"{WITHHELD} or start // 4 >= image.auth0() and not radio.authenticated"),
    "the counter's mirror under password is for who was authenticated once": withheld_if(
        'vars(radio).setdefault("was", []).append(radio.authenticated) or image.mirrors_counter() and not ('
        "image.counter_on() and (any(radio.was) or not image.counter_under_password()))"),
    "a mirror is hidden from who is authenticated": withheld_if(f"{WITHHELD} or radio.authenticated"),
}

WHICH_READS = {
    "the mirror shows the counter before this READ counts": (
        "tag.reads", COUNTING + CHARACTERS, CHARACTERS + COUNTING),
    "the stored byte is between UID and counter": read_with(
        "{place: character for place, character in characters.items() if character != 0x78}"),
    "READ doesn't show the mirror": read_with("{} if isinstance(pages, list) else characters"),
    "FAST_READ doesn't show the mirror": read_with("characters if isinstance(pages, list) else {}"),
    "FAST_READ of one page doesn't show the mirror": read_with("characters if len(pages) > 1 else {}"),
    "FAST_READ of all pages doesn't show the mirror": read_with(
        "characters if len(pages) < image.layout.size else {}"),
    "a mirror is shown only whole": read_with(
        "characters if {place // 4 for place in characters} <= set(pages) else {}"),
    "a mirror is shown only in a READ from its first page or before": read_with(
        "characters if pages[0] <= min(characters, default=0) // 4 else {}"),
    "a mirror is shown only in its first 16 bytes": read_with("dict(list(characters.items())[:16])"),
    "a READ inside the mirror begins with its first character": read_with(
        "dict(zip(range(max(min(characters), 4 * pages[0]), max(characters) + 1), characters.values()))"
        " if characters else {}"),
    "a mirror is placed in the answer, and not in its pages": (
        "tag.reads", BYTES_GIVEN, "byte for number, page in enumerate(pages)"
        " for byte in with_mirror(pages[0] + number, image.shown(page), characters)"),
    "a mirror that B cuts isn't shown": read_with(
        "characters if max(characters, default=0) < 4 * border(radio) else {}"),
    "a mirror that AUTH0 cuts isn't shown": read_with(
        "characters if not min(characters, default=0) // 4 < image.auth0() <= max(characters, default=0) // 4"
        " else {}"),
    "a mirror's pages from AUTH0 on are stored bytes without PROT": read_with(
        "{place: character for place, character in characters.items()"
        " if place < 4 * image.auth0() or radio.authenticated}"),
    "only the first READ in a field shows the mirror": (
        "tag.reads", COUNTING + CHARACTERS, f"    first = not radio.read_answered\n{COUNTING}{CHARACTERS}"
        "    characters = characters if first else {}\n"),
    "the first READ in a field doesn't show the mirror": (
        "tag.reads", COUNTING + CHARACTERS, f"    first = not radio.read_answered\n{COUNTING}{CHARACTERS}"
        "    characters = {} if first else characters\n"),
    "the mirror's settings are those at the first READ of a field": (
        "tag.reads", COUNTING + CHARACTERS, "    settings = image.layout.settings[0]\n"
        "    if not radio.read_answered:\n        radio.first_settings = image.pages[settings]\n"
        f"{COUNTING}    now = image.pages[settings]\n    image.replace(settings, radio.first_settings)\n"
        f"{CHARACTERS}    image.replace(settings, now)\n"),
    "a READ that shows the counter counts each time": (
        "tag.reads", "if not radio.read_answered:", "if not radio.read_answered or image.mirrors_counter():"),
    "a READ with a mirror doesn't count": (
        "tag.reads", "if not radio.read_answered:",
        "if not radio.read_answered and not (image.mirrors_uid() and mirror(radio)):"),
    "only a READ of the counter's characters counts": (
        "tag.reads", "if not radio.read_answered:",
        "if not radio.read_answered and not (image.mirrors_counter() and mirror(radio)"
        " and not {place // 4 for place in mirror(radio)} & set(pages)):"),
}

WHAT_STAYS = {
    "READ stores the mirror's characters": (
        "tag.reads", CHARACTERS, CHARACTERS + "    for place, character in characters.items():\n"
        "        if place // 4 in pages:\n            image.replace_byte(place, character)\n"),
    "the two wires read the mirror": (
        "tag.regions", "return self.image.shown(page)[place]",
        "from tag.mirror import mirror_text\n"
        f"        return ord({UNDER_MIRROR}.get(address - self.first, chr(self.image.shown(page)[place])))"),
    "`show` shows the mirror": (
        "lines.player", SHOWN, f"{SHOWN}        from tag.mirror import mirror\n"
        "        for place, character in (mirror(self.tag.radio) if self.tag.image.layout else {}).items():\n"
        "            image[place] = character\n"),
    "READ_CNT gives the mirror's characters": (
        "tag.reads", "with_crc(radio.image.tail[:3])",
        'with_crc(f"{radio.image.counter():06X}".encode("ascii") if radio.image.mirrors_counter()'
        " else radio.image.tail[:3])"),
    "READ_CNT is high byte first where the counter is mirrored": (
        "tag.reads", "with_crc(radio.image.tail[:3])",
        "with_crc(radio.image.tail[:3][::-1 if radio.image.mirrors_counter() else 1])"),
    "WRITE to a page with characters is refused": (
        "tag.writes", "    if page in image.locked_pages():\n",
        "    from tag.mirror import mirror\n    if page in {place // 4 for place in mirror(radio)}:\n"
        "        return True\n    if page in image.locked_pages():\n"),
    "WRITE stores nothing under the mirror": (
        "tag.writes", "    radio.image.write(page, data)\n",
        "    from tag.mirror import mirror\n    if page not in {place // 4 for place in mirror(radio)}:\n"
        "        radio.image.write(page, data)\n"),
    "a stop stores nothing under the mirror": (
        "tag.regions", "if offset >= 10:",
        "from tag.mirror import mirror_text\n"
        f"            if offset >= 10 and offset not in {UNDER_MIRROR}:"),
    "WRITE keeps the mirror's settings": (
        "tag.image", "# \"Other pages are replaced.\"\n",
        "if page == self.layout.settings[0]:\n                data = [*old[:3], data[3]]\n"),
}

OF_MIRROR_SHOWN = {**WHO_SEES_IT, **WHICH_READS, **WHAT_STAYS}
