"""Images for the examples and the scripts."""

from rules.mirror import MODES
from tag.layout import LAYOUTS

LAYOUT_OF_SIZE = {layout.size: layout for layout in LAYOUTS.values()}

EXAMPLE_UID = [0x1D, 0xA2, 0x30, 0x11, 0x09, 0x67, 0xEC]


def access_byte(prot=0, settings_lock=0, counter_on=0, counter_under_password=0, authlim=0):
    """"ACCESS: bit 7 PROT, 6 settings lock, 4 counter on, 3 counter under
    password, 2-0 AUTHLIM." """
    return (0x80 * prot + 0x40 * settings_lock + 0x10 * counter_on
            + 0x08 * counter_under_password + authlim)


def mirror_bytes(mode=None, start=0, low_bits=0x4, byte_1=0):
    """"first settings page, byte 0, bits 7-6 choose none, UID [...], counter [...] or
    both [...]; bits 5-4 give the byte in the page, and byte 2 the page." The start is
    the number of an image byte."""
    page, byte = divmod(start, 4)
    return [0x40 * [None, *MODES].index(mode) + 0x10 * byte + low_bits, byte_1, page]


def build_image(size, uid=EXAMPLE_UID, bcc0=None, page_2=(0x93, 0x48, 0, 0), page_3=(0xE1, 0x10, 0x12, 0),
                user=lambda page: [page] * 4, lock_page=(0, 0, 0, 0), mirror=mirror_bytes(), auth0=0xFF, access=0,
                pwd=(0xFF, 0xFF, 0xFF, 0xFF), pack=(0, 0, 0, 0), counter=0, failed=0):
    """The bytes of an image. Unless said: the right BCC0 stored, locks clear, no
    mirror, AUTH0 FFh, and a user page holds its own number four times."""
    layout = LAYOUT_OF_SIZE[size]
    stored_bcc0 = 0x88 ^ uid[0] ^ uid[1] ^ uid[2] if bcc0 is None else bcc0
    pages = [uid[:3] + [stored_bcc0], uid[3:], list(page_2), list(page_3)]
    pages += [list(user(page)) for page in range(4, layout.lock_page)]
    pages += [list(lock_page), [*mirror, auth0], [access, 0x05, 0, 0], list(pwd), list(pack)]
    tail = list(counter.to_bytes(3, "little")) + [failed]
    return [byte for page in pages + [tail] for byte in page]
