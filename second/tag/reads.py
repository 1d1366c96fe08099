"""READ, FAST_READ and READ_CNT."""

from tag.bits import with_crc
from tag.mirror import mirror, with_mirror


def border(radio):
    """"Let B be AUTH0 if PROT is set, the tag isn't authenticated and
    AUTH0 < N; else N." """
    auth0, size = radio.image.auth0(), radio.image.layout.size
    if radio.image.prot() and not radio.authenticated and auth0 < size:
        return auth0
    return size


def read(radio, first):
    """"READ 30h a: NAK 0h unless a < B. Four pages (a+i) mod B, i from 0 to 3." """
    if not first < border(radio):
        return radio.nak(0)
    return answer_pages(radio, [(first + i) % border(radio) for i in range(4)])


def fast_read(radio, start, end):
    """"FAST_READ 3Ah s e: NAK 0h unless s <= e < B. Pages s to e." """
    if not start <= end < border(radio):
        return radio.nak(0)
    return answer_pages(radio, range(start, end + 1))


def answer_pages(radio, pages):
    """Data of READ or FAST_READ; the first in a field counts.

    "The first READ or FAST_READ answered with data since field loss adds 1 to
    the counter if it is on [...]. Later ones don't count, even if the first
    found it off." Document 02, Q-3: the mirror's counter is that "after this READ has
    counted".
    """
    image = radio.image
    if not radio.read_answered:
        image.count_one_read()
    radio.read_answered = True
    characters = mirror(radio)
    return with_crc([byte for page in pages for byte in with_mirror(page, image.shown(page), characters)])


def read_cnt(radio, second):
    """"three counter bytes, low first; NAK 0h if off, if under password and not
    authenticated, or if the second byte isn't 02h." """
    if second != 0x02 or not radio.may_tell_counter():
        return radio.nak(0)
    return with_crc(radio.image.tail[:3])
