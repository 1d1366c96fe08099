"""WRITE."""

from tag.frames import ACK


def write(radio, page, *data):
    """"WRITE A2h a d0-d3: NAK 0h if [...]; else ACK." """
    if is_forbidden(radio, page):
        return radio.nak(0)
    radio.image.write(page, data)
    return ACK


def is_forbidden(radio, page):
    """Whether a rule forbids a WRITE to this page."""
    image = radio.image
    # "NAK 0h if a < 2 or a >= N"
    if page < 2 or page >= image.layout.size:
        return True
    # "A page is under password when its number is at least AUTH0 and the tag
    # isn't authenticated."
    if page >= image.auth0() and not radio.authenticated:
        return True
    # "if a is a locked page 3 or user page"
    if page in image.locked_pages():
        return True
    # "or a settings page with the settings lock set"
    return page in image.layout.settings and image.settings_lock()
