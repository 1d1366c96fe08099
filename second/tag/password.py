"""PWD_AUTH."""

from tag.bits import with_crc


def pwd_auth(radio, *password):
    """"PWD_AUTH 1Bh p0-p3: NAK 0h if AUTHLIM isn't 0 and the failed count is at
    least AUTHLIM. If equal to PWD: count to 0, authenticated, answer the first
    two PACK bytes. Else NAK 0h, and count up by 1 if AUTHLIM isn't 0." """
    image = radio.image
    limit, failed = image.authlim(), image.failed()
    if limit != 0 and failed >= limit:
        return radio.nak(0)
    if password == image.pages[image.layout.pwd]:
        image.set_failed(0)
        radio.authenticated = True
        return with_crc(image.pages[image.layout.pack][:2])
    if limit != 0:
        image.set_failed(failed + 1)
    return radio.nak(0)
