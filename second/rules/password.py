"""PWD_AUTH."""

from rules.naming import each

RULES = {
    "auth.right/first": "If equal to PWD: count to 0, authenticated, answer the first two PACK bytes",
    "auth.right/while-authenticated": "If equal to PWD: authenticated, a second time too",
    "auth.right/count-to-0": "If equal to PWD: count to 0",
    "auth.right/count-to-0-under-AUTHLIM-0": "If equal to PWD: count to 0, AUTHLIM being 0",
    "auth.right/last-chance": "the failed count is at least AUTHLIM: one less than AUTHLIM isn't",
    "auth.wrong/counted": "Else NAK 0h, and count up by 1 if AUTHLIM isn't 0",
    "auth.wrong/AUTHLIM-0": "Else NAK 0h: AUTHLIM is 0, the count stays",
    **each("auth.wrong-only-at", ["p0", "p1", "p2", "p3"], "If equal to PWD: {} alone differs"),
    **each("auth.limit", range(1, 8), "NAK 0h if [...] the failed count is at least AUTHLIM ({})"),
    **each("auth.at-limit", ["right", "wrong", "reached", "exceeded"],
           "NAK 0h if AUTHLIM isn't 0 and the failed count is at least AUTHLIM ({})"),
}


def met(step):
    name, password = step.command
    if name != "PWD_AUTH":
        return
    image = step.image
    pwd = image.pages[image.layout.pwd]
    limit, failed = image.authlim(), image.failed()
    if limit and failed >= limit:
        yield "auth.at-limit/" + ("right" if password == pwd else "wrong")
        yield "auth.at-limit/" + ("reached" if failed == limit else "exceeded")
        yield f"auth.limit/{limit}"
    elif password == pwd:
        yield from of_right_password(step, limit, failed)
    else:
        differing = [i for i in range(4) if password[i] != pwd[i]]
        if len(differing) == 1:
            yield f"auth.wrong-only-at/p{differing[0]}"
        yield "auth.wrong/counted" if limit else "auth.wrong/AUTHLIM-0"


def of_right_password(step, limit, failed):
    authenticated = step.before.tag.radio.authenticated
    yield "auth.right/while-authenticated" if authenticated else "auth.right/first"
    if failed:
        yield "auth.right/count-to-0" if limit else "auth.right/count-to-0-under-AUTHLIM-0"
    if limit and failed == limit - 1:
        yield "auth.right/last-chance"
