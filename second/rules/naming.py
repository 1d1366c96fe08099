"""How rules are named.

A rule is a key of the form `stem/leaf` and the sentence it stands for, taken
from document 01, document 02 ("Q-1: ..") or LINES.md.
"""


def each(stem, leaves, sentence):
    """One rule for each leaf; {} in the sentence stands for the leaf."""
    return {f"{stem}/{leaf}": sentence.format(leaf) for leaf in leaves}


def page_names(*numbers):
    """Page numbers as the keys write them."""
    return [f"{number:02X}h" for number in numbers]


SIZES = [45, 135, 231]
STATES = ["IDLE", "HALT", "READY1", "READY2", "ACTIVE"]
PHASES = ["rest", "device", "high", "low", "write", "read", "deaf"]
WRITABLE = ["page-2", "page-3", "user-static", "user-dynamic", "lock-page",
            "settings-1", "settings-2", "pwd", "pack"]


def kind_of_page(layout, page):
    """What document 01 calls this page."""
    if page >= layout.size:
        return "at-N" if page == layout.size else "above-N"
    if page < 4:
        return f"page-{page}"
    if page < layout.lock_page:
        return "user-static" if page < 16 else "user-dynamic"
    return {layout.lock_page: "lock-page", layout.settings[0]: "settings-1",
            layout.settings[1]: "settings-2", layout.pwd: "pwd", layout.pack: "pack"}[page]
