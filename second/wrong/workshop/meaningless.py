"""Wrong programs that answer every script as the right one does, with the reason.

The names are those that `wrong` gives. It fails when one of them is noticed
after all, or is there no more.
"""

NONE_MAY_BE_MISSING = "no line of `workshop` has a word that may be missing, so that this is asked for nothing"

NOT_SHOWN = "`refused 23` doesn't show the area, and nothing is kept of it: no line sees what is left in it"

MEANINGLESS = {
    **{f"lines/words.py command_of: {slip}": NONE_MAY_BE_MISSING for slip in [
        "(0, 1) if word in table.last_may_be_missing else (0,) -> (0,)",
        "0 -> 1", "0 -> -1", "1 -> 2", "1 -> 0"]},
    "what fits is written before it is refused": NOT_SHOWN,
    "an area is cleared before it is refused": NOT_SHOWN,
    "bytes that differ alone are written": "a byte that stands there already is the same, written or not",
}
