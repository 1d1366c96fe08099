"""Why a word can't be carried out, in one line each."""


class WrongUse(Exception):
    """The words are not how it is written: exit status 2."""


class Failed(Exception):
    """A file can't be read or written, or the proved program refuses what is in it: exit status 1."""
