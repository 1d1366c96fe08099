"""Files of raw bytes."""
import os
import sys
import tempfile
from pathlib import Path

from failures import Failed

MOST_BYTES = 1100  # more doesn't go into a line of the program


def shown(name):
    """A file's name as it is told."""
    return "standard input" if name == "-" else name or "''"


def first_bytes(name, count):
    """So many bytes of a file, or all where it has fewer; `-` is standard input."""
    if name == "-":
        if sys.stdin is None:
            raise Failed("standard input is closed")
        return sys.stdin.buffer.read(count)
    with open(name, "rb") as file:
        return file.read(count)


def bytes_in(name, too_long):
    """The bytes of a file, or why it can't be taken: `too_long` says it of one with more bytes than a line has room for."""
    try:
        data = first_bytes(name, MOST_BYTES + 1)
    except OSError as error:
        raise Failed(f"{shown(name)}: can't be read: {error.strerror}") from None
    if len(data) > MOST_BYTES:
        raise Failed(f"{shown(name)}: {too_long}")
    return data


def image_in(name):
    """The bytes of a file that is to be an image. Which of them are one, the program says; a longer file isn't."""
    return bytes_in(name, f"no image: it has more than {MOST_BYTES:,} bytes, and an image has 184, 544 or 928")


def area_in(name):
    """The bytes of a file that is to be an area of user pages."""
    return bytes_in(name, f"no area: it has more than {MOST_BYTES:,} bytes, which are more than any board's user pages")


def write_over(name, data):
    """Puts these bytes over those of a file that has as many, which stays the same file."""
    try:
        with open(name, "r+b") as file:
            file.write(data)
    except OSError as error:
        raise Failed(f"{shown(name)}: can't be changed where it is: {error.strerror or 'it is no plain file'}") from None


def write_new(name, data):
    """Makes a file of these bytes. One of that name is replaced when all of them are there, and not before; what is no plain file is
    written to as it is."""
    try:
        if Path(name).exists() and not Path(name).is_file():
            Path(name).write_bytes(data)
        else:
            replace(Path(name).resolve(), data)
    except OSError as error:
        raise Failed(f"{shown(name)}: can't be written: {error.strerror}") from None


def replace(path, data):
    """Puts a file of these bytes in a file's place, by way of one beside it."""
    mode = path.stat().st_mode & 0o777 if path.exists() else 0o666 & ~mask()
    handle, beside = tempfile.mkstemp(dir=path.parent, prefix=f".{path.name}.")
    try:
        with open(handle, "wb") as file:
            file.write(data)
        os.chmod(beside, mode)
        os.replace(beside, path)
    except OSError:
        os.unlink(beside)
        raise


def mask():
    """The bits that a new file isn't given."""
    now = os.umask(0)
    os.umask(now)
    return now


def hexed(data):
    """Bytes as the program's lines have them."""
    return data.hex().upper() or "-"
