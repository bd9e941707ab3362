"""Files as people name them: told apart by content, read no further than needed, written whole or not at all."""

from __future__ import annotations

import os
import stat
from codecs import BOM_UTF16_BE, BOM_UTF16_LE, getincrementaldecoder
from collections.abc import Iterator
from contextlib import contextmanager
from io import FileIO
from pathlib import Path
from tempfile import mkstemp
from typing import Optional, Union

from . import text, verdict
from .grammar import Mistake, Mistakes, Word
from .records import LONGEST, Layout
from .words import printable

# The bytes of the longest text, thirty times as many as the text of the largest sample has.
LONGEST_TEXT = 2**18

# Bytes that no text has: tabs and the ends of lines are not among them.
CONTROLS = bytes(byte for byte in (*range(32), 127) if byte not in b"\t\n\r")


class Unfit(Exception):
    """A file that cannot be used as it should, in words."""

    def __init__(self, path: Path, words: str) -> None:
        super().__init__(f"{printable(str(path))}: {words}")


@contextmanager
def named(name: object) -> Iterator[None]:
    """An error of the system names this file."""
    try:
        yield
    except OSError as error:
        raise OSError(error.errno, error.strerror, str(name)) from None


def is_layout_file(beginning: bytes) -> bool:
    """Whether bytes are a layout file and not a text.

    A right record has at least nine control bytes among its 24, and a text has none. So bytes are a layout file if a
    quarter of them are control bytes, or if one is and they are not UTF-8. Then a text with a stray byte is still a
    text, and a damaged layout file is still one.
    """
    if beginning.startswith((BOM_UTF16_BE, BOM_UTF16_LE)):
        return False
    controls = len(beginning) - len(beginning.translate(None, CONTROLS))
    return controls > 0 and (4 * controls >= len(beginning) or not is_utf8(beginning))


def is_utf8(beginning: bytes) -> bool:
    """Whether bytes are UTF-8; the last character may be cut."""
    try:
        getincrementaldecoder("utf-8")().decode(beginning)
    except UnicodeDecodeError:
        return False
    return True


def read_up_to(file: FileIO, most: int) -> bytes:
    """The next bytes of a file, of a pipe too, and none beyond the most."""
    raw = bytearray()
    while len(raw) < most:
        more = file.read(most - len(raw))
        if not more:
            break
        raw += more
    return bytes(raw)


def content(path: Path) -> Union[str, bytes]:
    """A text, or the bytes of a layout file: of one that is too long, as many as show it."""
    with named(path), open(path, "rb", buffering=0) as file:
        raw = read_up_to(file, LONGEST + 1)
        if is_layout_file(raw):
            return raw
        raw += read_up_to(file, LONGEST_TEXT + 1 - len(raw))
    if len(raw) > LONGEST_TEXT:
        raise Unfit(path, f"a text has at most {LONGEST_TEXT} bytes")
    if raw.startswith((BOM_UTF16_BE, BOM_UTF16_LE)):
        raise Mistakes([Mistake(Word("", 1, 1), "this is UTF-16, and a text is UTF-8")])
    return raw.decode("utf-8-sig", "surrogateescape").replace("\r\n", "\n").replace("\r", "\n")


def load(path: Path) -> Layout:
    """The layout in a text or in a layout file."""
    found = content(path)
    return text.parse(found) if isinstance(found, str) else verdict.read(found)


def load_text(path: Path, otherwise: str) -> str:
    """The text in a file. A layout file is told as such: with its refusal, or in words that end as given."""
    found = content(path)
    if isinstance(found, bytes):
        verdict.read(found)
        raise Unfit(path, f"this is a layout file{otherwise}")
    return found


def check_output(source: Path, output: Path) -> None:
    """Refuse an output that is the source, under whatever name."""
    if source.is_file() and output.exists() and source.samefile(output):
        raise Unfit(output, "this is the source, which is not overwritten")


def print_out(output: bytes) -> None:
    """Write to standard output, and find out whether that went well."""
    with named("standard output"), open(1, "wb", closefd=False) as file:
        file.write(output)


def write(path: Path, output: bytes) -> None:
    """Write a file whole, or leave what is there. A symbolic link stays, and a device or a pipe is written to."""
    with named(path):
        found = os.stat(path) if path.exists() else None
        if found and is_standard_output(found):
            print_out(output)
        elif found and not stat.S_ISREG(found.st_mode):
            path.write_bytes(output)
        else:
            if found:
                open(path, "r+b").close()  # what may not be written is not replaced
            replace(os.path.realpath(path), output, stat.S_IMODE(found.st_mode) if found else None)


def is_standard_output(found: os.stat_result) -> bool:
    """Whether a file is the one that standard output goes to, perhaps after other words."""
    try:
        return os.path.samestat(found, os.fstat(1))
    except OSError:
        return False


def new_mode() -> int:
    """The permissions of a new file."""
    mask = os.umask(0)
    os.umask(mask)
    return 0o666 & ~mask


def replace(target: str, output: bytes, mode: Optional[int]) -> None:
    """Put a file with these bytes in the place of another, if there is one with its permissions, in one step."""
    number, beside = mkstemp(prefix=".layout-", dir=os.path.dirname(target))
    try:
        with open(number, "wb") as file:
            os.fchmod(number, new_mode() if mode is None else mode)
            file.write(output)
        os.replace(beside, target)
    except BaseException:
        os.unlink(beside)
        raise
