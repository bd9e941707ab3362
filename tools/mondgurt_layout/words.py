"""How numbers, lists, tables and pieces of input are printed."""

from __future__ import annotations

from collections.abc import Iterable
from itertools import zip_longest


def counted(number: int, noun: str) -> str:
    """A number of things."""
    return f"{number} {noun}" + ("" if number == 1 else "s")


def either(words: Iterable[str]) -> str:
    """Words as an English list: this, that or those."""
    *most, last = words
    return f"{', '.join(most)} or {last}" if most else last


def aligned(lines: list[list[str]]) -> list[str]:
    """Lines whose pieces stand below each other."""
    widths = [max(map(len, pieces)) for pieces in zip_longest(*lines, fillvalue="")]
    return ["  ".join(map(str.ljust, line, widths)).rstrip() for line in lines]


def printable(text: str) -> str:
    """A text in which each character that cannot be seen is told by its number: \\x1b for an escape."""
    return "".join(c if c.isprintable() else c.encode("unicode_escape").decode() for c in text)


def shown(text: str, most: int = 40) -> str:
    """A piece of input as it is told: printable, and if it is long its beginning."""
    told = printable(text[: most + 1])
    return told if len(told) <= most else told[:most] + ".."
