"""What a line of a text says. It is a frame, a message, or a field of the message above it; `#` begins a comment:

    frame NAME LENGTH bytes  [little | big]  [received | sent]  [time | event]
    message NAME WIDTH bits  [unsigned | signed | float]  [received | sent]  [pick any | average | vote]
                             [filter FILTER]  [initial VALUE]
    in FRAME at START  [status PLACE]

What stands in brackets may come in any order. Not said, it is the first choice, `filter true`, `initial 0`, and no
status bit. FILTER is one of records.FILTERS.
"""

from __future__ import annotations

import re
from collections.abc import Iterable
from typing import NamedTuple

from .records import AGREEMENTS, DIRECTIONS, FILTERS, ORDERS, SIGNS, TRIGGERS, VALUES
from .words import either, printable, shown

# A phrase sets a part of a record. Its words in capitals stand for names and numbers, and set the parts of that name.
Phrases = dict[tuple[str, ...], tuple[str, int]]


def sets(part: str, number: int, *phrases: str) -> Phrases:
    """Phrases that set a part to a number."""
    return {tuple(phrase.split()): (part, number) for phrase in phrases}


def choices(part: str, phrases: Iterable[str]) -> Phrases:
    """The phrases that set a part to 0, 1, 2 .."""
    return {tuple(phrase.split()): (part, number) for number, phrase in enumerate(phrases)}


BEGIN = {
    **sets("kind", 1, "frame NAME LENGTH bytes", "frame NAME LENGTH byte"),
    **sets("kind", 2, "message NAME WIDTH bits", "message NAME WIDTH bit"),
    **sets("kind", 3, "in FRAME at START"),
}
# What may follow, by the kind.
FOLLOW = {
    "1": {**choices("order", ORDERS), **choices("direction", DIRECTIONS), **choices("trigger", TRIGGERS)},
    "2": {
        **choices("sign", SIGNS),
        **choices("direction", DIRECTIONS),
        **choices("agreement", AGREEMENTS),
        **choices("filter", (f"filter {words}" for words in FILTERS)),
        **sets("initial", 0, "initial INITIAL"),
    },
    "3": sets("present", 1, "status PLACE"),
}

# A word that looks like a number is one word to its end, so that a mistake shows all of it.
WORD = re.compile(r"-?[\w.]+(?:(?<=[0-9.][eE])[-+][\w.]*)?|[<>!]=|\S")
NAME = re.compile(r"[A-Za-z_]\w*", re.ASCII)
# How long a number may be depends on what it stands for, which is known later.
NUMBER = re.compile(r"-?[0-9]+|0x[0-9A-Fa-f]+")
DECIMAL = re.compile(r"-?[0-9]+(?:\.[0-9]+)?(?:[eE][-+]?[0-9]+)?")
# A byte that is not UTF-8 was decoded to a surrogate.
NO_TEXT = re.compile("[\0-\x08\x0B-\x1F\x7F-\x9F\uDC80-\uDCFF]")


class Word(NamedTuple):
    """A word with its line and column, both from 1."""

    text: str
    line: int
    column: int


# What a line says of each part.
Said = dict[str, Word]


class Mistake(Exception):
    """What is wrong at a word of a text."""

    def __init__(self, word: Word, words: str) -> None:
        super().__init__(words)
        self.line, self.column = word.line, word.column


class Mistakes(Exception):
    """All that is wrong in a text, in its order."""

    def __init__(self, found: Iterable[Mistake]) -> None:
        self.found = sorted(found, key=lambda mistake: (mistake.line, mistake.column))
        super().__init__(*self.found)


def fits(pattern: str, word: Word) -> bool:
    """Whether a word can stand where a phrase has this one."""
    if not pattern.isupper():
        return word.text == pattern
    if pattern in ("NAME", "FRAME"):
        return bool(NAME.fullmatch(word.text))
    # The sign may be said later, so a value is any number here.
    return bool(NUMBER.fullmatch(word.text) or pattern.lower() in VALUES and DECIMAL.fullmatch(word.text))


def meaning(pattern: str) -> str:
    """What a word of a phrase wants to see."""
    if not pattern.isupper():
        return f"`{pattern}`"
    if pattern in ("NAME", "FRAME"):
        return "a name" if pattern == "NAME" else "the name of a frame"
    return "a number" if pattern.lower() in VALUES else "a whole number"


def expected(patterns: Iterable[str]) -> str:
    """What phrases want to see, as an English list."""
    return either(dict.fromkeys(map(meaning, patterns)))


def take(words: list[Word], phrases: Phrases) -> Said:
    """What the phrase at the start of the words says; it is removed. No phrase is the beginning of another."""
    first, fitting = words[0], list(phrases)
    named = {}
    at = 0
    while at < min(map(len, fitting)):
        word = words[0]
        going_on = [phrase for phrase in fitting if fits(phrase[at], word)]
        if not going_on:
            found = f"`{shown(word.text)}`" if word.text else "the end of the line"
            raise Mistake(word, f"expected {expected(phrase[at] for phrase in fitting)}, found {found}")
        fitting = going_on
        pattern = fitting[0][at]
        if pattern.isupper():
            named[pattern.lower()] = word
        del words[0]
        at += 1
    [phrase] = fitting
    part, number = phrases[phrase]
    return {part: first._replace(text=str(number)), **named}


def check_characters(line: int, text: str) -> None:
    """A line of a text is UTF-8 and has no control characters but tabs."""
    found = NO_TEXT.search(text)
    if found:
        byte = ord(found.group()) - 0xDC00
        words = f"{printable(found.group())} is a control character" if byte < 0 else f"byte 0x{byte:02X} is not UTF-8"
        raise Mistake(Word(found.group(), line, found.start() + 1), words)


def words_in(line: int, text: str) -> list[Word]:
    """The words of a line without its comment; the last one is its end and empty."""
    text = text.split("#")[0].rstrip()
    words = [Word(found.group(), line, found.start() + 1) for found in WORD.finditer(text)]
    return [*words, Word("", line, len(text) + 1)]


def said_in(words: list[Word]) -> Said:
    """What a line of these words says of each part; an empty one says nothing."""
    words = list(words)
    said: Said = {}
    while words[0].text:
        more = take(words, FOLLOW[said["kind"].text] if said else BEGIN)
        part, word = next(iter(more.items()))
        if part in said:
            raise Mistake(word, f"the {part} is said twice")
        said.update(more)
    return said
