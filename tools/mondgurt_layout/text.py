"""Layouts as text, in the grammar of grammar.py. Frames and messages are numbered as they are written; fields sorted.

A value is decimal, or hexadecimal (0x3FF) as the pattern of the message's bits. That of a float may have a fraction and
an exponent (-1.5e-3); it is rounded once, to the nearest float.
"""

from __future__ import annotations

import re
from typing import Callable, Optional

from .floats import finite, nearest, shortest
from .grammar import NAME, NUMBER, Mistake, Mistakes, Said, Word, check_characters, said_in, words_in
from .records import (
    AGREEMENTS,
    DIRECTIONS,
    FILTERS,
    FLOAT,
    ORDERS,
    SIGNED,
    SIGNS,
    TRIGGERS,
    VALUES,
    Field,
    Frame,
    Layout,
    Message,
    Record,
)
from .verdict import FLOATS, NAMES, fault_of, no_field
from .words import aligned, counted, shown

# The most digits of a whole number, of a pattern, of a float and of its exponent. No value needs as many, and many more
# would take long to calculate with.
DIGITS, PATTERN_DIGITS, FLOAT_DIGITS, EXPONENT_DIGITS = 10, 8, 1000, 8


def check_digits(part: str, word: Word, digits: str, most: int) -> None:
    """A number has no more digits than it may have."""
    if len(digits) > most:
        raise Mistake(word, f"{NAMES.get(part, part)} {shown(word.text)} has too many digits, {most} at most")


def whole(part: str, word: Word) -> int:
    """The whole number that a word stands for, decimal or hexadecimal."""
    if word.text.startswith("0x"):
        check_digits(part, word, word.text[2:], PATTERN_DIGITS)
        return int(word.text, 16)
    check_digits(part, word, word.text.lstrip("-"), DIGITS)
    return int(word.text)


def numbers(said: Said) -> dict[str, int]:
    """The parts that are said in numbers, without the values of a message."""
    return {part: whole(part, word) for part, word in said.items() if part not in ("kind", "name", "frame", *VALUES)}


def frame_of(number: int, said: Said) -> Frame:
    """The frame that a line describes."""
    return Frame(said["name"].text, number, **numbers(said))


def message_of(number: int, said: Said) -> Message:
    """The message that a line describes."""
    message = Message(said["name"].text, number, **numbers(said))
    return message._replace(**{part: value_of(message, part, said[part]) for part in VALUES if part in said})


def field_of(message: int, frame: int, said: Said) -> Field:
    """The field that a line describes."""
    return Field(message, frame, **numbers(said))


def value_of(message: Message, part: str, word: Word) -> int:
    """The value that a word stands for, of a float its pattern."""
    is_pattern = word.text.startswith("0x")
    if message.sign == FLOAT and not is_pattern:
        return float_of(part, word)
    if not NUMBER.fullmatch(word.text):
        # A float may have been meant.
        wanted = f"expected a whole number, as {shown(message.name)} is not a float"
        raise Mistake(word, f"{wanted}, found `{shown(word.text)}`")
    value = whole(part, word)
    if message.sign == SIGNED and is_pattern and 1 <= message.width <= 32 and value >> message.width - 1 == 1:
        value -= 2**message.width
    return value


def float_of(part: str, word: Word) -> int:
    """The pattern of the float that a word stands for."""
    digits, *exponent = re.split("[eE][-+]?", word.text.lstrip("-"))
    check_digits(part, word, digits.replace(".", ""), FLOAT_DIGITS)
    check_digits(f"the exponent of {part}", word, "".join(exponent), EXPONENT_DIGITS)
    pattern = nearest(word.text)
    if not finite(pattern):
        raise Mistake(word, f"{part} {shown(word.text)} is not {FLOATS}")
    return pattern


class Reading:
    """A text on its way to a layout: what its lines say, and what is wrong so far.

    Of each line one mistake is told. What follows from a wrong line alone is not: nothing is tested that needs the
    frame or the message that it may have meant.
    """

    def __init__(self) -> None:
        self.mistakes: list[Mistake] = []
        self.frames: dict[str, Said] = {}
        self.messages: dict[str, Said] = {}
        self.fields: list[tuple[str, Said]] = []  # with the names of their messages
        self.message: Optional[str] = None  # the name of the message above, empty where its line is wrong
        self.placed: set[Optional[str]] = set()  # the names of messages that have fields, right or wrong
        self.meant: set[str] = set()  # the words of wrong lines, which may be names of frames
        self.nameless = False  # whether a wrong frame has no name, so that it may have any
        self.doubled: set[str] = set()  # the names that were given twice
        self.lines: dict[Record, Said] = {}

    def read_line(self, line: int, text: str) -> None:
        """Take up what a line says, or what is wrong with it."""
        words = words_in(line, text)
        try:
            check_characters(line, text)
            self.take_up(said_in(words))
        except Mistake as mistake:
            self.mistakes.append(mistake)
            if words[0].text:
                self.leave_out(words)

    def leave_out(self, words: list[Word]) -> None:
        """Note what a wrong line may have meant: a field of the message above, or else a frame or another message."""
        self.placed.add(self.message)
        if words[0].text != "in":
            self.message = ""
            self.meant.update(word.text for word in words)
            self.nameless |= words[0].text == "frame" and not NAME.fullmatch(words[1].text)

    def take_up(self, said: Said) -> None:
        """Take up a frame, a message or a field, whose numbers are looked at whatever the lines above are."""
        numbers(said)
        if "frame" in said:
            if self.message is None:
                raise Mistake(said["kind"], "expected a message before its fields")
            self.placed.add(self.message)
            self.fields.append((self.message, said))
        elif said:
            known = self.frames if "length" in said else self.messages
            name = said["name"]
            if name.text in known:
                self.doubled.add(name.text)
                line = known[name.text]["name"].line
                raise Mistake(name, f"the name {shown(name.text)} is taken in line {line}")
            known[name.text] = said
            if known is self.messages:
                self.message = name.text

    def layout(self) -> Layout:
        """The layout of the lines that are right."""
        layout = Layout()
        frames = self.add_all(layout, frame_of, self.frames)
        messages = self.add_all(layout, message_of, self.messages)
        fields = []
        for name, said in self.fields:
            frame = said["frame"]
            if frame.text not in self.frames and frame.text not in self.meant and not self.nameless:
                self.mistakes.append(Mistake(frame, f"there is no frame {shown(frame.text)}"))
            elif name in messages and frame.text in frames and frame.text not in self.doubled:
                fields.append((messages[name], frames[frame.text], said))
        for *numbers, said in sorted(fields, key=lambda field: field[:2]):
            self.add(layout, said, field_of, *numbers)
        for message in layout.messages:
            if message.name not in self.placed:
                self.mistakes.append(Mistake(self.messages[message.name]["name"], no_field(message).words))
        return layout

    def add_all(self, layout: Layout, make: Callable[..., Record], lines: dict[str, Said]) -> dict[str, int]:
        """Add frames or messages to a layout; their numbers by their names."""
        numbers: dict[str, int] = {}
        for name, said in lines.items():
            if self.add(layout, said, make, len(numbers)):
                numbers[name] = len(numbers)
        return numbers

    def add(self, layout: Layout, said: Said, make: Callable[..., Record], *numbers: int) -> bool:
        """Add a record to a layout if it is right."""
        try:
            record = make(*numbers, said)
            self.test(layout, record, said)
        except Mistake as mistake:
            self.mistakes.append(mistake)
            return False
        layout.add(record)
        self.lines[record] = said
        return True

    def test(self, layout: Layout, record: Record, said: Said) -> None:
        """The reader of layout files finds no fault with a record."""
        fault = fault_of(layout, record)
        if fault:
            word = said.get(fault.part) or said.get("name") or said["frame"]
            other = fault.other and f"line {self.lines[fault.other]['kind'].line}"
            raise Mistake(word, fault.told(other))


def parse(text: str) -> Layout:
    """The layout that a text describes, or Mistakes."""
    reading = Reading()
    for line, content in enumerate(text.split("\n"), 1):
        reading.read_line(line, content)
    layout = reading.layout()
    if reading.mistakes:
        raise Mistakes(reading.mistakes)
    return layout


def value_words(message: Message, value: int) -> str:
    """A value of a message, of a float as the shortest decimal that reads back."""
    return shortest(value) if message.sign == FLOAT else str(value)


def filter_words(message: Message) -> str:
    """A message's filter with its values in place, masks as patterns."""
    words = FILTERS[message.filter]
    for part, value in (("X1", message.x1), ("X2", message.x2)):
        pattern = f"0x{value & 2**message.width - 1:X}"
        words = words.replace(part, pattern if "&" in words else value_words(message, value))
    return words


def frame_words(frame: Frame) -> list[str]:
    """A frame's line in pieces."""
    size = counted(frame.length, "byte")
    return ["frame", frame.name, size, ORDERS[frame.order], DIRECTIONS[frame.direction], TRIGGERS[frame.trigger]]


def message_words(message: Message) -> list[str]:
    """A message's line in pieces."""
    more = [] if message.direction else [AGREEMENTS[message.agreement]]
    more += [f"filter {filter_words(message)}"] if message.filter else []
    more += [f"initial {value_words(message, message.initial)}"] if message.initial else []
    size = counted(message.width, "bit")
    return ["message", message.name, size, SIGNS[message.sign], DIRECTIONS[message.direction], "  ".join(more)]


def field_words(layout: Layout, field: Field) -> list[str]:
    """A field's line in pieces."""
    words = [f"  in {layout.frames[field.frame].name}", f"at {field.start}"]
    return words + ([f"status {field.place}"] if field.present else [])


def write(layout: Layout) -> str:
    """The text of a layout, which parses to the same records."""
    lines = aligned([frame_words(frame) for frame in layout.frames])
    for message, line in zip(layout.messages, aligned([message_words(message) for message in layout.messages])):
        lines += ["", line, *aligned([field_words(layout, field) for field in layout.fields_of(message)])]
    return "".join(line + "\n" for line in lines)


def listing(layout: Layout) -> str:
    """What the listing program prints for a layout."""
    lines = ["message frame start width status"]
    for field in layout.fields:
        width = layout.messages[field.message].width
        status = field.place if field.present else "-"
        lines.append(f"{field.message} {field.frame} {field.start} {width} {status}")
    return "".join(line + "\n" for line in lines)
