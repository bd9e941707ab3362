"""Which message owns which bit of a frame, drawn for the terminal."""

from __future__ import annotations

from typing import Optional

from .records import (
    AGREEMENTS,
    COMPARE_WITH_OLD,
    DIRECTIONS,
    OLD,
    ORDERS,
    SIGNS,
    TRIGGERS,
    Bit,
    Field,
    Frame,
    Layout,
    Message,
    byte_and_bit,
)
from .text import filter_words, value_words
from .words import aligned, counted, shown

LETTERS = "ABCDEFGHIJKLMNOPQRSTUVWXYZabcdef"


def letter(message: Message) -> str:
    """The letter that stands for a message, the same in all frames."""
    return LETTERS[message.number]


def rows(layout: Layout, frame: Frame) -> list[list[Optional[Bit]]]:
    """What the bits 7 to 0 of each byte hold, None where they are free."""
    grid: list[list[Optional[Bit]]] = [[None] * 8 for _ in range(frame.length)]
    for place, bit in layout.bits_in(frame).items():
        byte, column = byte_and_bit(frame, place)
        grid[byte][7 - column] = bit
    return grid


def places(frame: Frame, byte: int) -> str:
    """The frame bits of a byte as they stand from its bit 7 to its bit 0."""
    first, last = 8 * byte, 8 * byte + 7
    return f"{first}..{last}" if frame.order == 1 else f"{last}..{first}"


def label(bit: Optional[Bit]) -> str:
    """A bit in short: A3 is bit 3 of message A, A* its status bit, a dot is free."""
    if bit is None:
        return "."
    return letter(bit.message) + ("*" if bit.bit is None else str(bit.bit))


def frame_words(frame: Frame) -> list[str]:
    """What a frame's record says, in words."""
    words = [f"{ORDERS[frame.order]} order", DIRECTIONS[frame.direction], TRIGGERS[frame.trigger]]
    return [f"frame {frame.number}", counted(frame.length, "byte"), *words]


def field_words(layout: Layout, field: Field) -> list[str]:
    """What a message is and where it lies in a frame, in words."""
    message, frame = layout.messages[field.message], layout.frames[field.frame]
    words = [counted(message.width, "bit"), SIGNS[message.sign], f"{ORDERS[frame.order]} at {field.start}"]
    return words + ([f"status {field.place}"] if field.present else [])


def rule_words(message: Message) -> list[str]:
    """How the instances of a message agree, if it is received, its filter and its initial value, in words."""
    agreement = [] if message.direction else [AGREEMENTS[message.agreement]]
    return [*agreement, f"filter {filter_words(message)}", f"initial {value_words(message, message.initial)}"]


def picture(layout: Layout, frame: Frame) -> str:
    """A frame for the terminal: a row for each byte, a column for each bit, and its messages below."""
    lines = [f"{shown(frame.name)}: {', '.join(frame_words(frame))}", ""]
    lines.append(" " * 17 + "".join(f"{bit:4}" for bit in range(7, -1, -1)))
    for byte, row in enumerate(rows(layout, frame)):
        lines.append(f"byte {byte:<3}{places(frame, byte):>9}" + "".join(f"{label(bit):>4}" for bit in row))
    messages = [(layout.messages[field.message], field) for field in layout.fields_in(frame)]
    key = [[f"  {letter(message)}", shown(message.name), *field_words(layout, field)] for message, field in messages]
    lines.append("")
    for line, (message, _) in zip(aligned(key), messages):
        lines += [line, f"     {'  '.join(rule_words(message))}"]
    return "".join(line + "\n" for line in lines)


def key(layout: Layout, frames: list[Frame]) -> str:
    """What stands in the pictures of some frames, and what old is if a filter there compares with it."""
    filters = {layout.messages[field.message].filter for frame in frames for field in layout.fields_in(frame)}
    old = [OLD] if filters.intersection(COMPARE_WITH_OLD) else []
    lines = ["A3 is bit 3 of message A, A* its status bit, and a dot is a free bit.", *old]
    return "".join(line + "\n" for line in lines)
