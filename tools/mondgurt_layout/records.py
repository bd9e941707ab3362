"""The records of a layout file, in the words of the paper, and a layout made of them."""

from __future__ import annotations

import struct
from collections.abc import Iterator
from dataclasses import dataclass, field
from typing import NamedTuple, Optional, Union

RECORD = 24
LONGEST = 192 * RECORD

# The words for the numbers 0, 1, 2 .. of a part; X1 and X2 stand for values.
ORDERS = ("little", "big")
DIRECTIONS = ("received", "sent")
TRIGGERS = ("time", "event")
SIGNS = ("unsigned", "signed", "float")
UNSIGNED, SIGNED, FLOAT = range(3)
AGREEMENTS = ("pick any", "average", "vote")
FILTERS = (
    "true",
    "false",
    "new & X1 = X2",
    "new & X1 != X2",
    "new = old",
    "new != old",
    "new & X1 unchanged",
    "new & X1 changed",
    "X1 <= new <= X2",
    "X1 > new or new > X2",
    "new > old",
    "new <= old",
    "new < old",
    "new >= old",
)
COMPARE_WITH_OLD = (4, 5, 6, 7, 10, 11, 12, 13)
OLD = "In a filter, old is the value that the message holds, at first its initial value; changed and unchanged compare with it too."

# The parts of a message that hold values of it.
VALUES = ("x1", "x2", "initial")


class Frame(NamedTuple):
    """A frame record; a file has no names, so there they are made up."""

    name: str
    number: int
    length: int
    order: int = 0
    direction: int = 0
    trigger: int = 0
    reserved: bytes = bytes(RECORD)  # the record's bytes that have no name in the paper; the others are zero here


class Message(NamedTuple):
    """A message record; x1, x2 and initial are values, not patterns, but for a float: there they are patterns."""

    name: str
    number: int
    width: int
    sign: int = 0
    direction: int = 0
    agreement: int = 0
    filter: int = 0
    x1: int = 0
    x2: int = 0
    initial: int = 0
    reserved: bytes = bytes(RECORD)


class Field(NamedTuple):
    """A field record; place is the status bit's, if one is present."""

    message: int
    frame: int
    start: int
    present: int = 0
    place: int = 0
    reserved: bytes = bytes(RECORD)


Record = Union[Frame, Message, Field]


def encode(record: Record) -> bytes:
    """The 24 bytes of a record whose parts are in range."""
    if isinstance(record, Frame):
        return struct.pack("<6B18x", 1, *record[1:6])
    if isinstance(record, Message):
        patterns = [value & 0xFFFFFFFF for value in record[7:10]]
        return struct.pack("<7Bx3I4x", 2, *record[1:7], *patterns)
    return struct.pack("<6B18x", 3, *record[:5])


def decode(raw: bytes) -> Optional[Record]:
    """The record in 24 bytes, or None where the kind is not 1 to 3."""
    if raw[0] == 1:
        return Frame._make([f"frame{raw[1]}", *raw[1:6], bytes(6) + raw[6:]])
    if raw[0] == 2:
        values = struct.unpack("<3i" if raw[3] == SIGNED else "<3I", raw[8:20])
        reserved = bytes(7) + raw[7:8] + bytes(12) + raw[20:]
        return Message._make([f"message{raw[1]}", *raw[1:7], *values, reserved])
    if raw[0] == 3:
        return Field._make([*raw[1:6], bytes(6) + raw[6:]])
    return None


class Bit(NamedTuple):
    """What a frame bit holds: a bit of a message, or its status bit where the bit is None."""

    message: Message
    bit: Optional[int]


@dataclass
class Layout:
    """Frames, messages and fields, each in file order."""

    frames: list[Frame] = field(default_factory=list)
    messages: list[Message] = field(default_factory=list)
    fields: list[Field] = field(default_factory=list)

    def add(self, record: Record) -> None:
        """Take up one more record."""
        if isinstance(record, Frame):
            self.frames.append(record)
        elif isinstance(record, Message):
            self.messages.append(record)
        else:
            self.fields.append(record)

    def to_bytes(self) -> bytes:
        """The layout file."""
        records: list[Record] = [*self.frames, *self.messages, *self.fields]
        return b"".join(map(encode, records))

    def record_of(self, field: Field) -> int:
        """The place of a field's record in the file, from 0."""
        return len(self.frames) + len(self.messages) + self.fields.index(field)

    def fields_of(self, message: Message) -> list[Field]:
        """The fields of a message, in the order of their frames."""
        return [field for field in self.fields if field.message == message.number]

    def fields_in(self, frame: Frame) -> list[Field]:
        """The fields in a frame, in the order of their messages."""
        return [field for field in self.fields if field.frame == frame.number]

    def bits_of(self, field: Field) -> Iterator[tuple[int, Bit]]:
        """The frame bits of a field and what they hold; the status bit comes last."""
        message = self.messages[field.message]
        big = self.frames[field.frame].order == 1
        for offset in range(message.width):
            yield field.start + offset, Bit(message, message.width - 1 - offset if big else offset)
        if field.present:
            yield field.place, Bit(message, None)

    def bits_in(self, frame: Frame) -> dict[int, Bit]:
        """The used bits of a frame and what they hold."""
        return {place: bit for field in self.fields_in(frame) for place, bit in self.bits_of(field)}


def byte_and_bit(frame: Frame, place: int) -> tuple[int, int]:
    """Where a frame bit lies: its byte, and its bit in that byte, 0 the least significant."""
    byte, bit = divmod(place, 8)
    return byte, 7 - bit if frame.order == 1 else bit
