"""The reader's verdict: the paper's tests in the paper's order, each refusal also said in words."""

from __future__ import annotations

from collections.abc import Iterable, Iterator
from heapq import merge
from itertools import chain
from operator import attrgetter
from typing import NamedTuple, Optional

from .floats import LARGEST, MINUS, finite, shortest
from .records import (
    AGREEMENTS,
    DIRECTIONS,
    FILTERS,
    FLOAT,
    LONGEST,
    ORDERS,
    RECORD,
    SIGNED,
    SIGNS,
    TRIGGERS,
    VALUES,
    Field,
    Frame,
    Layout,
    Message,
    Record,
    decode,
)
from .words import counted, either, shown

SIZE, ORDER, RANGE, REF, GROUP, PLACE, NOFIELD, RESERVED, UNUSED, WIDTH = range(1, 11)
REFUSALS = ("", "SIZE", "ORDER", "RANGE", "REF", "GROUP", "PLACE", "NOFIELD", "RESERVED", "UNUSED", "WIDTH")

# What the paper calls a part, where that is longer.
NAMES = {"present": "status bit present", "place": "status bit place"}
# The words for the numbers 0, 1, 2 .. of a part.
WORDS = {
    "order": ORDERS,
    "direction": DIRECTIONS,
    "trigger": TRIGGERS,
    "sign": SIGNS,
    "agreement": AGREEMENTS,
    "filter": FILTERS,
    "present": ("no", "yes"),
}

USE_X1 = (2, 3, 6, 7, 8, 9)
USE_X2 = (2, 3, 8, 9)
MASKS = (2, 3, 6, 7)

# What a value of a float may be.
FLOATS = f"{shortest(MINUS | LARGEST)} to {shortest(LARGEST)}, the values of a float"


# Only the first fault counts, so a test may rely on those before it.
class Fault(NamedTuple):
    """The refusal, the part of a record at fault, what is wrong with it, and the byte or the other field if given."""

    number: int
    part: str
    words: str
    byte: Optional[int] = None
    other: Optional[Field] = None

    def told(self, other: Optional[str]) -> str:
        """What is wrong, with the place of the other field."""
        return f"{self.words}, {other}" if other else self.words


class Refused(Exception):
    """A refusal: the record, its fault, and where that is in the words of the listing program."""

    def __init__(self, record: int, fault: Fault, other: Optional[str] = None) -> None:
        self.record, self.number, self.byte, self.words = record, fault.number, fault.byte, fault.told(other)
        self.at = f"record {record}" if self.byte is None else f"record {record} byte {self.byte}"
        super().__init__(f"refused {self.number} {REFUSALS[self.number]} {self.at}: {self.words}")


class Range(NamedTuple):
    """The first byte of a part, its least and greatest value, why only these, and the refusal of any other."""

    byte: int
    part: str
    least: int
    greatest: int
    reason: str = ""
    number: int = RANGE


def read(file: bytes) -> Layout:
    """The layout of a file, or Refused. One that is too long need not be whole."""
    if len(file) > LONGEST:
        raise Refused(0, Fault(SIZE, "length", f"a layout file has at most {LONGEST} bytes"))
    if len(file) % RECORD:
        are = "is" if len(file) == 1 else "are"
        raise Refused(0, Fault(SIZE, "length", f"{counted(len(file), 'byte')} {are} not a multiple of {RECORD}"))
    return accept(decode(file[at : at + RECORD]) for at in range(0, len(file), RECORD))


def accept(records: Iterable[Optional[Record]]) -> Layout:
    """The layout of records in file order, or Refused."""
    layout = Layout()
    for place, record in enumerate(records):
        if record is None:
            raise Refused(place, Fault(ORDER, "kind", "the kind is not 1 to 3"))
        fault = fault_of(layout, record)
        if fault:
            raise Refused(place, fault, fault.other and f"record {layout.record_of(fault.other)}")
        layout.add(record)
    for message in layout.messages:
        if not layout.fields_of(message):
            raise Refused(len(layout.frames) + message.number, no_field(message))
    return layout


def fault_of(layout: Layout, record: Record) -> Optional[Fault]:
    """The first fault of a record that follows those of a layout."""
    return next(chain.from_iterable(faults(layout, record) for faults in TESTS), None)


def no_field(message: Message) -> Fault:
    """The fault of a message without a field."""
    return Fault(NOFIELD, "name", f"{shown(message.name)} has no field")


def order_faults(layout: Layout, record: Record) -> Iterator[Fault]:
    """Kinds do not fall, numbers are the next from 0, and pairs of message and frame rise."""
    if isinstance(record, Field):
        before = layout.fields[-1][:2] if layout.fields else (-1, -1)
        if record[:2] == before:
            words = "the message has a field in this frame already"
            yield Fault(ORDER, "frame", words, other=layout.fields[-1])
        if record[:2] < before:
            yield Fault(ORDER, "frame", "the pair of message and frame is not above that of the field before")
    else:
        is_frame = isinstance(record, Frame)
        if layout.fields or is_frame and layout.messages:
            yield Fault(ORDER, "kind", "the kind is below the kind before")
        following = len(layout.frames) if is_frame else len(layout.messages)
        if record.number != following:
            yield Fault(ORDER, "number", f"number {record.number} is not the next, {following}")


def byte_faults(layout: Layout, record: Record) -> Iterator[Fault]:
    """Every part lies in its range, and the reserved bytes are zero; the lowest byte decides."""
    faults = (range_faults(record), float_faults(record), reserved_faults(record))
    yield from merge(*faults, key=attrgetter("byte"))


def reserved_faults(record: Record) -> Iterator[Fault]:
    """The reserved bytes that are not zero, upwards."""
    for byte, value in enumerate(record.reserved):
        if value:
            where = f"byte {byte} of a {type(record).__name__.lower()} record"
            yield Fault(RESERVED, "reserved", f"{where} has no meaning, so it must be 0, not {value}", byte)


def range_faults(record: Record) -> Iterator[Fault]:
    """The parts that do not lie in their range, upwards."""
    for byte, part, least, greatest, reason, number in ranges(record):
        value = getattr(record, part)
        if not least <= value <= greatest:
            allowed = span(record, part, least, greatest)
            words = f"{NAMES.get(part, part)} {told(record, part, value)} is not {allowed}"
            yield Fault(number, part, f"{words}, {reason}" if reason else words, byte)


def float_faults(record: Record) -> Iterator[Fault]:
    """What only a float may not have, upwards: a mask, and used words that are not finite."""
    if not isinstance(record, Message) or record.sign != FLOAT:
        return
    if record.filter in MASKS:
        words = f"filter {told(record, 'filter', record.filter)} is not 0, 1, 4, 5 or 8 to 13"
        yield Fault(RANGE, "filter", f"{words}, as a float takes no mask", 6)
    for byte, part, used in words_of(record):
        value = getattr(record, part)
        if used and not finite(value):
            yield Fault(WIDTH, part, f"{part} {told(record, part, value)} is not {FLOATS}", byte)


def ranges(record: Record) -> Iterator[Range]:
    """The parts of a record, upwards."""
    if isinstance(record, Field):
        yield Range(4, "present", 0, 1)
        if not record.present:
            yield Range(5, "place", 0, 0, "as no status bit is present")
    elif isinstance(record, Frame):
        yield Range(1, "number", 0, 31, "as there are at most 32 frames")
        yield Range(2, "length", 1, 32)
        yield Range(3, "order", 0, 1)
        yield Range(4, "direction", 0, 1)
        yield Range(5, "trigger", 0, 1)
    else:
        yield Range(1, "number", 0, 31, "as there are at most 32 messages")
        yield Range(2, "width", 1, 32)
        if record.width == 32:
            yield Range(3, "sign", 0, 2)
        else:
            yield Range(3, "sign", 0, 1, "as a float has 32 bits")
        yield Range(4, "direction", 0, 1)
        if record.direction:
            yield Range(5, "agreement", 0, 0, "as the message is sent")
        else:
            yield Range(5, "agreement", 0, 2)
        yield Range(6, "filter", 0, 13)
        for byte, part, used in words_of(record):
            yield value_range(record, byte, part) if used else unused_range(record, byte, part)


def words_of(message: Message) -> Iterator[tuple[int, str, bool]]:
    """The words of a message, upwards: the first byte, the part, and whether it is used."""
    yield 8, "x1", message.filter in USE_X1
    yield 12, "x2", message.filter in USE_X2
    yield 16, "initial", True


def value_range(message: Message, byte: int, part: str) -> Range:
    """A word that holds a value of its message."""
    reason = f"the values of {counted(message.width, SIGNS[message.sign] + ' bit')}"
    return Range(byte, part, *values_of(message.width, message.sign), reason, WIDTH)


def unused_range(message: Message, byte: int, part: str) -> Range:
    """A word that the filter does not use."""
    reason = f"as filter {told(message, 'filter', message.filter)} does not use it"
    return Range(byte, part, 0, 0, reason, UNUSED)


def told(record: Record, part: str, value: int) -> str:
    """A value of a part, with its word if it has one, or as a decimal if it is a float."""
    if isinstance(record, Message) and record.sign == FLOAT and part in VALUES:
        return shortest(value) if finite(value) else f"0x{value:08X} (not finite)"
    words = WORDS.get(part, ())
    return f"{value} ({words[value]})" if 0 <= value < len(words) else f"{value}"


def span(record: Record, part: str, least: int, greatest: int) -> str:
    """What a part may be; up to three values are told one by one."""
    if greatest - least < 3:
        return either(told(record, part, value) for value in range(least, greatest + 1))
    return f"{least} to {greatest}"


def values_of(width: int, sign: int) -> tuple[int, int]:
    """The least and the greatest value of a message; of a float, those of its patterns."""
    return (-(2 ** (width - 1)), 2 ** (width - 1) - 1) if sign == SIGNED else (0, 2**width - 1)


def ref_faults(layout: Layout, record: Record) -> Iterator[Fault]:
    """A field's message and frame are there and have one direction."""
    if not isinstance(record, Field):
        return
    if record.message >= len(layout.messages):
        yield Fault(REF, "message", f"there is no message {record.message}")
    if record.frame >= len(layout.frames):
        yield Fault(REF, "frame", f"there is no frame {record.frame}")
    message, frame = layout.messages[record.message], layout.frames[record.frame]
    if message.direction != frame.direction:
        directions = DIRECTIONS[message.direction], DIRECTIONS[frame.direction]
        words = f"{shown(message.name)} is {directions[0]} and {shown(frame.name)} is {directions[1]}"
        yield Fault(REF, "frame", words)


def group_faults(layout: Layout, record: Record) -> Iterator[Fault]:
    """A message's fields are few and alike, and a filtered sent message has a status bit."""
    if not isinstance(record, Field):
        return
    message = layout.messages[record.message]
    name = shown(message.name)
    earlier = layout.fields_of(message)
    if len(earlier) == 8:
        yield Fault(GROUP, "frame", f"{name} has 8 fields already")
    if len(layout.fields) == 128:
        yield Fault(GROUP, "frame", "there are 128 fields already")
    if earlier and earlier[0].present != record.present:
        other = shown(layout.frames[earlier[0].frame].name)
        if record.present:
            yield Fault(GROUP, "present", f"{name} has no status bit in {other}, so it can have none here")
        else:
            yield Fault(GROUP, "frame", f"{name} has a status bit in {other}, so it needs one here")
    if message.direction and message.filter and not record.present:
        yield Fault(GROUP, "frame", f"{name} is sent through a filter, so it needs a status bit")


def place_faults(layout: Layout, record: Record) -> Iterator[Fault]:
    """A field's bits and its status bit lie in the frame and are free."""
    if not isinstance(record, Field):
        return
    frame = layout.frames[record.frame]
    last = 8 * frame.length - 1
    owners = {place: field for field in layout.fields_in(frame) for place, _ in layout.bits_of(field)}
    for place, bit in layout.bits_of(record):
        part = "place" if bit.bit is None else "start"
        if not 0 <= place <= last:
            yield Fault(PLACE, part, f"bit {place} is not in {shown(frame.name)}, which has bits 0 to {last}")
        if place in owners:
            owner = owners[place]
            words = f"bit {place} of {shown(frame.name)} is taken by {shown(layout.messages[owner.message].name)}"
            yield Fault(PLACE, part, f"{words} itself") if owner is record else Fault(PLACE, part, words, other=owner)
        owners[place] = record


TESTS = (order_faults, byte_faults, ref_faults, group_faults, place_faults)
