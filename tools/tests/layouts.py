"""Layouts for the tests: files written in hexadecimal, and random layouts that must be accepted."""

from __future__ import annotations

from pathlib import Path
from random import Random
from typing import Optional

from mondgurt_layout.floats import LARGEST, MINUS, finite
from mondgurt_layout.records import FLOAT, SIGNED, UNSIGNED, Field, Frame, Layout, Message

SAMPLES = Path(__file__).resolve().parents[2] / "samples"


def file(*records: str) -> bytes:
    """Records written in hexadecimal, each filled with zeros."""
    return b"".join(bytes.fromhex(record).ljust(24, b"\0") for record in records)


def put(record: str, byte: int, values: str) -> str:
    """A record with other values from a byte on, all in hexadecimal."""
    raw, changed = file(record), bytes.fromhex(values)
    return (raw[:byte] + changed + raw[byte + len(changed) :]).hex()


def values_of(width: int, sign: int) -> tuple[int, int]:
    """The least and the greatest value of a message that is no float."""
    return (-(2 ** (width - 1)), 2 ** (width - 1) - 1) if sign else (0, 2**width - 1)


def random_value(random: Random, width: int, sign: int) -> int:
    """A value of a message, of a float a finite pattern."""
    if sign == FLOAT:
        pattern = random.choice([0, MINUS, 1, LARGEST, MINUS | LARGEST, random.getrandbits(32)])
        return pattern if finite(pattern) else 0
    least, greatest = values_of(width, sign)
    return random.choice([least, greatest, random.randint(least, greatest)])


def random_message(random: Random, number: int, direction: int) -> Message:
    """A message of any width with a filter and values in range."""
    sign = random.choice((UNSIGNED, SIGNED, FLOAT))
    width = 32 if sign == FLOAT else random.randint(1, 32)
    filter_number = random.choice((0, 1, 4, 5, 8, 9, 10, 11, 12, 13) if sign == FLOAT else range(14))
    values = [random_value(random, width, sign) for _ in range(3)]
    x1 = values[0] if filter_number in (2, 3, 6, 7, 8, 9) else 0
    x2 = values[1] if filter_number in (2, 3, 8, 9) else 0
    agreement = 0 if direction else random.randint(0, 2)
    name = f"message{number}"
    return Message(name, number, width, sign, direction, agreement, filter_number, x1, x2, values[2])


def random_field(random: Random, message: Message, status: bool, frame: Frame, used: set[int]) -> Optional[Field]:
    """A field at bits that were free, or None where there is no room."""
    free = set(range(8 * frame.length)) - used
    starts = [start for start in sorted(free) if free.issuperset(range(start, start + message.width))]
    if frame.direction != message.direction or not starts:
        return None
    start = random.choice(starts)
    bits = set(range(start, start + message.width))
    if status and free == bits:
        return None
    place = random.choice(sorted(free - bits)) if status else 0
    used.update(bits, {place} if status else ())
    return Field(message.number, frame.number, start, int(status), place)


def random_layout(random: Random) -> Layout:
    """A layout of any size that breaks no rule."""
    layout = Layout()
    for number in range(random.randint(0, 32)):
        length, order, direction, trigger = random.randint(1, 32), *random.choices((0, 1), k=3)
        layout.frames.append(Frame(f"frame{number}", number, length, order, direction, trigger))
    used: list[set[int]] = [set() for _ in layout.frames]
    for _ in range(random.randint(0, 32) if layout.frames else 0):
        message = random_message(random, len(layout.messages), random.choice(layout.frames).direction)
        status = random.random() < 0.5 or message.direction == 1 and message.filter > 0
        frames = random.sample(layout.frames, random.randint(1, min(8, len(layout.frames))))
        tried = [random_field(random, message, status, frame, used[frame.number]) for frame in frames]
        fields = sorted(field for field in tried if field)
        if fields and len(layout.fields) + len(fields) <= 128:
            layout.messages.append(message)
            layout.fields += fields
    return layout
