"""Which message owns which bit of a frame, drawn as SVG."""

from __future__ import annotations

from collections.abc import Iterator
from itertools import groupby
from typing import Optional

from .drawing import field_words, frame_words, letter, rule_words, places, rows
from .records import SIGNS, Bit, Field, Frame, Layout, Message
from .shapes import box, document, group, path, text, width_of, wrapped
from .words import counted

# The sizes of a bit, of what stands around the bits of a frame, and of a message in the key.
WIDTH, HEIGHT = 46, 38
MARGIN, HEAD, SIDE, GAP = 28, 64, 76, 28
SQUARE, LINE, BETWEEN = 26, 14, 12
KEY, KEY_ROOM = 300, 264
PANEL = SIDE + 8 * WIDTH + GAP + KEY

# Paul Tol's light colours: colour-blind people can tell them apart, and dark words are readable on each.
COLOURS = ("#77AADD", "#EE8866", "#EEDD88", "#44BB99", "#FFAABB", "#BBCC33", "#99DDFF", "#AAAA00")

# What is tinted has one of these colours in both schemes, so that its words stay dark.
STYLE = """\
.edge { stroke: #444; stroke-width: 1.2 }
.tinted text { fill: #222 }
.free { fill: #f5f5f5; stroke: #d5d5d5 }
.between { stroke: #444; stroke-opacity: 0.35 }
@media (prefers-color-scheme: dark) {
.free { fill: #1f242b; stroke: #3a414b }
}
"""

# What lies over the colours of the second, third and fourth eight messages, and over status bits. It is white, so that
# words stay readable.
TEXTURES = ([], ["dots"], ["lines"], ["squares"])
PATTERNS = """\
<defs fill="#fff" fill-opacity="0.65">
<pattern id="dots" width="7" height="7" patternUnits="userSpaceOnUse">
<circle cx="3.5" cy="3.5" r="1.6"/>
</pattern>
<pattern id="lines" width="6" height="6" patternUnits="userSpaceOnUse">
<rect width="6" height="1.5"/>
</pattern>
<pattern id="squares" width="8" height="8" patternUnits="userSpaceOnUse">
<path d="M0 0h8v1.2h-6.8v6.8h-1.2z"/>
</pattern>
<pattern id="stripes" width="7" height="7" patternUnits="userSpaceOnUse" patternTransform="rotate(45)">
<rect width="3" height="7"/>
</pattern>
</defs>"""

NOTE = (
    "A letter is a message, the same in all frames; below it stand the message's bits that lie there. "
    "Striped: its status bit. Empty: free."
)


def owned(x: float, y: float, width: float, height: float, message: Message, status: bool = False) -> Iterator[str]:
    """A rectangle in the look of a message, which is the same in all frames, or of its status bit."""
    eights, colour = divmod(message.number, len(COLOURS))
    yield box(x, y, width, height, f'fill="{COLOURS[colour]}"')
    for texture in TEXTURES[eights] + ["stripes"] * status:
        yield box(x, y, width, height, f'fill="url(#{texture})"')
    yield box(x, y, width, height, 'class="edge" fill="none"')


def stretch(x: float, y: float, bits: list[Bit]) -> Iterator[str]:
    """Neighbouring bits of a message, or its status bit."""
    message, status, width = bits[0].message, bits[0].bit is None, WIDTH * len(bits)
    yield from owned(x, y, width, HEIGHT, message, status)
    both = f"{letter(message)} {message.name}"
    whole = not status and width_of("name", both) <= width - 4
    yield text(x + width / 2, y + 16, "name", both if whole else letter(message), "middle")
    for place, bit in enumerate(bits):
        if place:
            yield path(f"M{x + WIDTH * place:g} {y + HEIGHT - 16:g}v16", 'class="between"')
        yield text(x + WIDTH * (place + 0.5), y + 31, "small", "status" if status else f"{bit.bit}", "middle")


def stretches(row: list[Optional[Bit]]) -> Iterator[tuple[int, list[Bit]]]:
    """The neighbouring bits of a byte that belong together, with the column where they begin."""
    for owner, cells in groupby(enumerate(row), key=lambda cell: cell[1] and (cell[1].message, cell[1].bit is None)):
        columns, bits = zip(*cells)
        if owner:
            yield columns[0], list(bits)


def key_lines(layout: Layout, field: Field) -> list[str]:
    """What the key says of a message below its name."""
    said = field_words(layout, field), rule_words(layout.messages[field.message])
    return [line for words in said for line in wrapped("note", words, KEY_ROOM)]


def key_height(layout: Layout, field: Field) -> int:
    """The height of a message in the key."""
    return LINE * (1 + len(key_lines(layout, field))) + BETWEEN


def key_entry(layout: Layout, field: Field, x: float, y: float) -> Iterator[str]:
    """A message in the key of a frame."""
    message = layout.messages[field.message]
    square = [*owned(x, y, SQUARE, SQUARE, message), text(x + 13, y + 18, "name", letter(message), "middle")]
    yield group('class="tinted"', message.name, square)
    yield text(x + KEY - KEY_ROOM, y + 11, "name", message.name, room=KEY_ROOM)
    for number, line in enumerate(key_lines(layout, field), 1):
        yield text(x + KEY - KEY_ROOM, y + 11 + LINE * number, "note", line, room=KEY_ROOM)


def height_of(layout: Layout, frame: Frame) -> int:
    """The height of a frame's panel."""
    key = sum(key_height(layout, field) for field in layout.fields_in(frame))
    return HEAD + max(HEIGHT * frame.length, key) + MARGIN


def grid(frame: Frame, left: float, top: float) -> Iterator[str]:
    """The bits of a frame while all are free, with their numbers."""
    for column in range(8):
        yield text(left + WIDTH * (column + 0.5), top - 7, "note", f"{7 - column}", "middle")
    for byte in range(frame.length):
        yield text(left - 10, top + HEIGHT * byte + 16, "note", f"byte {byte}", "end")
        yield text(left - 10, top + HEIGHT * byte + 31, "note", places(frame, byte), "end")
        for column in range(8):
            yield box(left + WIDTH * column, top + HEIGHT * byte, WIDTH, HEIGHT, 'class="free"')


def panel(layout: Layout, frame: Frame, x: float, y: float) -> Iterator[str]:
    """A frame with the key beside it."""
    yield text(x, y + 16, "heading", frame.name, room=PANEL)
    yield text(x, y + 34, "note", ", ".join(frame_words(frame)), room=PANEL)
    left, top = x + SIDE, y + HEAD
    yield from grid(frame, left, top)
    for byte, row in enumerate(rows(layout, frame)):
        for column, bits in stretches(row):
            parts = stretch(left + WIDTH * column, top + HEIGHT * byte, bits)
            yield group('class="tinted"', bits[0].message.name, parts)
    for field in layout.fields_in(frame):
        yield from key_entry(layout, field, left + 8 * WIDTH + GAP, top)
        top += key_height(layout, field)


def described(layout: Layout, frame: Frame) -> Iterator[str]:
    """What a panel shows, in sentences."""
    yield f"{frame.name} is {', '.join(frame_words(frame))}."
    for field in layout.fields_in(frame):
        message = layout.messages[field.message]
        last = field.start + message.width - 1
        bits = f"bit {last}" if message.width == 1 else f"bits {field.start} to {last}"
        status = f" with status bit {field.place}" if field.present else ""
        words = ", ".join([SIGNS[message.sign], *rule_words(message)])
        yield f"{letter(message)}, {message.name}, lies in {bits}{status}: {words}."
    if not layout.fields_in(frame):
        yield "All its bits are free."


def description(layout: Layout, frames: list[Frame]) -> Iterator[str]:
    """What the picture shows, in sentences."""
    yield f"Which message owns which bit of {counted(len(frames), 'frame')}."
    for frame in frames:
        yield from described(layout, frame)


def picture(layout: Layout, frames: list[Frame], title: str) -> str:
    """The frames in two columns under a title."""
    columns = 2 if len(frames) > 1 else 1
    width = MARGIN + columns * (PANEL + MARGIN)
    room = width - 2 * MARGIN
    y = MARGIN + 16
    parts = [PATTERNS, text(MARGIN, y, "title", title, room=room)]
    y += 8
    for line in wrapped("note", [NOTE], room):
        y += LINE
        parts.append(text(MARGIN, y, "note", line))
    y += LINE + 2
    for at in range(0, len(frames), columns):
        row = frames[at : at + columns]
        for column, frame in enumerate(row):
            parts += panel(layout, frame, MARGIN + column * (PANEL + MARGIN), y)
        y += max(height_of(layout, frame) for frame in row)
    return document(width, y, title, " ".join(description(layout, frames)), parts, STYLE)
