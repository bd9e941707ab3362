"""The shapes that pictures are made of, as SVG: words that keep to their room, boxes, and a document of them.

It can be read in the light and in the dark, and its description can be read aloud.
"""

from __future__ import annotations

from collections.abc import Iterable
from html import escape
from typing import Optional

from .words import printable

# The styles of words, with the size of their letters.
SIZES = {"title": 22, "heading": 16, "name": 12, "note": 11, "small": 10}
BOLD = ("title", "heading", "name")

# The widths of bold characters in parts of their size, and how much narrower others are. They are generous: none of
# DejaVu Sans or Arial is wider.
CHARACTERS = {
    0.42: " ',.:ijl",
    0.57: "!\"()-;I[]frt|",
    0.73: "/0123456789\\_`abcdeghknopqsuvxyz{}",
    0.92: "#$&*+<=>?ABCDEFGHJKLNOPQRSTUVXYZ^~",
    1.15: "@MWmw",
}
WIDTHS = {character: width for width, characters in CHARACTERS.items() for character in characters}
WIDEST, NOT_BOLD = 1.3, 0.92

# Rules for the light, and others for the dark: a viewer that knows no schemes shows the light ones. Variables would be
# shorter, but where they are not known all is black.
STYLE = """
text { font-family: Verdana, "DejaVu Sans", Helvetica, Arial, sans-serif; fill: #222 }
.note { fill: #555 }
.paper { fill: #fff }
.line { fill: none; stroke: #555 }
@media (prefers-color-scheme: dark) {
text { fill: #e6e6e6 }
.note { fill: #b0b0b0 }
.paper { fill: #14171c }
.line { stroke: #b0b0b0 }
}
""" + "".join(
    f".{style} {{ font-size: {size}px; font-weight: {'bold' if style in BOLD else 'normal'} }}\n"
    for style, size in SIZES.items()
)


def width_of(style: str, content: str) -> float:
    """The room that words need at most."""
    size = SIZES[style] if style in BOLD else SIZES[style] * NOT_BOLD
    return size * sum(WIDTHS.get(character, WIDEST) for character in content)


def shortened(style: str, content: str, room: float) -> str:
    """Words as they are if there is room for them, else their beginning and two dots."""
    if width_of(style, content) <= room:
        return content
    content = content[: max(int(room), 0)]  # no character is narrower than 1
    while content and width_of(style, content + "..") > room:
        content = content[:-1]
    return content + ".."


def wrapped(style: str, pieces: list[str], room: float, between: str = ", ") -> list[str]:
    """Pieces in lines for which there is room; a longer piece is broken between its words."""
    lines: list[str] = []
    for piece in pieces:
        if lines and width_of(style, lines[-1] + between + piece) <= room:
            lines[-1] += between + piece
        elif " " in piece and width_of(style, piece) > room:
            lines += wrapped(style, piece.split(" "), room, " ")
        else:
            lines.append(piece)
    return lines


def escaped(content: str) -> str:
    """Words as they may stand in SVG."""
    return escape(printable(content))


def text(x: float, y: float, style: str, content: str, anchor: str = "start", room: Optional[float] = None) -> str:
    """Words at a place; those that the room is too small for are shortened, and whole in a tooltip."""
    content = printable(content)
    short = content if room is None else shortened(style, content, room)
    tip = "" if short == content else f"<title>{escape(content)}</title>"
    return f'<text x="{x:g}" y="{y:g}" class="{style}" text-anchor="{anchor}">{tip}{escape(short)}</text>'


def box(x: float, y: float, width: float, height: float, look: str) -> str:
    """A rectangle."""
    return f'<rect x="{x:g}" y="{y:g}" width="{width:g}" height="{height:g}" {look}/>'


def path(steps: str, look: str) -> str:
    """A line along steps."""
    return f'<path d="{steps}" {look}/>'


def group(look: str, tip: str, parts: Iterable[str]) -> str:
    """Parts that belong together, with a tooltip."""
    return "\n".join([f"<g {look}><title>{escaped(tip)}</title>", *parts, "</g>"])


def document(width: float, height: float, title: str, description: str, parts: Iterable[str], style: str = "") -> str:
    """A whole picture, with title and description for those who do not see it, and style beside the common one."""
    size = f'viewBox="0 0 {width:g} {height:g}" width="{width:g}" height="{height:g}"'
    told = 'role="img" aria-labelledby="title" aria-describedby="description"'
    head = [
        f'<svg xmlns="http://www.w3.org/2000/svg" {size} {told}>',
        f'<title id="title">{escaped(title)}</title>',
        f'<desc id="description">{escaped(description)}</desc>',
        f"<style>{STYLE}{style}</style>",
        box(0, 0, width, height, 'class="paper"'),
    ]
    return "\n".join([*head, *parts, "</svg>\n"])
