"""Pictures of frames: no word leaves its room, no message looks like another, and all is told in words too."""

import re
import unittest
import xml.etree.ElementTree as xml
from collections import Counter
from collections.abc import Iterator
from random import Random

from mondgurt_layout import shapes, svg
from mondgurt_layout.drawing import letter
from mondgurt_layout.records import Layout
from mondgurt_layout.text import parse

from .layouts import SAMPLES, random_layout

NAMESPACE = "{http://www.w3.org/2000/svg}"
WIDE = "W" * 200

# How wide characters of DejaVu Sans Bold and of DejaVu Sans are, in parts of their size.
TRUE_WIDTHS = {
    " ": (0.348, 0.318),
    ".": (0.380, 0.318),
    ":": (0.400, 0.337),
    "i": (0.343, 0.278),
    "l": (0.343, 0.278),
    "-": (0.415, 0.361),
    "r": (0.493, 0.411),
    "t": (0.478, 0.392),
    "_": (0.500, 0.500),
    "0": (0.696, 0.636),
    "b": (0.716, 0.635),
    "e": (0.678, 0.615),
    "n": (0.712, 0.634),
    "&": (0.872, 0.780),
    "A": (0.774, 0.684),
    "Q": (0.850, 0.787),
    "@": (1.000, 1.000),
    "M": (0.995, 0.863),
    "W": (1.103, 0.989),
    "m": (1.042, 0.974),
    "w": (0.924, 0.818),
    "%": (1.002, 0.950),
}


def drawn(layout: Layout, title: str = "a") -> xml.Element:
    """The picture of all frames."""
    return xml.fromstring(svg.picture(layout, layout.frames, title))


def words_in(root: xml.Element) -> Iterator[tuple[str, str, float, float, str]]:
    """The texts that are seen: style, anchor, place and content."""
    for element in root.iter(f"{NAMESPACE}text"):
        get = element.attrib
        yield get["class"], get["text-anchor"], float(get["x"]), float(get["y"]), "".join(seen(element))


def seen(element: xml.Element) -> Iterator[str]:
    """The words of a text without its tooltip."""
    yield element.text or ""
    yield from (child.tail or "" for child in element)


def many() -> Layout:
    """32 messages with names of any length: 16 of one bit, and 16 of three."""
    lines = [f"frame {WIDE} 16 bytes", "frame b 32 bytes big"]
    for number in range(32):
        name = (f"{WIDE}{number}", f"a_name_that_goes_on_and_on_and_on_{number}", f"m{number}")[number % 3]
        width, start = (1, number) if number < 16 else (3, 3 * number - 32)
        lines.append(f"message {name} {width} bits".replace(" 1 bits", " 1 bit"))
        lines.append(f"in {WIDE} at {start} status {64 + number}")
    return parse("\n".join(lines))


def luminance(colour: str) -> float:
    """How light a colour is, from 0 to 1, by the guidelines for accessible content (WCAG 2)."""
    digits = colour[1:] if len(colour) == 7 else "".join(2 * digit for digit in colour[1:])
    parts = [part / 255 for part in bytes.fromhex(digits)]
    red, green, blue = (part / 12.92 if part <= 0.04045 else ((part + 0.055) / 1.055) ** 2.4 for part in parts)
    return 0.2126 * red + 0.7152 * green + 0.0722 * blue


def contrast(one: str, other: str) -> float:
    """The contrast of two colours; 4.5 is enough for small words."""
    darker, lighter = sorted((luminance(one), luminance(other)))
    return (lighter + 0.05) / (darker + 0.05)


class Pictures(unittest.TestCase):
    def test_random_layouts(self) -> None:
        random = Random(3)
        for _ in range(20):
            layout = random_layout(random)
            words = [content for *_, content in words_in(drawn(layout, "a < b"))]
            self.assertIn("a < b", words)
            self.assertEqual(sum(field.present for field in layout.fields), words.count("status"))
            small = [content for style, *_, content in words_in(drawn(layout)) if style == "small"]
            bits = sum(layout.messages[field.message].width + field.present for field in layout.fields)
            self.assertEqual(bits, len(small))

    def test_words_keep_to_their_room(self) -> None:
        layouts = [many(), *(parse((SAMPLES / f"{name}.txt").read_text()) for name in ("brake", "largest", "strain"))]
        for layout in layouts:
            root = drawn(layout, "W" * 300)
            width, height = float(root.attrib["width"]), float(root.attrib["height"])
            panels = [(svg.MARGIN + column * (svg.PANEL + svg.MARGIN), svg.PANEL) for column in range(2)]
            for style, anchor, x, y, content in words_in(root):
                room = shapes.width_of(style, content)
                left = x - {"start": 0, "middle": room / 2, "end": room}[anchor]
                if style == "title" or content in svg.NOTE:
                    self.assertLessEqual(left + room, width - svg.MARGIN, content)
                else:
                    self.assertTrue(any(at <= left and left + room <= at + size for at, size in panels), content)
                self.assertLess(y, height)

    def test_no_character_needs_more_room(self) -> None:
        for style, size in shapes.SIZES.items():
            for character, (bold, normal) in TRUE_WIDTHS.items():
                true_width = size * (bold if style in shapes.BOLD else normal)
                self.assertGreaterEqual(shapes.width_of(style, character), true_width, character)

    def test_width(self) -> None:
        for frames, columns in ((1, 1), (2, 2), (3, 2)):
            root = drawn(parse("".join(f"frame f{number} 1 byte\n" for number in range(frames))))
            self.assertEqual(columns * svg.PANEL + (columns + 1) * svg.MARGIN, float(root.attrib["width"]))

    def test_words_on_bits_keep_to_them(self) -> None:
        for box in drawn(many()).iter(f"{NAMESPACE}g"):
            edge = box.findall(f"{NAMESPACE}rect")[-1].attrib
            left, width = float(edge["x"]), float(edge["width"])
            for style, _, x, _, content in words_in(box):
                room = shapes.width_of(style, content)
                self.assertTrue(left <= x - room / 2 and x + room / 2 <= left + width, content)

    def test_what_is_shortened_is_whole_in_a_tooltip(self) -> None:
        root = drawn(many(), "W" * 300)
        whole = {child.text for element in root.iter(f"{NAMESPACE}text") for child in element}
        long_names = {message.name for message in many().messages if len(message.name) > 30}
        self.assertEqual({"W" * 300, WIDE} | long_names, whole)

    def test_each_message_has_a_look_of_its_own(self) -> None:
        layout = many()
        looks: dict[str, set[tuple[str, ...]]] = {}
        for box in drawn(layout).iter(f"{NAMESPACE}g"):
            fills = [part.attrib["fill"] for part in box.findall(f"{NAMESPACE}rect")]
            looks.setdefault(box.findtext(f"{NAMESPACE}title"), set()).add(tuple(fills))
        self.assertEqual({message.name for message in layout.messages}, set(looks))
        # That of its bits, and that of its status bit.
        self.assertEqual({2}, set(map(len, looks.values())))
        self.assertEqual([1] * 64, list(Counter(look for both in looks.values() for look in both).values()))

    def test_textures(self) -> None:
        # Each is there, and white, so that words on it stay readable.
        root = drawn(many())
        [textures] = root.findall(f"{NAMESPACE}defs")
        fills = {element.attrib.get("fill", "") for element in root.iter(f"{NAMESPACE}rect")}
        used = {fill[len("url(#") : -1] for fill in fills if fill.startswith("url")}
        self.assertEqual({texture.attrib["id"] for texture in textures}, used)
        self.assertEqual(["#fff"], [element.attrib["fill"] for element in textures.iter() if "fill" in element.attrib])

    def test_words_on_colours_are_dark_in_both_schemes(self) -> None:
        root = drawn(many())
        tinted = [element for group in root.iter(f"{NAMESPACE}g") if group.attrib["class"] == "tinted" for element in group]
        boxes = [element.attrib for element in root.iter(f"{NAMESPACE}rect") if element.attrib.get("fill") in svg.COLOURS]
        edges = [[float(box[name]) for name in ("x", "y", "width", "height")] for box in boxes]
        for words in root.iter(f"{NAMESPACE}text"):
            x, y = float(words.attrib["x"]), float(words.attrib["y"])
            on_colour = any(left < x < left + width and top < y < top + height for left, top, width, height in edges)
            self.assertEqual(on_colour, words in tinted, words.text)

    def test_each_stretch_has_its_letter(self) -> None:
        layout = many()
        letters = {message.name: letter(message) for message in layout.messages}
        for box in drawn(layout).iter(f"{NAMESPACE}g"):
            [label] = [content for style, *_, content in words_in(box) if style == "name"]
            name = box.findtext(f"{NAMESPACE}title")
            self.assertIn(label, (letters[name], f"{letters[name]} {name}"))

    def test_key(self) -> None:
        received = "message m 10 bits signed received vote filter -5 <= new <= 0x3F initial -1\nin a at 3 status 0\n"
        sent = "message n 4 bits sent filter new & 0xC != 4 initial 9\nin b at 0 status 7\n"
        layout = parse(f"frame a 2 bytes\nframe b 1 byte sent\n{received}{sent}")
        words = [content for *_, content in words_in(drawn(layout))]
        self.assertIn("10 bits, signed, little at 3, status 0", words)
        self.assertIn("vote, filter -5 <= new <= 63, initial -1", words)
        self.assertIn("4 bits, unsigned, little at 0, status 7", words)
        self.assertIn("filter new & 0xC != 0x4, initial 9", words)

    def test_long_filter_in_the_key(self) -> None:
        # It is broken between its words, and nothing of it is lost.
        said = "filter -3.4028235e38 > new or new > 3.4028235e38"
        layout = parse(f"frame a 4 bytes\nmessage m 32 bits float {said}\nin a at 0")
        words = [content for style, *_, content in words_in(drawn(layout)) if style == "note"]
        self.assertIn(f"pick any {said}, initial 0.0", " ".join(words))

    def test_entries_of_the_key_keep_apart(self) -> None:
        # Some have more lines than others. No line touches the one above it, and a line would fit in above each name.
        long = "float filter -3.4028235e38 > new or new > 3.4028235e38"
        messages = [f"message m{number} 32 bits {'' if number % 2 else long}\nin a at {32 * number}\n" for number in range(4)]
        root = drawn(parse("frame a 16 bytes\n" + "".join(messages)))
        left = svg.MARGIN + svg.PANEL - svg.KEY_ROOM
        key = [(style, y) for style, _, x, y, _ in words_in(root) if x == left]
        self.assertEqual(4, [style for style, _ in key].count("name"))
        for (_, above), (style, y) in zip(key, key[1:]):
            self.assertGreater(y - above, shapes.SIZES[style] * (2 if style == "name" else 1))

    def test_described(self) -> None:
        frames = "frame a 2 bytes big\nframe b 1 byte sent event\n"
        messages = "message m 10 bits average\nin a at 3 status 0\nmessage n 1 bit\nin a at 15\n"
        root = drawn(parse(frames + messages), "bench")
        self.assertEqual("img", root.attrib["role"])
        named = {element.attrib.get("id"): element.text for element in root}
        self.assertEqual("bench", named[root.attrib["aria-labelledby"]])
        self.assertEqual(
            "Which message owns which bit of 2 frames. "
            "a is frame 0, 2 bytes, big order, received, time. "
            "A, m, lies in bits 3 to 12 with status bit 0: unsigned, average, filter true, initial 0. "
            "B, n, lies in bit 15: unsigned, pick any, filter true, initial 0. "
            "b is frame 1, 1 byte, little order, sent, event. All its bits are free.",
            named[root.attrib["aria-describedby"]],
        )

    def test_readable_in_the_light_and_in_the_dark(self) -> None:
        style = shapes.STYLE + svg.STYLE
        dark = "\n".join(re.findall(r"@media \(prefers-color-scheme: dark\) \{\n(.*?)\n\}", style, re.DOTALL))
        for rules in (style.replace(dark, ""), dark):
            fill = dict(re.findall(r"^(\S+) \{.*fill: (#\w+)", rules, re.MULTILINE))
            for words in ("text", ".note"):
                self.assertGreater(contrast(fill[words], fill[".paper"]), 4.5)
            self.assertNotEqual(fill[".free"], fill[".paper"])
        [ink] = re.findall(r"^\.tinted text \{ fill: (#\w+)", style, re.MULTILINE)
        for colour in svg.COLOURS:
            self.assertGreater(contrast(ink, colour), 4.5, colour)

    def test_unprintable_title(self) -> None:
        title = "a\x1b[31m\udcff & b"
        words = [content for *_, content in words_in(drawn(Layout(), title))]
        self.assertIn("a\\x1b[31m\\udcff & b", words)


if __name__ == "__main__":
    unittest.main()
