"""Who names whom among the crates, read from their files, where they stand in the picture, and how it looks."""

import os
import re
import subprocess
import sys
import tempfile
import unittest
import xml.etree.ElementTree as xml
from pathlib import Path

from mondgurt_crates.crates import direct, read_crates
from mondgurt_crates.layers import Spot, arrange, heights, lines, spread, width
from mondgurt_layout.files import Unfit
from mondgurt_layout.shapes import width_of

TOOLS = Path(__file__).resolve().parents[1]
NAMESPACE = "{http://www.w3.org/2000/svg}"

CHAIN = {"a": set(), "b": {"a"}, "c": {"a", "b"}, "d": {"a"}, "e": {"c", "d"}}


def edges(group: xml.Element) -> tuple[float, float, float, float]:
    """The left, upper, right and lower edge of a crate's box."""
    left, top, width_of_box, height = (float(group.find(f"{NAMESPACE}rect").attrib[name]) for name in ("x", "y", "width", "height"))
    return left, top, left + width_of_box, top + height


class Files(unittest.TestCase):
    def setUp(self) -> None:
        folder = tempfile.TemporaryDirectory()
        self.addCleanup(folder.cleanup)
        self.root = Path(folder.name)
        self.write("crates/low/src/lib.rt", "// Below all. More of it.\n#[unsafe(no_mangle)]\npub fn one() -> u8 {\n    1\n}\n")
        self.write("crates/words/src/lib.rt", "// No code: only\n// words.\n")
        self.write("crates/words/specs/Words.antt", "-- Rattle.high is only a comment here.\nuse Rattle.low.specs.Low.{one}\n")
        self.write("crates/high/src/main.rt", "// The program.\nghost use Rattle.words.specs.Words.{two};\nfn main() {\n    low::one();\n}\n")
        self.write("crates.txt", "# A line for each.\nlow staticlib:\nwords: low\nhigh: low words\n")

    def write(self, name: str, content: str) -> None:
        path = self.root / name
        path.parent.mkdir(parents=True, exist_ok=True)
        path.write_text(content, encoding="utf-8")


class Reading(Files):
    def test_what_the_files_say(self) -> None:
        low, words, high = read_crates(self.root)
        self.assertEqual(("Below all", True, False, True, set()), (low.says, low.has_code, low.is_program, low.is_linked, low.names))
        self.assertEqual(("No code: only words", False, set(), {"low"}), (words.says, words.has_code, words.calls, words.names))
        self.assertEqual((True, {"low"}, {"low", "words"}), (high.is_program, high.calls, high.names))

    def test_what_a_line_has_of_the_kit_is_no_crate(self) -> None:
        self.write("crates/high/src/main.rt", "// The program.\nuse arrayvec::ArrayVec;\nfn main() {\n    low::one();\n    itoa::Buffer::new();\n}\n")
        self.write("crates/words/specs/Words.antt", "use Rattle.arrayvec.specs.Room.{room}\nuse Rattle.low.specs.Low.{one}\n")
        self.write("crates.txt", "low:\nwords: arrayvec low\nhigh: itoa arrayvec low words\n")
        named = {crate.name: (crate.calls, crate.names) for crate in read_crates(self.root)}
        self.assertEqual({"low": (set(), set()), "words": (set(), {"low"}), "high": ({"low"}, {"low"})}, named)

    def test_a_crate_below_is_named(self) -> None:
        self.write("crates.txt", "low:\nhigh: low words\nwords: low\n")
        with self.assertRaisesRegex(Unfit, "high names words, which does not stand before it"):
            read_crates(self.root)

    def test_a_named_crate_is_not_listed(self) -> None:
        self.write("crates.txt", "low:\nwords: low\nhigh: low\n")
        with self.assertRaisesRegex(Unfit, "high names words, which its line does not have"):
            read_crates(self.root)


class Look(Files):
    def drawn(self) -> xml.Element:
        """The picture of the crates here."""
        self.write("tools/architecture", (TOOLS / "architecture").read_text())
        environment = {**os.environ, "PYTHONPATH": str(TOOLS)}
        command = [sys.executable, str(self.root / "tools/architecture")]
        return xml.fromstring(subprocess.run(command, env=environment, check=True, stdout=subprocess.PIPE).stdout)

    def test_boxes(self) -> None:
        boxes = {group.attrib["id"]: group.find(f"{NAMESPACE}rect").attrib for group in self.drawn().iter(f"{NAMESPACE}g")}
        self.assertEqual({"low": "line code linked", "words": "line", "high": "line code"}, {name: box["class"] for name, box in boxes.items()})
        self.assertEqual({"high"}, {name for name, box in boxes.items() if 2 * float(box["rx"]) == float(box["height"])})

    def test_arrows(self) -> None:
        root = self.drawn()
        crates = {group.attrib["id"]: edges(group) for group in root.iter(f"{NAMESPACE}g")}
        arrows = {}
        for line in root.findall(f"{NAMESPACE}path"):
            x, y, *_, to_x, to_y = map(float, re.findall(r"[\d.]+", line.attrib["d"]))
            [upper] = (name for name, (left, _, right, bottom) in crates.items() if left < x < right and y == bottom)
            [lower] = (name for name, (left, top, right, _) in crates.items() if left < to_x < right and top - 10 < to_y < top)
            arrows[upper, lower] = line.attrib["class"]
        self.assertEqual({("high", "low"): "line", ("high", "words"): "line rests", ("words", "low"): "line rests"}, arrows)

    def test_a_long_sentence_keeps_to_its_box(self) -> None:
        says = " ".join(["many words"] * 40)
        self.write("crates/words/src/lib.rt", f"// {says}.\n")
        [group] = (group for group in self.drawn().iter(f"{NAMESPACE}g") if group.attrib["id"] == "words")
        left, top, right, bottom = edges(group)
        _, *said = group.findall(f"{NAMESPACE}text")
        # A shortened line has its tooltip first.
        words = [line.text or line[0].tail for line in said]
        self.assertEqual((3, True), (len(said), words[-1].endswith("..")))
        self.assertEqual(says, group.findtext(f"{NAMESPACE}title"))
        for line, content in zip(said, words):
            x, half = float(line.attrib["x"]), width_of("small", content) / 2
            self.assertTrue(left < x - half and x + half < right and top < float(line.attrib["y"]) < bottom, content)


class Picture(unittest.TestCase):
    def test_what_is_reached_by_way_of_another_has_no_arrow(self) -> None:
        self.assertEqual({"a": set(), "b": {"a"}, "c": {"b"}, "d": {"a"}, "e": {"c", "d"}}, direct(CHAIN))

    def test_each_crate_stands_above_all_that_it_names(self) -> None:
        self.assertEqual({"a": 0, "b": 1, "c": 2, "d": 1, "e": 3}, heights(CHAIN))

    def test_lines_pass_through_the_rows_between(self) -> None:
        rows = heights(CHAIN)
        self.assertIn([Spot(3, "e"), Spot(2, "", ("e", "d")), Spot(1, "d")], lines(direct(CHAIN), rows))

    def test_no_two_spots_of_a_row_overlap(self) -> None:
        rows = heights(CHAIN)
        places = arrange(lines(direct(CHAIN), rows), rows)
        for one in places:
            for other in places:
                if one != other and one.row == other.row:
                    self.assertGreaterEqual(abs(places[one] - places[other]) + 1e-9, (width(one) + width(other)) / 2)

    def test_spots_that_want_one_place_share_it_evenly(self) -> None:
        left, right = Spot(0, "left"), Spot(0, "right")
        self.assertEqual({left: 4.5, right: 5.5}, spread([left, right], {left: 5.0, right: 5.0}))


if __name__ == "__main__":
    unittest.main()
