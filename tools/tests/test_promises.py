"""docs/PROMISES.md names every must-fail edit, and as what it is: of code, of a definition, or of both. A control has the name of the edit beside it."""

import re
import unittest
from pathlib import Path

ROOT = Path(__file__).resolve().parent.parent.parent
PROMISES = (ROOT / "docs/PROMISES.md").read_text()
NAMED = re.compile(r"\*\*([^*]+)\*\*(ᶜ?ᵈ)?")
MARKS = {("src",): "", ("specs",): "ᵈ", ("specs", "src"): "ᶜᵈ"}


def edits(folder: str) -> list[Path]:
    return sorted(ROOT.glob(f"crates/*/{folder}/*.edit"))


def mark_of(edit: Path) -> str:
    files = re.findall(r"^file: (\w+)/", edit.read_text(), re.MULTILINE)
    return MARKS[tuple(sorted(set(files)))]


class Promises(unittest.TestCase):
    def test_no_two_edits_have_one_name(self) -> None:
        names = [edit.stem for edit in edits("must-fail")]
        self.assertEqual(sorted(set(names)), sorted(names))

    def test_each_edit_is_named_as_what_it_is(self) -> None:
        self.assertEqual({edit.stem: {mark_of(edit)} for edit in edits("must-fail")}, self.named())

    def test_each_control_stands_beside_an_edit(self) -> None:
        section = PROMISES.split("## Controls\n")[1].split("\n## ")[0]
        for control in edits("controls"):
            with self.subTest(control=control.stem):
                self.assertTrue((control.parent.parent / "must-fail" / control.name).exists())
                self.assertIn(f"**{control.stem}**", section)

    def named(self) -> dict[str, set[str]]:
        marks: dict[str, set[str]] = {}
        for name, mark in NAMED.findall(PROMISES):
            marks.setdefault(name, set()).add(mark)
        return marks


if __name__ == "__main__":
    unittest.main()
