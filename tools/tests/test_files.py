"""Text or layout file: what is told by content, that no file is read further than it has to be, and that what is closed stays as it is."""

import os
import tempfile
import unittest
from pathlib import Path
from random import Random

from mondgurt_layout.files import LONGEST_TEXT, Unfit, content, is_layout_file, write
from mondgurt_layout.grammar import Mistakes
from mondgurt_layout.records import LONGEST, RECORD, Layout, Message
from mondgurt_layout.text import write as write_text

from .layouts import SAMPLES, file, put, random_layout

FRAME = b"frame a 2 bytes\n"
# The message with the fewest control bytes: its number, width and filter are ends of lines, and its values are letters.
LETTERS = Message("m", 10, 32, filter=9, x1=0x20206E69, x2=0x20206E69, initial=0x6D617266)


class Kinds(unittest.TestCase):
    def test_layout_files(self) -> None:
        random = Random(4)
        layouts = [random_layout(random) for _ in range(200)] + [Layout(messages=[LETTERS] * 32)]
        for layout in layouts:
            raw = layout.to_bytes()
            self.assertEqual(bool(raw), is_layout_file(raw))
        for sample in SAMPLES.glob("*.layout"):
            self.assertTrue(is_layout_file(sample.read_bytes()))

    def test_damaged_layout_files(self) -> None:
        whole = (SAMPLES / "paper.layout").read_bytes()
        for length in range(1, len(whole)):
            self.assertTrue(is_layout_file(whole[:length]), f"{length} bytes")
        for record in (file("01 00 02"), file("03 00 00 03"), Layout(messages=[LETTERS]).to_bytes()):
            for at in range(RECORD):
                for value in range(256):
                    damaged = put(record.hex(), at, f"{value:02X}")
                    self.assertTrue(is_layout_file(file(damaged)), damaged)

    def test_bytes_that_are_nothing(self) -> None:
        random = Random(5)
        for length in (100, 1000, 5000):
            for _ in range(100):
                self.assertTrue(is_layout_file(random.randbytes(length)))
        self.assertTrue(is_layout_file(bytes(LONGEST + 1)))

    def test_texts(self) -> None:
        random = Random(6)
        texts = [write_text(random_layout(random)).encode() for _ in range(50)]
        texts += [sample.read_bytes() for sample in SAMPLES.glob("*.txt")]
        for text in texts:
            self.assertFalse(is_layout_file(text))
            self.assertFalse(is_layout_file(text.replace(b"\n", b"\r\n")))
            self.assertFalse(is_layout_file(b"\xef\xbb\xbf" + text))

    def test_wrong_texts(self) -> None:
        for text in (
            b"fr\x07ame a 2 bytes",
            b"\x1b[31mframe\x1b[0m a 2 bytes",
            b"frame a\0 2 bytes\n",
            b"# caf\xe9\n",
            "# Штамп".encode("koi8-r"),
            "frame a 2 bytes".encode("utf-16"),
            b"\xfe\xff" + "frame a 2 bytes".encode("utf-16-be"),
        ):
            self.assertFalse(is_layout_file(text), text)

    def test_a_quarter_of_control_bytes(self) -> None:
        self.assertTrue(is_layout_file(b"\1abc" * 5))
        self.assertFalse(is_layout_file(b"\1abc" * 5 + b"d"))

    def test_a_character_at_the_end_of_the_beginning(self) -> None:
        # The beginning that is looked at may end within a character.
        text = b"#\x07" + b" " * (LONGEST - 2) + "é".encode()
        self.assertFalse(is_layout_file(text[: LONGEST + 1]))


class Contents(unittest.TestCase):
    def setUp(self) -> None:
        folder = tempfile.TemporaryDirectory()
        self.addCleanup(folder.cleanup)
        self.path = Path(folder.name) / "a"

    def test_ends_of_lines_and_byte_order_mark(self) -> None:
        for raw in (b"a\nb\n", b"a\r\nb\r\n", b"a\rb\r", b"\xef\xbb\xbfa\nb\n"):
            self.path.write_bytes(raw)
            self.assertEqual("a\nb\n", content(self.path))

    def test_utf_16(self) -> None:
        for raw in ("frame".encode("utf-16"), b"\xfe\xff" + "frame".encode("utf-16-be")):
            self.path.write_bytes(raw)
            with self.assertRaisesRegex(Mistakes, "^this is UTF-16, and a text is UTF-8$"):
                content(self.path)

    def test_longest_text(self) -> None:
        self.path.write_bytes(b"#" * LONGEST_TEXT)
        self.assertEqual("#" * LONGEST_TEXT, content(self.path))
        self.path.write_bytes(b"#" * (LONGEST_TEXT + 1))
        with self.assertRaisesRegex(Unfit, f"a: a text has at most {LONGEST_TEXT} bytes$"):
            content(self.path)

    def test_no_further_than_needed(self) -> None:
        reader, writer = os.pipe()
        self.addCleanup(os.close, reader)
        os.write(writer, bytes(10000))
        os.close(writer)
        self.assertEqual(bytes(LONGEST + 1), content(Path(f"/dev/fd/{reader}")))
        self.assertEqual(10000 - LONGEST - 1, len(os.read(reader, 10000)))

    def test_in_pieces(self) -> None:
        # Each read of this pipe gives what one write brought.
        largest = (SAMPLES / "largest.layout").read_bytes()
        reader, writer = os.pipe2(os.O_DIRECT)
        self.addCleanup(os.close, reader)
        for at in range(0, len(largest), 500):
            os.write(writer, largest[at : at + 500])
        os.close(writer)
        self.assertEqual(largest, content(Path(f"/dev/fd/{reader}")))

    def test_not_allowed(self) -> None:
        # Nothing is closed to the superuser, so there another user reads and writes.
        if os.geteuid() == 0:
            self.path.parent.chmod(0o777)
            try:
                os.seteuid(65534)
            except OSError:
                self.skipTest("there is no other user")
            self.addCleanup(os.seteuid, 0)
        self.path.write_bytes(b"old")
        self.path.chmod(0o400)
        with self.assertRaisesRegex(PermissionError, f"Permission denied: '{self.path}'$"):
            write(self.path, b"new")
        self.assertEqual(b"old", self.path.read_bytes())
        self.path.chmod(0o200)
        with self.assertRaisesRegex(PermissionError, f"Permission denied: '{self.path}'$"):
            content(self.path)


if __name__ == "__main__":
    unittest.main()
