"""The program itself: what it prints, where, and with which exit status."""

import os
import re
import resource
import shutil
import signal
import stat
import subprocess
import sys
import tempfile
import unittest
from pathlib import Path
from typing import Union

from mondgurt_layout import VERSION

from .layouts import SAMPLES, file, put

ROOT = Path(__file__).resolve().parents[2]
PROGRAM = ROOT / "tools/layout"

FLOATS = "-3.4028235e38 to 3.4028235e38, the values of a float"

# A record after a frame, and how it is refused.
WRONG_BYTES = [
    ("02 00 21", 3, "RANGE", 2, "width 33 is not 1 to 32"),
    ("02 00 0A 00 00 00 00 01", 8, "RESERVED", 7, "byte 7 of a message record has no meaning, so it must be 0, not 1"),
    (put("02 00 0A", 8, "05"), 9, "UNUSED", 8, "x1 5 is not 0, as filter 0 (true) does not use it"),
    (put("02 00 0A", 17, "04"), 10, "WIDTH", 16, "initial 1024 is not 0 to 1023, the values of 10 unsigned bits"),
    ("02 00 0A 02", 3, "RANGE", 3, "sign 2 (float) is not 0 (unsigned) or 1 (signed), as a float has 32 bits"),
    (put("02 00 20 02", 8, "00 00 C0 3F"), 9, "UNUSED", 8, "x1 1.5 is not 0.0, as filter 0 (true) does not use it"),
    (put("02 00 20 02", 16, "00 00 C0 7F"), 10, "WIDTH", 16, f"initial 0x7FC00000 (not finite) is not {FLOATS}"),
]


# A text with two mistakes, and what is told of it.
BAD = "frame a 33 bytes\nframe b 2 bytes\nmessage m 33 bits\n"
BAD_TOLD = "bad:1:9: length 33 is not 1 to 32\nbad:3:11: width 33 is not 1 to 32\n"


class Program(unittest.TestCase):
    def setUp(self) -> None:
        folder = tempfile.TemporaryDirectory()
        self.addCleanup(folder.cleanup)
        self.folder = Path(folder.name)

    def run_layout(self, *arguments: object, **how: object) -> tuple[int, str, str]:
        # What has no end is not read to its end, so nothing here takes long.
        command = [sys.executable, str(PROGRAM), *map(str, arguments)]
        streams = {"stdout": subprocess.PIPE, "stderr": subprocess.PIPE, **how}
        done = subprocess.run(command, cwd=self.folder, encoding="utf-8", timeout=60, **streams)
        return done.returncode, done.stdout, done.stderr

    def put(self, name: str, content: Union[str, bytes]) -> Path:
        """A file in the folder."""
        path = self.folder / name
        path.write_bytes(content if isinstance(content, bytes) else content.encode())
        return path


class Command(Program):
    """What the commands print, and with which status."""

    def test_compile_and_back(self) -> None:
        for name in ("paper", "brake", "largest", "strain"):
            original = SAMPLES / f"{name}.layout"
            self.assertEqual((0, "", ""), self.run_layout("compile", SAMPLES / f"{name}.txt", "-o", "a.layout"))
            self.assertEqual(original.read_bytes(), (self.folder / "a.layout").read_bytes())
            status, text, _ = self.run_layout("text", original)
            (self.folder / "a.txt").write_text(text)
            self.assertEqual((0, "", ""), self.run_layout("compile", "a.txt", "-o", "b.layout"))
            self.assertEqual(original.read_bytes(), (self.folder / "b.layout").read_bytes())

    def test_mistake(self) -> None:
        self.put("bad.txt", "frame a 2 bytes\nmessage m 33 bits\n")
        told = (1, "", "bad.txt:2:11: width 33 is not 1 to 32\n")
        self.assertEqual(told, self.run_layout("compile", "bad.txt", "-o", "bad.layout"))
        self.assertFalse((self.folder / "bad.layout").exists())
        self.assertEqual(told, self.run_layout("draw", "bad.txt"))
        self.put("bad.txt", "frame a 4 bytes\nmessage m 32 bits float initial 1e39\n")
        told = (1, "", f"bad.txt:2:33: initial 1e39 is not {FLOATS}\n")
        self.assertEqual(told, self.run_layout("compile", "bad.txt", "-o", "bad.layout"))

    def test_several_mistakes(self) -> None:
        self.put("bad", BAD)
        for command in (["compile", "bad", "-o", "out"], ["text", "bad"], ["list", "bad"], ["draw", "bad"]):
            self.assertEqual((1, "", BAD_TOLD), self.run_layout(*command))

    def test_many_mistakes(self) -> None:
        lines = [f"bad:{line}:11: length 33 is not 1 to 32\n" for line in range(1, 21)]
        for number, more in ((20, ""), (21, "bad: and 1 mistake more\n"), (32, "bad: and 12 mistakes more\n")):
            self.put("bad", "".join(f"frame f{at:02} 33 bytes\n" for at in range(number)))
            self.assertEqual((1, "", "".join(lines) + more), self.run_layout("list", "bad"))

    def test_refused(self) -> None:
        self.put("bad.layout", file("01 00 02", "02 00 0A", "03 00 00 07"))
        words = "bad.layout: refused 6 PLACE record 2: bit 16 is not in frame0, which has bits 0 to 15\n"
        self.assertEqual((1, "", words), self.run_layout("text", "bad.layout"))
        self.assertEqual((1, "", words), self.run_layout("draw", "bad.layout"))
        self.assertEqual((1, "refused 6 record 2\n", ""), self.run_layout("list", "bad.layout"))

    def test_refused_for_a_byte(self) -> None:
        for record, number, name, byte, words in WRONG_BYTES:
            with self.subTest(words=words):
                self.put("bad.layout", file("01 00 02", record))
                told = f"bad.layout: refused {number} {name} record 1 byte {byte}: {words}\n"
                self.assertEqual((1, "", told), self.run_layout("text", "bad.layout"))
                self.assertEqual((1, "", told), self.run_layout("draw", "bad.layout"))
                listed = f"refused {number} record 1 byte {byte}\n"
                self.assertEqual((1, listed, ""), self.run_layout("list", "bad.layout"))

    def test_list(self) -> None:
        listing = (0, "message frame start width status\n0 0 3 10 -\n", "")
        self.assertEqual(listing, self.run_layout("list", SAMPLES / "paper.layout"))
        self.assertEqual(listing, self.run_layout("list", SAMPLES / "paper.txt"))
        fields = ["0 0 0 32 32", "0 1 0 32 32", "0 2 0 32 32", "1 3 0 32 -"]
        listing = (0, "".join(line + "\n" for line in ["message frame start width status", *fields]), "")
        self.assertEqual(listing, self.run_layout("list", SAMPLES / "strain.layout"))

    def test_draw(self) -> None:
        _, all_frames, _ = self.run_layout("draw", SAMPLES / "brake.txt")
        by_name = self.run_layout("draw", SAMPLES / "brake.txt", "--frame", "pedal_b")
        self.assertEqual(by_name, self.run_layout("draw", SAMPLES / "brake.txt", "--frame", "4"))
        self.assertIn(by_name[1].split("\n\nA3")[0], all_frames)
        self.assertEqual((0, "", ""), self.run_layout("draw", SAMPLES / "brake.txt", "--svg", "brake.svg"))
        self.assertIn("<svg", (self.folder / "brake.svg").read_text())

    def test_old_is_the_held_value(self) -> None:
        brake = ["draw", SAMPLES / "brake.txt", "--frame"]
        for arguments, told in ((["--help"], 1), ([*brake, "service"], 1), ([*brake, "pedal_a"], 0)):
            _, printed, _ = self.run_layout(*arguments)
            self.assertEqual(told, " ".join(printed.split()).count("old is the value that the message holds"))

    def test_no_such_frame(self) -> None:
        source = shutil.copy(SAMPLES / "brake.txt", self.folder / "brake.txt")
        for frame, shown in (
            ("99", "99"),
            ("", ""),
            (" ", " "),
            (" 4", " 4"),
            ("04", "04"),
            ("4\n", "4\\n"),
            ("\x1b[31m", "\\x1b[31m"),
            ("f" * 50, "f" * 40 + ".."),
        ):
            for svg in ([], ["--svg", "brake.svg"]):
                told = f"brake.txt: there is no frame `{shown}`\n"
                self.assertEqual((1, "", told), self.run_layout("draw", "brake.txt", "--frame", frame, *svg))
        self.assertEqual([source], list(self.folder.iterdir()))

    def test_no_such_file(self) -> None:
        self.assertEqual((1, "", "none.txt: No such file or directory\n"), self.run_layout("draw", "none.txt"))
        self.assertEqual((1, "", "a\\x1b[31m: No such file or directory\n"), self.run_layout("draw", "a\x1b[31m"))

    def test_no_file(self) -> None:
        self.put("a", "frame a 2 bytes\n")
        (self.folder / "folder").mkdir()
        self.assertEqual((1, "", "folder: Is a directory\n"), self.run_layout("list", "folder"))
        self.assertEqual((1, "", "folder: Is a directory\n"), self.run_layout("compile", "a", "-o", "folder"))
        self.assertEqual((1, "", "folder: Is a directory\n"), self.run_layout("draw", "a", "--svg", "folder"))
        told = (1, "", "none/b: No such file or directory\n")
        self.assertEqual(told, self.run_layout("compile", "a", "-o", "none/b"))

    def test_unprintable_name(self) -> None:
        for content, told in (
            ("frame a 33 bytes\n", ":1:9: length 33 is not 1 to 32"),
            (file("01 00 21"), ": refused 3 RANGE record 0 byte 2: length 33 is not 1 to 32"),
            (file("01 00 02"), ": this is a layout file already"),
        ):
            self.put("a\x1b[31m", content)
            self.assertEqual((1, "", f"a\\x1b[31m{told}\n"), self.run_layout("compile", "a\x1b[31m", "-o", "out"))

    def test_wrong_usage(self) -> None:
        empty = (["list", ""], ["compile", "a", "-o", ""], ["draw", "a", "--svg", ""])
        for arguments in ([], ["compile", "a"], ["list"], ["none", "a"], ["list", "a", "--frame", "1"], *empty):
            status, printed, told = self.run_layout(*arguments)
            self.assertEqual((2, ""), (status, printed))
            self.assertIn("usage: layout", told)
        _, _, told = self.run_layout("list", "a", "\x1b[31m" + "a" * 1000)
        self.assertEqual(f"layout: error: unrecognized arguments: \\x1b[31m{'a' * 168}..", told.splitlines()[-1])


class Kinds(Program):
    """Whether a file is a text or a layout file is told by its content, whatever its name."""

    def test_names(self) -> None:
        text, layout = (SAMPLES / "brake.txt").read_bytes(), (SAMPLES / "brake.layout").read_bytes()
        for content, names in ((text, ("a", "a.txt", "a.layout")), (layout, ("b", "b.txt", "b.layout"))):
            for name in names:
                self.put(name, content)
        for command in ("list", "text", "draw"):
            for kind in "ab":
                results = [self.run_layout(command, f"{kind}{end}") for end in ("", ".txt", ".layout")]
                self.assertEqual((0, [results[0]] * 3), (results[0][0], results))
        self.assertEqual(self.run_layout("list", "a"), self.run_layout("list", "b"))
        for name in ("a", "a.txt", "a.layout"):
            self.assertEqual((0, "", ""), self.run_layout("compile", name, "-o", "out"))
            self.assertEqual(layout, (self.folder / "out").read_bytes())

    def test_compiled_already(self) -> None:
        self.put("a.txt", (SAMPLES / "brake.layout").read_bytes())
        told = (1, "", "a.txt: this is a layout file already\n")
        self.assertEqual(told, self.run_layout("compile", "a.txt", "-o", "out"))
        self.assertFalse((self.folder / "out").exists())

    def test_damaged(self) -> None:
        whole = (SAMPLES / "paper.layout").read_bytes()
        for raw, number, words in (
            (b"\0" + whole[1:], 2, "ORDER record 0: the kind is not 1 to 3"),
            (b"\xc8" + whole[1:], 2, "ORDER record 0: the kind is not 1 to 3"),
            (b"a" + whole[1:], 2, "ORDER record 0: the kind is not 1 to 3"),
            (whole[:10], 1, "SIZE record 0: 10 bytes are not a multiple of 24"),
            (whole[:1], 1, "SIZE record 0: 1 byte is not a multiple of 24"),
        ):
            self.put("a.txt", raw)
            told = (1, "", f"a.txt: refused {number} {words}\n")
            for command in (["compile", "a.txt", "-o", "out"], ["text", "a.txt"], ["draw", "a.txt"]):
                self.assertEqual(told, self.run_layout(*command))
            self.assertEqual((1, f"refused {number} record 0\n", ""), self.run_layout("list", "a.txt"))

    def test_wrong_texts(self) -> None:
        for raw, told in (
            (b"frame a\x1b[31m 2 bytes\n", "1:8: \\x1b is a control character"),
            (b"frame a 2 bytes\n\0", "2:1: \\x00 is a control character"),
            (b"# caf\xe9\n", "1:6: byte 0xE9 is not UTF-8"),
            ("frame a 2 bytes".encode("utf-16"), "1:1: this is UTF-16, and a text is UTF-8"),
        ):
            self.put("a.layout", raw)
            for command, *more in (["compile", "-o", "out"], ["text"], ["list"], ["draw"]):
                self.assertEqual((1, "", f"a.layout:{told}\n"), self.run_layout(command, "a.layout", *more))

    def test_nothing(self) -> None:
        # It is an empty text and an empty layout file, which are the same layout.
        self.put("a", "")
        self.assertEqual((0, "message frame start width status\n", ""), self.run_layout("list", "a"))
        self.assertEqual((0, "", ""), self.run_layout("text", "a"))
        self.assertEqual((0, "", ""), self.run_layout("compile", "a", "-o", "out"))
        self.assertEqual(b"", (self.folder / "out").read_bytes())

    def test_endless(self) -> None:
        longest = "refused 1 SIZE record 0: a layout file has at most 4608 bytes\n"
        self.assertEqual((1, "refused 1 record 0\n", ""), self.run_layout("list", "/dev/zero"))
        self.assertEqual((1, "", f"/dev/zero: {longest}"), self.run_layout("compile", "/dev/zero", "-o", "out"))
        with open(self.put("huge", b""), "wb") as huge:
            huge.truncate(2**40)
        self.assertEqual((1, "", f"huge: {longest}"), self.run_layout("draw", "huge"))
        for words in ("y", "frame a 2 bytes"):
            with subprocess.Popen(["yes", words], stdout=subprocess.PIPE) as yes:
                told = (1, "", "/dev/stdin: a text has at most 262144 bytes\n")
                self.assertEqual(told, self.run_layout("list", "/dev/stdin", stdin=yes.stdout))
                yes.stdout.close()


class Output(Program):
    """What is written: never over the source, whole or not at all, and a failure is told with the name of the file."""

    def setUp(self) -> None:
        super().setUp()
        self.text = b"frame  a  2 bytes  # why\n"
        self.layout = file("01 00 02")
        self.source = self.put("a", self.text)

    def test_source(self) -> None:
        (self.folder / "folder").mkdir()
        (self.folder / "folder/up").symlink_to("..")
        (self.folder / "link").symlink_to("a")
        os.link(self.source, self.folder / "hard")
        told = "this is the source, which is not overwritten\n"
        for name in ("a", "folder/../a", "folder/up/a", self.source, "link", "hard"):
            self.assertEqual((1, "", f"{name}: {told}"), self.run_layout("compile", "a", "-o", name))
            self.assertEqual((1, "", f"{name}: {told}"), self.run_layout("draw", "a", "--svg", name))
        with open(self.source, "rb") as opened:
            for name in ("./a", "link", "hard", "/dev/stdin"):
                self.assertEqual((1, "", f"a: {told}"), self.run_layout("compile", name, "-o", "a", stdin=opened))
        self.assertEqual(self.text, self.source.read_bytes())

    def test_failed_compile(self) -> None:
        self.put("bad", BAD)
        old = self.put("old", b"old")
        self.assertEqual((1, "", BAD_TOLD), self.run_layout("compile", "bad", "-o", "old"))
        self.assertEqual(b"old", old.read_bytes())

    def test_full_disk(self) -> None:
        old = self.put("old", b"old")
        before = sorted(self.folder.iterdir())

        def no_more() -> None:
            resource.setrlimit(resource.RLIMIT_FSIZE, (10, 10))

        told = (1, "", "old: File too large\n")
        self.assertEqual(told, self.run_layout("compile", "a", "-o", "old", preexec_fn=no_more))
        self.assertEqual(told, self.run_layout("draw", "a", "--svg", "old", preexec_fn=no_more))
        self.assertEqual(b"old", old.read_bytes())
        self.assertEqual(before, sorted(self.folder.iterdir()))

    def test_replaced(self) -> None:
        old = self.put("old", b"old")
        old.chmod(0o640)
        (self.folder / "link").symlink_to("old")
        (self.folder / "new link").symlink_to("new")
        before = sorted(self.folder.iterdir())
        self.assertEqual((0, "", ""), self.run_layout("compile", "a", "-o", "link"))
        self.assertEqual((self.layout, 0o640), (old.read_bytes(), stat.S_IMODE(old.stat().st_mode)))
        self.assertTrue((self.folder / "link").is_symlink())
        done = self.run_layout("compile", "a", "-o", "new link", preexec_fn=lambda: os.umask(0o027))
        self.assertEqual((0, "", ""), done)
        new = self.folder / "new"
        self.assertEqual((self.layout, 0o640), (new.read_bytes(), stat.S_IMODE(new.stat().st_mode)))
        self.assertEqual(sorted([*before, new]), sorted(self.folder.iterdir()))

    def test_devices(self) -> None:
        self.assertEqual((0, self.layout.decode(), ""), self.run_layout("compile", "a", "-o", "/dev/stdout"))
        for source in ("a", "/dev/null"):
            self.assertEqual((0, "", ""), self.run_layout("compile", source, "-o", "/dev/null"))
        reader, writer = os.pipe()
        self.assertEqual((0, "", ""), self.run_layout("compile", "a", "-o", f"/dev/fd/{writer}", pass_fds=[writer]))
        self.assertEqual(self.layout, os.read(reader, 100))
        os.close(reader)
        os.close(writer)

    def test_standard_output_that_is_a_file(self) -> None:
        with open(self.folder / "out", "wb") as out:
            out.write(b"before ")
            out.flush()
            self.assertEqual((0, None, ""), self.run_layout("compile", "a", "-o", "/dev/stdout", stdout=out))
            out.seek(0, os.SEEK_END)
            out.write(b" after")
        self.assertEqual(b"before " + self.layout + b" after", (self.folder / "out").read_bytes())

    def test_full_device(self) -> None:
        told = "No space left on device\n"
        self.assertEqual((1, "", f"/dev/full: {told}"), self.run_layout("compile", "a", "-o", "/dev/full"))
        self.assertEqual((1, "", f"/dev/full: {told}"), self.run_layout("draw", "a", "--svg", "/dev/full"))
        with open("/dev/full", "wb") as full:
            for arguments in (["text", "a"], ["list", "a"], ["draw", "a"], ["--version"], ["draw", "--help"]):
                self.assertEqual((1, None, f"standard output: {told}"), self.run_layout(*arguments, stdout=full))

    def test_closed_output(self) -> None:
        for arguments in (["text", "a"], ["list", "a"], ["draw", "a"], ["--version"]):
            done = self.run_layout(*arguments, preexec_fn=lambda: os.close(1))
            self.assertEqual((1, "", "standard output: Bad file descriptor\n"), done)
        self.assertEqual((0, "", ""), self.run_layout("compile", "a", "-o", "b", preexec_fn=lambda: os.close(1)))
        self.assertEqual(self.layout, (self.folder / "b").read_bytes())

    def test_reader_that_left(self) -> None:
        reader, writer = os.pipe()
        os.close(reader)
        status, _, told = self.run_layout("text", "a", stdout=writer)
        os.close(writer)
        self.assertEqual((-signal.SIGPIPE, ""), (status, told))


class Version(Program):
    """The version that is told."""

    def test_version(self) -> None:
        self.assertEqual((0, f"layout of Mondgurt {VERSION}\n", ""), self.run_layout("--version"))

    def test_the_same_everywhere(self) -> None:
        header, changes = ((ROOT / name).read_text() for name in ("include/mondgurt.h", "docs/CHANGES.md"))
        self.assertEqual([str(VERSION)], re.findall(r"^#define MONDGURT_VERSION (\d+)\b", header, re.MULTILINE))
        # The newest stands first.
        self.assertEqual(str(VERSION), re.findall(r"^## (\d+)\b", changes, re.MULTILINE)[0])


if __name__ == "__main__":
    unittest.main()
