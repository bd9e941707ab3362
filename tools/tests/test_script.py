"""Scripts of calls: a mistake is told with its line. The gate compares what is made of crates/play/script.txt."""

import subprocess
import sys
import tempfile
import unittest
from pathlib import Path

from .layouts import SAMPLES

PROGRAM = Path(__file__).resolve().parents[1] / "script"

LAYOUTS = "node a\nframe f 1 byte sent\nnode b\nframe f 1 byte received\ncalls\n"

NO_CALL = "is no call with its answer"

# A text, and what is told of it.
MISTAKES = [
    ("node a\nnode b\n", "1:1: expected the parts `node a`, `node b` and `calls`, in this order"),
    ("frame f 1 byte\n" + LAYOUTS, "1:1: expected the parts `node a`, `node b` and `calls`, in this order"),
    ("node a\nnode b\nframe f 33 bytes\ncalls\n", "3:9: length 33 is not 1 to 32"),
    (LAYOUTS + "b close\n", f"6:1: `b close` {NO_CALL}"),
    (LAYOUTS + "\nb closed -> 0\n", f"7:1: `b closed -> 0` {NO_CALL}"),
    (LAYOUTS + "c close -> 0\n", f"6:1: `c close -> 0` {NO_CALL}"),
    (LAYOUTS + "b close 0 -> 0\n", f"6:1: `b close 0 -> 0` {NO_CALL}"),
    (LAYOUTS + "a send 0 -> 16\n", f"6:1: `a send 0 -> 16` {NO_CALL}"),
    (LAYOUTS + "a consumed 256 -> 16\n", f"6:1: `a consumed 256 -> 16` {NO_CALL}"),
    (LAYOUTS + "a assemble 0 into 00 -> 0 00\n", f"6:1: `a assemble 0 into 00 -> 0 00` {NO_CALL}"),
    (LAYOUTS + "b deliver 0 00 -> 0\n", f"6:1: `b deliver 0 00 -> 0` {NO_CALL}"),
    (LAYOUTS + "  b close\n", f"6:3: `b close` {NO_CALL}"),
    (LAYOUTS + "b" * 100, f"6:1: `{'b' * 40}..` {NO_CALL}"),
    (LAYOUTS + "# \x1b[31m\n", "6:3: \\x1b is a control character"),
]


class Script(unittest.TestCase):
    def setUp(self) -> None:
        folder = tempfile.TemporaryDirectory()
        self.addCleanup(folder.cleanup)
        self.folder = Path(folder.name)

    def run_script(self, text: str, *options: str) -> tuple[int, bytes, str]:
        (self.folder / "a.txt").write_text(text)
        command = [sys.executable, str(PROGRAM), "a.txt", *options]
        done = subprocess.run(command, cwd=self.folder, capture_output=True)
        return done.returncode, done.stdout, done.stderr.decode()

    def test_mistakes(self) -> None:
        for text, told in MISTAKES:
            with self.subTest(told=told):
                self.assertEqual((1, b"", f"a.txt:{told}\n"), self.run_script(text))

    def test_several_mistakes(self) -> None:
        text = LAYOUTS.replace("1 byte", "33 bytes") + "b close\nb close -> 0\na close\n"
        told = [f"{line}:9: length 33 is not 1 to 32" for line in (2, 4)]
        told += [f"6:1: `b close` {NO_CALL}", f"8:1: `a close` {NO_CALL}"]
        self.assertEqual((1, b"", "".join(f"a.txt:{line}\n" for line in told)), self.run_script(text))

    def test_wrong_file(self) -> None:
        for name, told in (
            ("brake.layout", "this is a layout file, not a script"),
            ("none", "No such file or directory"),
        ):
            command = [sys.executable, str(PROGRAM), name]
            done = subprocess.run(command, cwd=SAMPLES, capture_output=True)
            self.assertEqual((1, b"", f"{name}: {told}\n"), (done.returncode, done.stdout, done.stderr.decode()))

    def test_full_device(self) -> None:
        (self.folder / "a.txt").write_text(LAYOUTS)
        with open("/dev/full", "wb") as full:
            command = [sys.executable, str(PROGRAM), "a.txt"]
            done = subprocess.run(command, cwd=self.folder, stdout=full, stderr=subprocess.PIPE)
        self.assertEqual((1, b"standard output: No space left on device\n"), (done.returncode, done.stderr))

    def test_deliver(self) -> None:
        text = LAYOUTS + "b deliver 0 valid 2F -> 0  # a comment\n"
        frames = bytes([1, 0, 1, 0, 1]).ljust(24, b"\0") + bytes([1, 0, 1]).ljust(24, b"\0")
        call = bytes([1, 6, 0, 1, 1, 0, 0, 0, 0x2F]).ljust(40, b"\0")
        self.assertEqual((0, b"\1\1" + frames + call, ""), self.run_script(text))
        self.assertEqual((0, b"load: 0\nload: 0\nb deliver 0: 0\n", ""), self.run_script(text, "--answers"))


if __name__ == "__main__":
    unittest.main()
