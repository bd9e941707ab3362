"""The listing program as people run it: what it makes of inputs around the longest layout, of endless ones, and of those that cannot be read."""

import os
import platform
import pty
import socket
import struct
import subprocess
import sys
import tty
import unittest
from pathlib import Path
from random import Random

from mondgurt_layout import text

from .layouts import SAMPLES
from .processes import interrupt_read

PROGRAM, LAYOUT = (str(Path(__file__).resolve().parents[1] / name) for name in ("list", "layout"))

LARGEST = (SAMPLES / "largest.layout").read_bytes()
LISTING = text.listing(text.parse((SAMPLES / "largest.txt").read_text()))

SIZE = (0, "refused 1 record 0\n", "")
FAILED = (1, "", "list: standard input cannot be read\n")


class Listing(unittest.TestCase):
    def run_list(self, *command: str, **stdin: object) -> tuple[int, str, str]:
        # An input without an end is not read to its end, so nothing here takes long.
        done = subprocess.run(command or [PROGRAM], capture_output=True, timeout=60, **stdin)
        return done.returncode, done.stdout.decode(), done.stderr.decode()

    def test_lengths(self) -> None:
        # 192 records are the most, and 4,632 bytes are 193. All begin with the largest layout, so that one that is cut when it is read would be accepted.
        self.assertEqual(4608, len(LARGEST))
        for length in range(4607, 4634):
            with self.subTest(length=length):
                listed = (0, LISTING, "") if length == 4608 else SIZE
                self.assertEqual(listed, self.run_list(input=(LARGEST + LARGEST[-24:] * 2)[:length]))

    def test_last_byte(self) -> None:
        self.assertEqual((0, "refused 8 record 191 byte 23\n", ""), self.run_list(input=LARGEST[:-1] + b"\1"))

    def test_nothing(self) -> None:
        self.assertEqual((0, "message frame start width status\n", ""), self.run_list(input=b""))

    def test_in_pieces(self) -> None:
        # Each read gives one packet.
        ours, theirs = socket.socketpair(socket.AF_UNIX, socket.SOCK_SEQPACKET)
        with ours, theirs:
            for at in range(0, len(LARGEST), 100):
                ours.send(LARGEST[at : at + 100])
            ours.close()
            self.assertEqual((0, LISTING, ""), self.run_list(stdin=theirs))

    @unittest.skipUnless(platform.machine() == "x86_64", "elsewhere an emulator reads for the program")
    def test_interrupted(self) -> None:
        # Such a read has failed, and is not tried again.
        ours, theirs = socket.socketpair()
        theirs.setsockopt(socket.SOL_SOCKET, socket.SO_RCVTIMEO, struct.pack("ll", 60, 0))
        pipes = {"stdout": subprocess.PIPE, "stderr": subprocess.PIPE}
        with ours, theirs, subprocess.Popen([PROGRAM], stdin=theirs, start_new_session=True, **pipes) as script:
            ours.send(LARGEST[:100])
            interrupt_read("list", script.pid)
            ours.close()
            out, err = script.communicate(timeout=60)
        self.assertEqual(FAILED, (script.returncode, out.decode(), err.decode()))

    def test_endless(self) -> None:
        with open("/dev/zero", "rb") as zeros:
            self.assertEqual(SIZE, self.run_list(stdin=zeros))
        with subprocess.Popen(["yes"], stdout=subprocess.PIPE) as yes:
            self.assertEqual(SIZE, self.run_list(stdin=yes.stdout))

    def test_the_layout_tool_prints_the_same(self) -> None:
        paper = (SAMPLES / "paper.layout").read_bytes()
        noise = Random(7).randbytes(240)
        damaged = [paper[:10], b"\0" + paper[1:], b"\xc8" + paper[1:], b"i" + paper[1:]]
        for raw in (b"", paper, LARGEST, LARGEST + b"\0", bytes(24), noise, *damaged):
            _, printed, _ = self.run_list(input=raw)
            refused = int(printed.startswith("refused"))
            told = self.run_list(sys.executable, LAYOUT, "list", "/dev/stdin", input=raw)
            self.assertEqual((refused, printed, ""), told)

    def test_closed(self) -> None:
        for shell in ("sh", "bash"):
            self.assertEqual(FAILED, self.run_list("sh", "-c", f'{shell} "$0" <&-', PROGRAM))

    def test_folder(self) -> None:
        folder = os.open("/", os.O_RDONLY)
        self.addCleanup(os.close, folder)
        self.assertEqual(FAILED, self.run_list(stdin=folder))

    def test_fails_after_a_layout(self) -> None:
        # A terminal gives what was written to it, and once it is closed its reader fails.
        reader, terminal = pty.openpty()
        self.addCleanup(os.close, reader)
        tty.setraw(terminal)
        os.write(terminal, (SAMPLES / "paper.layout").read_bytes())
        os.close(terminal)
        self.assertEqual(FAILED, self.run_list(stdin=reader))


if __name__ == "__main__":
    unittest.main()
