"""The program `play` where its streams fail: what it takes for the end of its input, and what of a line it loses."""

import fcntl
import os
import platform
import socket
import struct
import subprocess
import unittest
from pathlib import Path

from .processes import interrupt_read

PLAY = Path(__file__).resolve().parents[2] / "crates/play"
PROGRAM = PLAY / "out/play"
SET_PIPE_SIZE = 1031  # fcntl.F_SETPIPE_SZ, which Python has from 3.10 on


@unittest.skipUnless(platform.machine() == "x86_64", "elsewhere an emulator reads and writes for the program")
class Play(unittest.TestCase):
    def test_interrupted(self) -> None:
        # Such a read is the end of the input, and two layouts of no records are loaded.
        ours, theirs = socket.socketpair()
        theirs.setsockopt(socket.SOL_SOCKET, socket.SO_RCVTIMEO, struct.pack("ll", 60, 0))
        with ours, theirs, subprocess.Popen([PROGRAM], stdin=theirs, stdout=subprocess.PIPE, start_new_session=True) as play:
            interrupt_read("play", play.pid)
            out, _ = play.communicate(timeout=60)
        self.assertEqual((0, b"load: 0\nload: 0\n"), (play.returncode, out))

    def test_full_pipe(self) -> None:
        # Into a pipe that does not block, with room for so many bytes, goes what fits, piece by piece, from the beginning on.
        wanted = (PLAY / "stdout").read_bytes()
        for room in (16, 46, 96):
            with self.subTest(room=room):
                reader, writer = os.pipe()
                size = fcntl.fcntl(writer, SET_PIPE_SIZE, 4096)
                fcntl.fcntl(writer, fcntl.F_SETFL, os.O_WRONLY | os.O_NONBLOCK)
                os.write(writer, bytes(size - room))
                with open(reader, "rb") as pipe, open(PLAY / "stdin", "rb") as script:
                    subprocess.run([PROGRAM], stdin=script, stdout=writer, check=True, timeout=60)
                    os.close(writer)
                    self.assertEqual(wanted[:room], pipe.read()[size - room :])


if __name__ == "__main__":
    unittest.main()
