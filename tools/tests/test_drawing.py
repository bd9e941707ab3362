"""Frames in the terminal against drawings made by hand and against the paper's packed bytes."""

import unittest

from mondgurt_layout.drawing import picture, rows
from mondgurt_layout.records import Layout
from mondgurt_layout.text import parse

LITTLE = """\
a: frame 0, 2 bytes, little order, received, time

                    7   6   5   4   3   2   1   0
byte 0       7..0  A4  A3  A2  A1  A0   .  A*   .
byte 1      15..8   .   .   .  A9  A8  A7  A6  A5

  A  m  10 bits  unsigned  little at 3  status 1
     pick any  filter true  initial 0
"""
BIG = """\
a: frame 0, 2 bytes, big order, received, time

                    7   6   5   4   3   2   1   0
byte 0       0..7   .  A*   .  A9  A8  A7  A6  A5
byte 1      8..15  A4  A3  A2  A1  A0   .   .   .

  A  m  10 bits  unsigned  big at 3  status 1
     pick any  filter true  initial 0
"""
SENT = """\
aaaaaaaaaaaaaaaaaaaaaaaaaaaaaaaaaaaaaaaa..: frame 0, 1 byte, little order, sent, event

                    7   6   5   4   3   2   1   0
byte 0       7..0  B*   .  B2  B1  B0  A2  A1  A0

  A  aaaaaaaaaaaaaaaaaaaaaaaaaaaaaaaaaaaaaaaa..  3 bits  unsigned  little at 0
     filter true  initial 0
  B  m                                           3 bits  signed    little at 3  status 7
     filter new & 0x6 changed  initial -4
"""
FLOAT = """\
a: frame 0, 5 bytes, little order, received, time

                    7   6   5   4   3   2   1   0
byte 0       7..0  A3  A2  A1  A0   .   .   .  A*
byte 1      15..8 A11 A10  A9  A8  A7  A6  A5  A4
byte 2     23..16 A19 A18 A17 A16 A15 A14 A13 A12
byte 3     31..24 A27 A26 A25 A24 A23 A22 A21 A20
byte 4     39..32   .   .   .   . A31 A30 A29 A28

  A  m  32 bits  float  little at 4  status 0
     average  filter -1.5 <= new <= 1.5  initial 0.1
"""


def ten_bits(order: str) -> Layout:
    """Ten bits at start 3 with a status bit at 1."""
    return parse(f"frame a 2 bytes {order}\nmessage m 10 bits\nin a at 3 status 1\n")


def packed(layout: Layout, value: int) -> bytes:
    """The bytes of frame 0 if its picture is right and its only message holds a value."""
    raw = []
    for row in rows(layout, layout.frames[0]):
        bits = [value >> bit.bit & 1 if bit and bit.bit is not None else 0 for bit in row]
        raw.append(int("".join(map(str, bits)), 2))
    return bytes(raw)


class Drawing(unittest.TestCase):
    def test_by_hand(self) -> None:
        for order, drawn in (("little", LITTLE), ("big", BIG)):
            layout = ten_bits(order)
            self.assertEqual(drawn, picture(layout, layout.frames[0]))

    def test_float(self) -> None:
        message = "message m 32 bits float average filter -1.5 <= new <= 1.5 initial 0.1"
        layout = parse(f"frame a 5 bytes\n{message}\nin a at 4 status 0\n")
        self.assertEqual(FLOAT, picture(layout, layout.frames[0]))

    def test_sent_with_long_names(self) -> None:
        long = "a" * 100
        first = f"message {long} 3 bits sent\nin {long} at 0\n"
        second = f"message m 3 bits sent signed filter new & 0x6 changed initial -4\nin {long} at 3 status 7\n"
        layout = parse(f"frame {long} 1 byte sent event\n{first}{second}")
        self.assertEqual(SENT, picture(layout, layout.frames[0]))

    def test_p1_and_p3(self) -> None:
        self.assertEqual(bytes.fromhex("28 15"), packed(ten_bits("little"), 677))
        self.assertEqual(bytes.fromhex("15 28"), packed(ten_bits("big"), 677))


if __name__ == "__main__":
    unittest.main()
