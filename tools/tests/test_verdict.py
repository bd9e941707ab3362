"""The verdict on layout files: each clause of the paper's table of refusals, and what is just accepted."""

import unittest
from collections.abc import Collection
from itertools import combinations, product
from random import Random
from typing import Optional

from mondgurt_layout.records import FILTERS
from mondgurt_layout.verdict import (
    GROUP,
    NOFIELD,
    ORDER,
    PLACE,
    RANGE,
    REF,
    RESERVED,
    SIZE,
    UNUSED,
    WIDTH,
    Refused,
    read,
)

from .layouts import file, put, random_layout, values_of

FRAME, MESSAGE, FIELD = "01 00 02", "02 00 0A", "03 00 00 03"
SENT = ["01 00 02 00 01", "02 00 0A 00 01"]
FRAMES = [f"01 {number:02X} 20" for number in range(32)]
MESSAGES = [f"02 {number:02X} 01" for number in range(32)]
FIELDS = [f"03 {number // 4:02X} {number % 4:02X} {number // 4:02X}" for number in range(128)]
EIGHT_FIELDS = [*FRAMES, MESSAGES[0], *(f"03 00 {number:02X}" for number in range(8))]
LARGEST = [*FRAMES, *MESSAGES, *FIELDS]

TAKEN = "of frame0 is taken by message0"
NOT_ABOVE = "the pair of message and frame is not above that of the field before"

# The number of a refusal that gives no byte, what is wrong, and the records, of which the last is refused.
REFUSED = [
    (ORDER, "the kind is not 1 to 3", ["00"]),
    (ORDER, "the kind is not 1 to 3", [FRAME, "04"]),
    (ORDER, "the kind is below the kind before", [MESSAGE, FRAME]),
    (ORDER, "the kind is below the kind before", [FRAME, MESSAGE, FIELD, "02 01 0A"]),
    (ORDER, "number 1 is not the next, 0", ["01 01 02"]),
    (ORDER, "number 0 is not the next, 1", [FRAME, MESSAGE, MESSAGE]),
    (ORDER, "the message has a field in this frame already, record 2", [FRAME, MESSAGE, FIELD, "03 00 00 0D"]),
    (ORDER, NOT_ABOVE, [*FRAMES[:2], *MESSAGES[:2], "03 01 00", "03 00 01"]),
    (ORDER, NOT_ABOVE, [*FRAMES[:2], *MESSAGES[:2], "03 00 01", "03 00 00"]),
    (REF, "there is no message 1", [FRAME, MESSAGE, "03 01 00"]),
    (REF, "there is no frame 1", [FRAME, MESSAGE, "03 00 01"]),
    (REF, "message0 is received and frame0 is sent", [SENT[0], MESSAGE, FIELD]),
    (REF, "message0 is sent and frame0 is received", [FRAME, SENT[1], FIELD]),
    (GROUP, "message0 has 8 fields already", [*EIGHT_FIELDS, "03 00 08"]),
    (GROUP, "there are 128 fields already", [*FRAMES[:5], *MESSAGES, *FIELDS, "03 1F 04"]),
    (
        GROUP,
        "message0 has a status bit in frame0, so it needs one here",
        [*FRAMES[:2], MESSAGE, "03 00 00 03 01", "03 00 01"],
    ),
    (
        GROUP,
        "message0 has no status bit in frame0, so it can have none here",
        [*FRAMES[:2], MESSAGE, "03 00 00", "03 00 01 03 01"],
    ),
    (GROUP, "message0 is sent through a filter, so it needs a status bit", [SENT[0], "02 00 0A 00 01 00 01", FIELD]),
    (PLACE, "bit 16 is not in frame0, which has bits 0 to 15", [FRAME, MESSAGE, "03 00 00 07"]),
    (PLACE, "bit 16 is not in frame0, which has bits 0 to 15", [FRAME, MESSAGE, "03 00 00 03 01 10"]),
    (PLACE, "bit 256 is not in frame0, which has bits 0 to 255", [FRAMES[0], "02 00 20", "03 00 00 E1"]),
    (PLACE, f"bit 12 {TAKEN}, record 3", [FRAME, MESSAGE, "02 01 02", FIELD, "03 01 00 0C"]),
    (PLACE, f"bit 0 {TAKEN}, record 3", [FRAME, MESSAGE, "02 01 02", "03 00 00 03 01 00", "03 01 00 00"]),
    (PLACE, f"bit 3 {TAKEN} itself", [FRAME, MESSAGE, "03 00 00 03 01 03"]),
    # The first failing test decides.
    (ORDER, "number 2 is not the next, 1", [FRAME, "01 02 21 02"]),
    (ORDER, "number 33 is not the next, 32", [*FRAMES, "01 21 02"]),
    (ORDER, "number 1 is not the next, 0", [put("02 01 0A", 7, "01 01")]),
    (ORDER, NOT_ABOVE, [*FRAMES[:2], *MESSAGES[:2], "03 01 00", "03 00 09 00 02"]),
    (REF, "there is no message 9", [FRAME, MESSAGE, "03 09 09 FF"]),
    (
        GROUP,
        "message0 has a status bit in frame0, so it needs one here",
        [*FRAMES[:2], MESSAGE, "03 00 00 03 01", "03 00 01 FF"],
    ),
]

RECEIVED_OR_SENT = "0 (received) or 1 (sent)"
NO_MEANING = "has no meaning, so it must be 0, not"
BUT_TRUE = "is not 0, as filter 0 (true) does not use it"
TEN_BITS, TEN_SIGNED = "0 to 1023, the values of 10 unsigned bits", "-512 to 511, the values of 10 signed bits"
SIGNED, WITH_X1, WITH_BOTH = "02 00 0A 01", "02 00 0A 00 00 00 06", "02 00 0A 00 00 00 08"
SIGNED_WITH_BOTH = "02 00 0A 01 00 00 08"
SIGNS, NO_FLOAT = "0 (unsigned) or 1 (signed)", "as a float has 32 bits"
NO_MASK = "is not 0, 1, 4, 5 or 8 to 13, as a float takes no mask"
FLOATS = "-3.4028235e38 to 3.4028235e38, the values of a float"
BUT_MORE = "is not 0.0, as filter 10 (new > old) does not use it"
FLOAT, WITHIN = "02 00 20 02", "02 00 20 02 00 00 08"

# The same for a refusal that gives a byte, which stands after the number.
WRONG_BYTES = [
    (RANGE, 1, "number 32 is not 0 to 31, as there are at most 32 frames", [*FRAMES, "01 20 02"]),
    (RANGE, 2, "length 0 is not 1 to 32", ["01 00 00"]),
    (RANGE, 2, "length 33 is not 1 to 32", ["01 00 21"]),
    (RANGE, 3, "order 2 is not 0 (little) or 1 (big)", ["01 00 02 02"]),
    (RANGE, 4, f"direction 2 is not {RECEIVED_OR_SENT}", ["01 00 02 00 02"]),
    (RANGE, 5, "trigger 2 is not 0 (time) or 1 (event)", ["01 00 02 00 00 02"]),
    (RESERVED, 6, f"byte 6 of a frame record {NO_MEANING} 1", [put(FRAME, 6, "01")]),
    (RESERVED, 23, f"byte 23 of a frame record {NO_MEANING} 255", [put(FRAME, 23, "FF")]),
    (RANGE, 1, "number 32 is not 0 to 31, as there are at most 32 messages", [*MESSAGES, "02 20 0A"]),
    (RANGE, 2, "width 0 is not 1 to 32", [FRAME, "02 00 00"]),
    (RANGE, 2, "width 33 is not 1 to 32", [FRAME, "02 00 21"]),
    (RANGE, 3, f"sign 2 (float) is not {SIGNS}, {NO_FLOAT}", [FRAME, "02 00 0A 02"]),
    (RANGE, 3, f"sign 2 (float) is not {SIGNS}, {NO_FLOAT}", [FRAME, "02 00 1F 02"]),
    (RANGE, 3, f"sign 3 is not {SIGNS}, {NO_FLOAT}", [FRAME, "02 00 0A 03"]),
    (RANGE, 3, "sign 3 is not 0 (unsigned), 1 (signed) or 2 (float)", [FRAME, "02 00 20 03"]),
    (RANGE, 4, f"direction 2 is not {RECEIVED_OR_SENT}", [FRAME, "02 00 0A 00 02"]),
    (RANGE, 5, "agreement 3 is not 0 (pick any), 1 (average) or 2 (vote)", [FRAME, "02 00 0A 00 00 03"]),
    (RANGE, 5, "agreement 1 (average) is not 0 (pick any), as the message is sent", [FRAME, "02 00 0A 00 01 01"]),
    (RANGE, 5, "agreement 3 is not 0 (pick any), as the message is sent", [FRAME, "02 00 0A 00 01 03"]),
    (RANGE, 6, "filter 14 is not 0 to 13", [FRAME, "02 00 0A 00 00 00 0E"]),
    (RANGE, 6, "filter 14 is not 0 to 13", [FRAME, "02 00 20 02 00 00 0E"]),
    (RANGE, 6, f"filter 2 (new & X1 = X2) {NO_MASK}", [FRAME, "02 00 20 02 00 00 02"]),
    (RANGE, 6, f"filter 3 (new & X1 != X2) {NO_MASK}", [FRAME, "02 00 20 02 01 00 03"]),
    (RANGE, 6, f"filter 6 (new & X1 unchanged) {NO_MASK}", [FRAME, "02 00 20 02 00 00 06"]),
    (RANGE, 6, f"filter 7 (new & X1 changed) {NO_MASK}", [FRAME, "02 00 20 02 00 00 07"]),
    (RESERVED, 7, f"byte 7 of a message record {NO_MEANING} 1", [FRAME, put(MESSAGE, 7, "01")]),
    (UNUSED, 8, f"x1 5 {BUT_TRUE}", [FRAME, put(MESSAGE, 8, "05")]),
    (UNUSED, 8, f"x1 -1 {BUT_TRUE}", [FRAME, put(SIGNED, 8, "FF FF FF FF")]),
    (UNUSED, 12, "x2 1 is not 0, as filter 6 (new & X1 unchanged) does not use it", [FRAME, put(WITH_X1, 12, "01")]),
    (WIDTH, 8, f"x1 1024 is not {TEN_BITS}", [FRAME, put(WITH_X1, 8, "00 04")]),
    (WIDTH, 8, "x1 2 is not 0 or 1, the values of 1 unsigned bit", [FRAME, put("02 00 01 00 00 00 06", 8, "02")]),
    (WIDTH, 12, f"x2 512 is not {TEN_SIGNED}", [FRAME, put(SIGNED_WITH_BOTH, 12, "00 02")]),
    (WIDTH, 16, f"initial 1024 is not {TEN_BITS}", [FRAME, put(MESSAGE, 16, "00 04")]),
    (WIDTH, 16, f"initial 4294967295 is not {TEN_BITS}", [FRAME, put(MESSAGE, 16, "FF FF FF FF")]),
    (WIDTH, 16, f"initial -513 is not {TEN_SIGNED}", [FRAME, put(SIGNED, 16, "FF FD FF FF")]),
    (UNUSED, 8, "x1 1.5 is not 0.0, as filter 0 (true) does not use it", [FRAME, put(FLOAT, 8, "00 00 C0 3F")]),
    (UNUSED, 12, f"x2 -0.0 {BUT_MORE}", [FRAME, put("02 00 20 02 00 00 0A", 12, "00 00 00 80")]),
    (WIDTH, 8, f"x1 0xFF800000 (not finite) is not {FLOATS}", [FRAME, put(WITHIN, 8, "00 00 80 FF")]),
    (WIDTH, 12, f"x2 0x7F800001 (not finite) is not {FLOATS}", [FRAME, put(WITHIN, 12, "01 00 80 7F")]),
    (WIDTH, 16, f"initial 0x7F800000 (not finite) is not {FLOATS}", [FRAME, put(FLOAT, 16, "00 00 80 7F")]),
    (WIDTH, 16, f"initial 0xFFFFFFFF (not finite) is not {FLOATS}", [FRAME, put(FLOAT, 16, "FF FF FF FF")]),
    (RESERVED, 20, f"byte 20 of a message record {NO_MEANING} 1", [put(MESSAGE, 20, "01")]),
    (RESERVED, 23, f"byte 23 of a message record {NO_MEANING} 1", [put(MESSAGE, 23, "01")]),
    (RANGE, 4, "status bit present 2 is not 0 (no) or 1 (yes)", [FRAME, MESSAGE, "03 00 00 03 02"]),
    (RANGE, 5, "status bit place 1 is not 0, as no status bit is present", [FRAME, MESSAGE, "03 00 00 03 00 01"]),
    (RESERVED, 6, f"byte 6 of a field record {NO_MEANING} 1", [FRAME, MESSAGE, put(FIELD, 6, "01")]),
    (RESERVED, 23, f"byte 23 of a field record {NO_MEANING} 1", [FRAME, MESSAGE, put(FIELD, 23, "01")]),
    # Only the last byte of a word is wrong.
    (UNUSED, 8, f"x1 16777216 {BUT_TRUE}", [put(MESSAGE, 11, "01")]),
    (WIDTH, 8, f"x1 16777216 is not {TEN_BITS}", [put(WITH_BOTH, 11, "01")]),
    (WIDTH, 12, f"x2 16777216 is not {TEN_BITS}", [put(WITH_BOTH, 15, "01")]),
    (WIDTH, 16, f"initial 2147483647 is not {TEN_SIGNED}", [put(SIGNED, 16, "FF FF FF 7F")]),
    # A word fits the message before, but not its own.
    (WIDTH, 16, f"initial 1024 is not {TEN_BITS}", [put("02 00 0B", 16, "00 04"), put("02 01 0A", 16, "00 04")]),
    (WIDTH, 16, f"initial 512 is not {TEN_SIGNED}", [put(MESSAGE, 16, "00 02"), put("02 01 0A 01", 16, "00 02")]),
    # UNUSED comes before WIDTH.
    (UNUSED, 8, f"x1 1024 {BUT_TRUE}", [put(MESSAGE, 8, "00 04")]),
    (UNUSED, 12, "x2 1024 is not 0, as filter 6 (new & X1 unchanged) does not use it", [put(WITH_X1, 12, "00 04")]),
    (UNUSED, 8, "x1 0x7F800000 (not finite) is not 0.0, as filter 0 (true) does not use it", [put(FLOAT, 10, "80 7F")]),
    (UNUSED, 12, f"x2 0xFFC00000 (not finite) {BUT_MORE}", [put("02 00 20 02 00 00 0A", 14, "C0 FF")]),
    # The lowest byte decides.
    (RANGE, 1, "number 32 is not 0 to 31, as there are at most 32 frames", [*FRAMES, "01 20 00 02"]),
    (RANGE, 3, "order 2 is not 0 (little) or 1 (big)", [put("01 00 02 02", 7, "01")]),
    (RESERVED, 7, f"byte 7 of a frame record {NO_MEANING} 3", [put(FRAME, 7, "03 02 01")]),
    (RANGE, 2, "width 0 is not 1 to 32", [put("02 00 00 01", 16, "FF FF FF 7F")]),
    (RANGE, 2, "width 255 is not 1 to 32", [put("02 00 FF 02 02 03 0E 01", 8, "01")]),
    (RANGE, 2, "width 33 is not 1 to 32", ["02 00 21 02"]),
    (RANGE, 3, f"sign 2 (float) is not {SIGNS}, {NO_FLOAT}", [put("02 00 0A 02", 16, "FF FF FF FF")]),
    (RANGE, 3, f"sign 2 (float) is not {SIGNS}, {NO_FLOAT}", ["02 00 0A 02 02 03 02"]),
    (RANGE, 4, f"direction 2 is not {RECEIVED_OR_SENT}", ["02 00 20 02 02 03 02"]),
    (RANGE, 6, f"filter 2 (new & X1 = X2) {NO_MASK}", [put("02 00 20 02 00 00 02 01", 8, "00 00 80 7F")]),
    (RESERVED, 7, f"byte 7 of a message record {NO_MEANING} 1", [put(WITHIN, 7, "01 00 00 80 7F")]),
    (WIDTH, 8, f"x1 0x7F800000 (not finite) is not {FLOATS}", [put(WITHIN, 8, "00 00 80 7F 00 00 80 7F")]),
    (UNUSED, 12, f"x2 0.1 {BUT_MORE}", [put("02 00 20 02 00 00 0A", 12, "CD CC CC 3D 00 00 80 7F")]),
    (WIDTH, 16, f"initial 0x7F800000 (not finite) is not {FLOATS}", [put(WITHIN, 16, "00 00 80 7F 01")]),
    (RANGE, 4, f"direction 2 is not {RECEIVED_OR_SENT}", ["02 00 0A 00 02 01"]),
    (RANGE, 6, "filter 14 is not 0 to 13", [put("02 00 0A 00 00 00 0E 01", 8, "01")]),
    (RESERVED, 7, f"byte 7 of a message record {NO_MEANING} 1", [put(MESSAGE, 7, "01 01")]),
    (RESERVED, 7, f"byte 7 of a message record {NO_MEANING} 1", [put(WITH_X1, 7, "01 00 04")]),
    (UNUSED, 8, f"x1 1 {BUT_TRUE}", [put(put(MESSAGE, 8, "01"), 16, "00 04")]),
    (WIDTH, 8, f"x1 1024 is not {TEN_BITS}", [put(put(WITH_X1, 8, "00 04"), 12, "01")]),
    (UNUSED, 12, f"x2 1 {BUT_TRUE}", [put(put(MESSAGE, 12, "01"), 20, "01")]),
    (WIDTH, 16, f"initial 1024 is not {TEN_BITS}", [put(put(MESSAGE, 16, "00 04"), 20, "01")]),
    (RANGE, 4, "status bit present 2 is not 0 (no) or 1 (yes)", [FRAME, MESSAGE, "03 00 00 03 02 01"]),
    (RANGE, 5, "status bit place 1 is not 0, as no status bit is present", [FRAME, MESSAGE, "03 00 00 03 00 01 01"]),
    # All four come before REF, GROUP, PLACE and NOFIELD.
    (RANGE, 4, "status bit present 3 is not 0 (no) or 1 (yes)", [FRAME, MESSAGE, "03 09 09 03 03"]),
    (RESERVED, 6, f"byte 6 of a field record {NO_MEANING} 1", [FRAME, MESSAGE, "03 09 09 FF 00 00 01"]),
    (
        RANGE,
        5,
        "status bit place 1 is not 0, as no status bit is present",
        [*FRAMES[:2], MESSAGE, "03 00 00 03 01", "03 00 01 03 00 01"],
    ),
    (RESERVED, 23, f"byte 23 of a field record {NO_MEANING} 1", [FRAME, MESSAGE, put("03 00 00 07", 23, "01")]),
    (WIDTH, 16, f"initial 1024 is not {TEN_BITS}", [MESSAGES[0], put("02 01 0A", 16, "00 04")]),
]

# The values of a byte that are right, the refusal of any other, and the byte that it gives.
Byte = tuple[Collection[int], int, Optional[int]]
ANY = range(256)


def zero(number: int, byte: int) -> Byte:
    """A byte in which only zero is right."""
    return (0,), number, byte


# The records, of which the last is looked at, and what is right in each of its bytes while the others stay.
EACH_BYTE: list[tuple[list[str], dict[int, Byte]]] = [
    (
        [FRAME],
        {
            1: ((0,), ORDER, None),
            2: (range(1, 33), RANGE, 2),
            3: (range(2), RANGE, 3),
            4: (range(2), RANGE, 4),
            5: (range(2), RANGE, 5),
            **{byte: zero(RESERVED, byte) for byte in range(6, 24)},
        },
    ),
    (
        [MESSAGE],
        {
            1: ((0,), ORDER, None),
            2: (range(1, 33), RANGE, 2),
            3: (range(2), RANGE, 3),
            4: (range(2), RANGE, 4),
            5: (range(3), RANGE, 5),
            6: (range(14), RANGE, 6),
            7: zero(RESERVED, 7),
            **{byte: zero(UNUSED, 8) for byte in range(8, 12)},
            **{byte: zero(UNUSED, 12) for byte in range(12, 16)},
            16: (ANY, WIDTH, 16),
            17: (range(4), WIDTH, 16),
            **{byte: zero(WIDTH, 16) for byte in range(18, 20)},
            **{byte: zero(RESERVED, byte) for byte in range(20, 24)},
        },
    ),
    # A sent message of ten signed bits with the filter -1 <= new <= 0 and the initial value -1.
    (
        [put(put("02 00 0A 01 01 00 08", 8, "FF FF FF FF"), 16, "FF FF FF FF")],
        {
            2: (range(1, 33), RANGE, 2),
            4: (range(2), RANGE, 4),
            5: zero(RANGE, 5),
            7: zero(RESERVED, 7),
            8: (ANY, WIDTH, 8),
            9: ((0xFE, 0xFF), WIDTH, 8),
            **{byte: ((0xFF,), WIDTH, 8) for byte in range(10, 12)},
            12: (ANY, WIDTH, 12),
            13: (range(2), WIDTH, 12),
            **{byte: zero(WIDTH, 12) for byte in range(14, 16)},
            16: (ANY, WIDTH, 16),
            17: ((0xFE, 0xFF), WIDTH, 16),
            **{byte: ((0xFF,), WIDTH, 16) for byte in range(18, 20)},
            **{byte: zero(RESERVED, byte) for byte in range(20, 24)},
        },
    ),
    # A float with the filter -2043.0 <= new <= 3.3895314e38 and the initial value 1.7014117e38.
    (
        [put("02 00 20 02 00 00 08", 8, "00 60 FF C4 00 00 7F 7F FF FF FF 7E")],
        {
            1: ((0,), ORDER, None),
            3: (range(3), RANGE, 3),
            4: (range(2), RANGE, 4),
            5: (range(3), RANGE, 5),
            7: zero(RESERVED, 7),
            **{byte: (ANY, WIDTH, 8) for byte in range(8, 11)},
            11: ({*ANY} - {0x7F, 0xFF}, WIDTH, 8),
            **{byte: (ANY, WIDTH, 12) for byte in range(12, 14)},
            14: (range(128), WIDTH, 12),
            15: (ANY, WIDTH, 12),
            **{byte: (ANY, WIDTH, 16) for byte in range(16, 19)},
            19: ({*ANY} - {0x7F, 0xFF}, WIDTH, 16),
            **{byte: zero(RESERVED, byte) for byte in range(20, 24)},
        },
    ),
    (
        [FRAME, MESSAGE, FIELD],
        {
            1: ((0,), REF, None),
            2: ((0,), REF, None),
            3: (range(7), PLACE, None),
            4: (range(2), RANGE, 4),
            5: zero(RANGE, 5),
            **{byte: zero(RESERVED, byte) for byte in range(6, 24)},
        },
    ),
    (
        [FRAME, MESSAGE, "03 00 00 03 01"],
        {
            5: ((0, 1, 2, 13, 14, 15), PLACE, None),
            **{byte: zero(RESERVED, byte) for byte in range(6, 24)},
        },
    ),
]

ACCEPTED: list[list[str]] = [
    [],
    [FRAME],
    [FRAME, MESSAGE, FIELD],
    [FRAME, MESSAGE, "03 00 00 06"],
    [FRAME, MESSAGE, "03 00 00 03 01 0F"],
    [FRAMES[0], "02 00 20", "03 00 00 E0"],
    [SENT[0], "02 00 0A 00 01 00 01", "03 00 00 03 01"],
    ["01 00 04", FLOAT, "03 00 00"],
    ["01 00 04", put("02 00 20 02 00 02 08", 8, "FF FF 7F FF FF FF 7F 7F 00 00 00 80"), "03 00 00"],
    ["01 00 05 01 01", "02 00 20 02 01 00 05", "03 00 00 01 01"],
    [FRAME, "02 00 0A 01 00 02 08 00 00 FE FF FF FF 01 00 00 FF FF FF FF", FIELD],
    EIGHT_FIELDS,
    LARGEST,
]


def verdict(*records: str) -> Optional[tuple[int, Optional[int]]]:
    """The number and the byte of a refusal, or None if the records are accepted."""
    try:
        read(file(*records))
    except Refused as refused:
        return refused.number, refused.byte
    return None


class Verdict(unittest.TestCase):
    def refusal(self, raw: bytes) -> Refused:
        with self.assertRaises(Refused) as caught:
            read(raw)
        return caught.exception

    def test_refused(self) -> None:
        for number, words, records in REFUSED:
            with self.subTest(records=records[-1], words=words):
                refused = self.refusal(file(*records))
                self.assertEqual((number, len(records) - 1, words), (refused.number, refused.record, refused.words))
                self.assertIsNone(refused.byte)

    def test_wrong_bytes(self) -> None:
        for number, byte, words, records in WRONG_BYTES:
            with self.subTest(records=records[-1], words=words):
                refused = self.refusal(file(*records))
                self.assertEqual((number, len(records) - 1, words), (refused.number, refused.record, refused.words))
                self.assertEqual(byte, refused.byte)

    def test_each_value_of_each_byte(self) -> None:
        for (*before, last), bytes_of in EACH_BYTE:
            unchanged = verdict(*before, last)
            for at, (right, number, byte) in bytes_of.items():
                with self.subTest(record=last, at=at):
                    for value in ANY:
                        expected = unchanged if value in right else (number, byte)
                        self.assertEqual(expected, verdict(*before, put(last, at, f"{value:02X}")), f"value {value}")

    def test_of_two_wrong_bytes_the_lower_decides(self) -> None:
        for (*before, last), bytes_of in EACH_BYTE:
            wrong = {
                at: f"{min(set(ANY) - set(right)):02X}"
                for at, (right, _, byte) in bytes_of.items()
                if byte is not None and right != ANY
            }
            for lower, higher in combinations(wrong, 2):
                with self.subTest(record=last, lower=lower, higher=higher):
                    both = put(put(last, lower, wrong[lower]), higher, wrong[higher])
                    self.assertEqual(bytes_of[lower][1:], verdict(*before, both))

    def test_each_filter(self) -> None:
        for number, words in enumerate(FILTERS):
            for byte, part in ((8, "X1"), (12, "X2")):
                with self.subTest(words=words, part=part):
                    message = put(f"02 00 0A 00 00 00 {number:02X}", byte, "01")
                    self.assertEqual((NOFIELD, None) if part in words else (UNUSED, byte), verdict(message))

    def test_each_width(self) -> None:
        for width, sign, byte in product(range(1, 33), (0, 1), (8, 12, 16)):
            with self.subTest(width=width, sign=sign, byte=byte):
                least, greatest = values_of(width, sign)
                for value in {least, greatest, *((least - 1, greatest + 1) if width < 32 else ())}:
                    pattern = (value & 0xFFFFFFFF).to_bytes(4, "little").hex()
                    expected = (NOFIELD, None) if least <= value <= greatest else (WIDTH, byte)
                    self.assertEqual(expected, verdict(put(f"02 00 {width:02X} {sign:02X} 00 00 08", byte, pattern)))

    def test_each_sign_with_each_width(self) -> None:
        for width, sign in product(range(35), ANY):
            if not 1 <= width <= 32:
                expected = RANGE, 2
            elif sign in (0, 1) or sign == 2 and width == 32:
                expected = NOFIELD, None
            else:
                expected = RANGE, 3
            self.assertEqual(expected, verdict(f"02 00 {width:02X} {sign:02X}"), f"width {width} sign {sign}")

    def test_each_filter_of_a_float(self) -> None:
        for number in ANY:
            expected = (NOFIELD, None) if number in (0, 1, 4, 5, 8, 9, 10, 11, 12, 13) else (RANGE, 6)
            self.assertEqual(expected, verdict(f"02 00 20 02 00 00 {number:02X}"), f"filter {number}")

    def test_words_of_a_float(self) -> None:
        finite = ["00 00 00 80", "01 00 00 00", "FF FF 7F 7F", "FF FF 7F FF", "00 00 C0 3F"]
        not_finite = ["00 00 80 7F", "00 00 80 FF", "01 00 80 7F", "00 00 C0 7F", "FF FF FF FF"]
        for number, pattern in product((0, 1, 4, 5, 8, 9, 10, 11, 12, 13), finite + not_finite):
            for byte, used in ((8, number in (8, 9)), (12, number in (8, 9)), (16, True)):
                with self.subTest(number=number, pattern=pattern, byte=byte):
                    expected = (WIDTH, byte) if pattern in not_finite else (NOFIELD, None)
                    record = put(f"02 00 20 02 00 00 {number:02X}", byte, pattern)
                    self.assertEqual(expected if used else (UNUSED, byte), verdict(record))

    def test_size_comes_first(self) -> None:
        longest = "a layout file has at most 4608 bytes"
        for length, words in (
            (1, "1 byte is not a multiple of 24"),
            (23, "23 bytes are not a multiple of 24"),
            (25, "25 bytes are not a multiple of 24"),
            (4609, longest),
            (4632, longest),
        ):
            with self.subTest(length=length):
                refused = self.refusal(bytes(length))
                self.assertEqual((SIZE, 0, None), (refused.number, refused.record, refused.byte))
                self.assertEqual(words, refused.words)

    def test_no_field_comes_last(self) -> None:
        refused = self.refusal(file(FRAME, *MESSAGES[:3], "03 01 00"))
        self.assertEqual((NOFIELD, 1, "message0 has no field"), (refused.number, refused.record, refused.words))
        self.assertIsNone(refused.byte)
        refused = self.refusal(file(FRAME, *MESSAGES[:3], "03 00 00", "03 01 00 FF"))
        self.assertEqual((PLACE, 5), (refused.number, refused.record))

    def test_told_with_number_name_record_and_byte(self) -> None:
        refused = self.refusal(file(FRAME, MESSAGE, "03 00 00 07"))
        self.assertEqual("refused 6 PLACE record 2: bit 16 is not in frame0, which has bits 0 to 15", str(refused))
        refused = self.refusal(file(FRAME, "02 00 21"))
        self.assertEqual("refused 3 RANGE record 1 byte 2: width 33 is not 1 to 32", str(refused))

    def test_accepted(self) -> None:
        for records in ACCEPTED:
            with self.subTest(records=records):
                self.assertEqual(file(*records), read(file(*records)).to_bytes())

    def test_random_layouts_are_accepted(self) -> None:
        random = Random(1)
        for _ in range(50):
            layout = random_layout(random)
            self.assertEqual(layout, read(layout.to_bytes()))


if __name__ == "__main__":
    unittest.main()
