"""Layouts as text: round trips, defaults, and mistakes with their line and column."""

import unittest
from random import Random

from mondgurt_layout.grammar import Mistakes
from mondgurt_layout.records import FILTERS, Field, Frame, Message
from mondgurt_layout.text import listing, parse, write
from mondgurt_layout.verdict import read

from .layouts import SAMPLES, file, put, random_layout

FRAME = "frame a 2 bytes\n"
MESSAGE = FRAME + "message m 10 bits\n"
FIELD = MESSAGE + "  in a at 3\n"
ONE_BYTE = "".join(f"frame f{number} 1 byte\n" for number in range(5))
NINE = "".join(f"frame f{number} 2 bytes\n" for number in range(9))
MANY = "".join(f"frame f{number} 32 bytes\n" for number in range(5)) + "".join(
    f"message m{number} 1 bit\n" + "".join(f"in f{frame} at {number}\n" for frame in range(4)) for number in range(32)
)
TOO_MANY = "number 32 is not 0 to 31, as there are at most 32"
TEN_BITS, TEN_SIGNED = "0 to 1023, the values of 10 unsigned bits", "-512 to 511, the values of 10 signed bits"
FOUR_BITS = "0 to 15, the values of 4 unsigned bits"

FLOAT = FRAME + "message m 32 bits float "
FLOATS = "-3.4028235e38 to 3.4028235e38, the values of a float"
NO_FLOAT = "sign 2 (float) is not 0 (unsigned) or 1 (signed), as a float has 32 bits"
NO_MASK = "is not 0, 1, 4, 5 or 8 to 13, as a float takes no mask"
WHOLE = "expected a whole number, as m is not a float"
NO_DECIMALS = [
    *("nan", "NaN", "inf", "-inf", "infinity", "1.5f", "1.", ".5", "-.5", "1..5", "1.2.3", "1_000.0", "e5", "1e"),
    *("1e-", "1e-x", "1e5.0", "1.e-3", "0x", "-0x1", "0x1.8", "0x1e-3"),
]
LONG_NAME, CUT, LONG_NUMBER = "a" * 1000, "a" * 40 + "..", "7" * 1000
FOLLOWING = (
    "expected `unsigned`, `signed`, `float`, `received`, `sent`, `pick`, `average`, `vote`, `filter` or `initial`"
)

# How a value of a float may be written, and its pattern.
WRITTEN = [
    ("0", 0),
    ("0.0", 0),
    ("-0.0", 0x80000000),
    ("3", 0x40400000),
    ("1.5", 0x3FC00000),
    ("-1.5", 0xBFC00000),
    ("15E-1", 0x3FC00000),
    ("0.15e+1", 0x3FC00000),
    ("1e-3", 0x3A83126F),
    ("100000000000000000000", 0x60AD78EC),
    ("16777217", 0x4B800000),
    ("0x3fc00000", 0x3FC00000),
    ("0xBFC00000", 0xBFC00000),
    ("0x80000000", 0x80000000),
    ("0x1", 1),
]

# A text with one mistake, and where and how it is wrong.
MISTAKES = [
    ("fram a 2 bytes", "1:1: expected `frame`, `message` or `in`, found `fram`"),
    ("frame 2 bytes", "1:7: expected a name, found `2`"),
    ("frame a", "1:8: expected a whole number, found the end of the line"),
    ("frame a  # 2 bytes", "1:8: expected a whole number, found the end of the line"),
    ("frame a 2 bits", "1:11: expected `bytes` or `byte`, found `bits`"),
    ("frame a two bytes", "1:9: expected a whole number, found `two`"),
    ("frame a 2.0 bytes", "1:9: expected a whole number, found `2.0`"),
    ("frame a.b 2 bytes", "1:7: expected a name, found `a.b`"),
    ("\n# why\n\tframe a 2 bytes big little", "3:22: the order is said twice"),
    ("frame a 2 bytes middle", "1:17: expected `little`, `big`, `received`, `sent`, `time` or `event`, found `middle`"),
    (FRAME + "frame a 3 bytes", "2:7: the name a is taken in line 1"),
    (FIELD + "message m 1 bit", "4:9: the name m is taken in line 2"),
    (FRAME + "in a at 3", "2:1: expected a message before its fields"),
    (MESSAGE + "  in b at 3", "3:6: there is no frame b"),
    (MESSAGE + "  in a on 3", "3:8: expected `at`, found `on`"),
    (FRAME + "message m 10 bits pick one", "2:24: expected `any`, found `one`"),
    (FRAME + "message m 10 bits filter new & 7 is 3", "2:34: expected `=`, `!=`, `unchanged` or `changed`, found `is`"),
    (FRAME + "message m 10 bits filter 0 <= new", "2:34: expected `<=`, found the end of the line"),
    (FRAME + "message m 10 bits filter true filter false", "2:31: the filter is said twice"),
    (FRAME + "message m 10 bits initial 1 initial 1", "2:37: the initial is said twice"),
    (FRAME + "message m 10 bits float signed", "2:25: the sign is said twice"),
    (FRAME + "message m 10 bits initial", "2:26: expected a number, found the end of the line"),
    (FRAME + "message m 10 bits 5", f"2:19: {FOLLOWING}, found `5`"),
    (FRAME + "message m 10 bits initial 1.5", f"2:27: {WHOLE}, found `1.5`"),
    (FRAME + "message m 10 bits initial 1e2", f"2:27: {WHOLE}, found `1e2`"),
    (FRAME + "message m 10 bits initial 3.0 signed", f"2:27: {WHOLE}, found `3.0`"),
    (FRAME + "message m 10 bits filter 0 <= new <= 1.5", f"2:38: {WHOLE}, found `1.5`"),
    *((FLOAT + f"initial {word}", f"2:33: expected a number, found `{word}`") for word in NO_DECIMALS),
    (FLOAT + "initial +1.5", "2:33: expected a number, found `+`"),
    (FLOAT + "filter nan <= new <= 1", "2:32: expected `true`, `false`, `new` or a number, found `nan`"),
    (FLOAT + "filter 1 <= new <= inf", "2:44: expected a number, found `inf`"),
    # A number is too long.
    ("frame a 99999999999999 bytes", "1:9: length 99999999999999 has too many digits, 10 at most"),
    ("frame a 00000000002 bytes", "1:9: length 00000000002 has too many digits, 10 at most"),
    (FRAME + "message m -12345678901 bits", "2:11: width -12345678901 has too many digits, 10 at most"),
    (FRAME + f"message m {LONG_NUMBER} bits", f"2:11: width {LONG_NUMBER[:40]}.. has too many digits, 10 at most"),
    (MESSAGE + "  in a at 12345678901", "3:11: start 12345678901 has too many digits, 10 at most"),
    (MESSAGE + "  in a at 3 status 0x123456789", "3:20: status bit place 0x123456789 has too many digits, 8 at most"),
    (FRAME + "message m 10 bits initial 12345678901", "2:27: initial 12345678901 has too many digits, 10 at most"),
    (FRAME + "message m 9 bits filter 0 <= new <= 0x000000001", "2:37: x2 0x000000001 has too many digits, 8 at most"),
    (FLOAT + "initial 0x123456789", "2:33: initial 0x123456789 has too many digits, 8 at most"),
    (FLOAT + f"initial 1.{LONG_NUMBER}", f"2:33: initial 1.{LONG_NUMBER[:38]}.. has too many digits, 1000 at most"),
    (FLOAT + "initial 1e123456789", "2:33: the exponent of initial 1e123456789 has too many digits, 8 at most"),
    # A word is long, or cannot be printed.
    (LONG_NAME, f"1:1: expected `frame`, `message` or `in`, found `{CUT}`"),
    (LONG_NAME[:40], f"1:1: expected `frame`, `message` or `in`, found `{LONG_NAME[:40]}`"),
    ("frame \u202e 2 bytes", "1:7: expected a name, found `\\u202e`"),
    (f"frame {LONG_NAME} 33 bytes", "1:1008: length 33 is not 1 to 32"),
    (FRAME + f"message {LONG_NAME} 1 bit", f"2:9: {CUT} has no field"),
    (FRAME + f"message {LONG_NAME} 1 bit\nin a at 0 status 0", f"3:18: bit 0 of a is taken by {CUT} itself"),
    (MESSAGE + f"in {LONG_NAME} at 3", f"3:4: there is no frame {CUT}"),
    (f"frame {LONG_NAME} 1 byte\n" * 2, f"2:7: the name {CUT} is taken in line 1"),
    # What no text has.
    ("frame a\x1b[31m 2 bytes", "1:8: \\x1b is a control character"),
    (FRAME + "\n# \x07\x08", "3:3: \\x07 is a control character"),
    (FRAME + "# \x85", "2:3: \\x85 is a control character"),
    (FRAME + "# caf\udce9", "2:6: byte 0xE9 is not UTF-8"),
    # ORDER
    (FIELD + "  in a at 3", "4:6: the message has a field in this frame already, line 3"),
    # RANGE
    ("frame a 33 bytes", "1:9: length 33 is not 1 to 32"),
    ("frame a 0 bytes", "1:9: length 0 is not 1 to 32"),
    (FRAME + "message m 33 bits", "2:11: width 33 is not 1 to 32"),
    (FRAME + "message m 33 bits initial -1", "2:11: width 33 is not 1 to 32"),
    (FRAME + "message m 16 bits float initial 1.5", f"2:19: {NO_FLOAT}"),
    (FRAME + "message m 33 bits float initial 1.5", "2:11: width 33 is not 1 to 32"),
    (FLOAT + "filter new & 1 = 0", f"2:25: filter 2 (new & X1 = X2) {NO_MASK}"),
    (FLOAT + "filter new & 1.5 != 0x1", f"2:25: filter 3 (new & X1 != X2) {NO_MASK}"),
    (FLOAT + "filter new & 1 unchanged", f"2:25: filter 6 (new & X1 unchanged) {NO_MASK}"),
    (FLOAT + "filter new & 0xFF800000 changed", f"2:25: filter 7 (new & X1 changed) {NO_MASK}"),
    (FRAME + "message m 4 bits sent vote", "2:23: agreement 2 (vote) is not 0 (pick any), as the message is sent"),
    ("\n".join(f"frame f{n} 1 byte" for n in range(33)), f"33:7: {TOO_MANY} frames"),
    (
        ONE_BYTE + "\n".join(f"message m{n} 1 bit\nin f{n // 8} at {n % 8}" for n in range(33)),
        f"70:9: {TOO_MANY} messages",
    ),
    # WIDTH
    (FRAME + "message m 10 bits initial 1024", f"2:27: initial 1024 is not {TEN_BITS}"),
    (FRAME + "message m 10 bits initial -1", f"2:27: initial -1 is not {TEN_BITS}"),
    (FRAME + "message m 10 bits signed initial 512", f"2:34: initial 512 is not {TEN_SIGNED}"),
    (FRAME + "message m 10 bits signed initial 0x400", f"2:34: initial 1024 is not {TEN_SIGNED}"),
    (FRAME + "message m 1 bit signed initial 1", "2:32: initial 1 is not -1 or 0, the values of 1 signed bit"),
    (FRAME + "message m 4 bits filter 0 <= new <= 16", f"2:37: x2 16 is not {FOUR_BITS}"),
    (FRAME + "message m 4 bits filter new & 0x10 changed", f"2:31: x1 16 is not {FOUR_BITS}"),
    (FRAME + "message m 4 bits initial 17 filter 16 <= new <= 0", f"2:36: x1 16 is not {FOUR_BITS}"),
    (FLOAT + "initial 0x7F800000", f"2:33: initial 0x7F800000 (not finite) is not {FLOATS}"),
    (FLOAT + "initial 0xffc00001", f"2:33: initial 0xFFC00001 (not finite) is not {FLOATS}"),
    (FLOAT + "initial 1 filter 1 <= new <= 0x7FFFFFFF", f"2:54: x2 0x7FFFFFFF (not finite) is not {FLOATS}"),
    (FLOAT + "filter 0xFF800000 > new or new > 1", f"2:32: x1 0xFF800000 (not finite) is not {FLOATS}"),
    (FLOAT + "initial 1e39", f"2:33: initial 1e39 is not {FLOATS}"),
    (FLOAT + "initial -1e99999999", f"2:33: initial -1e99999999 is not {FLOATS}"),
    (FLOAT + f"initial {2**128 - 2**103}", f"2:33: initial {2**128 - 2**103} is not {FLOATS}"),
    (FLOAT + "filter -3.5e38 <= new <= 0", f"2:32: x1 -3.5e38 is not {FLOATS}"),
    # REF
    ("frame a 2 bytes sent\nmessage m 10 bits\n  in a at 3", "3:6: m is received and a is sent"),
    # GROUP
    (NINE + "message m 1 bit\n" + "".join(f"in f{n} at 0\n" for n in range(9)), "19:4: m has 8 fields already"),
    (MANY + "in f4 at 0", "166:4: there are 128 fields already"),
    (
        "frame b 2 bytes\n" + MESSAGE + "in b at 0 status 15\nin a at 0",
        "5:4: m has a status bit in b, so it needs one here",
    ),
    (
        "frame b 2 bytes\n" + MESSAGE + "in b at 0\nin a at 0 status 15",
        "5:11: m has no status bit in b, so it can have none here",
    ),
    (
        "frame a 2 bytes sent\nmessage m 10 bits sent filter new > old\n  in a at 3",
        "3:6: m is sent through a filter, so it needs a status bit",
    ),
    # PLACE
    (MESSAGE + "  in a at 7", "3:11: bit 16 is not in a, which has bits 0 to 15"),
    (MESSAGE + "  in a at 3 status 16", "3:20: bit 16 is not in a, which has bits 0 to 15"),
    (MESSAGE + "  in a at 3 status 1000", "3:20: bit 1000 is not in a, which has bits 0 to 15"),
    (MESSAGE + "  in a at 3 status 12", "3:20: bit 12 of a is taken by m itself"),
    (FIELD + "message n 4 bits\n  in a at 0", "5:11: bit 3 of a is taken by m, line 3"),
    (FIELD + "message n 4 bits\n  in a at 13 status 3", "5:11: bit 16 is not in a, which has bits 0 to 15"),
    (FIELD + "message n 1 bit\n\n  in a at 15 status 12", "6:21: bit 12 of a is taken by m, line 3"),
    # NOFIELD
    (MESSAGE, "2:9: m has no field"),
]

# A text with several mistakes, and all that is told: a line that is wrong only because of another is not.
SEVERAL = [
    (
        "fram a 2 bytes\nframe b 33 bytes\nframe c 2 bytes middle\nframe d 2 bytes d\n",
        [
            "1:1: expected `frame`, `message` or `in`, found `fram`",
            "2:9: length 33 is not 1 to 32",
            "3:17: expected `little`, `big`, `received`, `sent`, `time` or `event`, found `middle`",
            "4:17: expected `little`, `big`, `received`, `sent`, `time` or `event`, found `d`",
        ],
    ),
    # The frame, named or not, is wrong; another is not there.
    (
        "frame a 33 bytes\nfram b 2 bytes\nframe c two bytes\nmessage m 10 bits\n"
        "  in a at 0\n  in b at 300\n  in c at 0 status 1\n  in d at 0\n",
        [
            "1:9: length 33 is not 1 to 32",
            "2:1: expected `frame`, `message` or `in`, found `fram`",
            "3:9: expected a whole number, found `two`",
            "8:6: there is no frame d",
        ],
    ),
    (FRAME + "frame 2b 2 bytes\nmessage m 1 bit\n  in b2 at 0\n", ["2:7: expected a name, found `2b`"]),
    # A number that is too long is told whatever the message and the frame are.
    (
        FRAME + "message m 33 bits\n  in a at 12345678901\n",
        ["2:11: width 33 is not 1 to 32", "3:11: start 12345678901 has too many digits, 10 at most"],
    ),
    # Of two frames with one name, either may be meant.
    (FRAME + "frame a 4 bytes\nmessage m 10 bits\n  in a at 20\n", ["2:7: the name a is taken in line 1"]),
    # A wrong message: its fields are not those of the message above.
    (
        FIELD + "message n 33 bits\n  in a at 3\n"
        "mesage o 3 bits\n  in a at 3\n  in b at 3\nmessage m 2 bits\n  in a at 3\n",
        [
            "4:11: width 33 is not 1 to 32",
            "6:1: expected `frame`, `message` or `in`, found `mesage`",
            "8:6: there is no frame b",
            "9:9: the name m is taken in line 2",
        ],
    ),
    ("message 3\n  in a at 3\n", ["1:9: expected a name, found `3`", "2:6: there is no frame a"]),
    # A message whose fields are wrong, or that may have been meant by a wrong line, is not one without fields.
    (
        MESSAGE + "  in a on 3\nmessage n 3 bits\n  on a at 3\nmessage o 3 bits\nmessage p 3 bits\n  in a at 99\n",
        [
            "3:8: expected `at`, found `on`",
            "5:3: expected `frame`, `message` or `in`, found `on`",
            "6:9: o has no field",
            "8:11: bit 99 is not in a, which has bits 0 to 15",
        ],
    ),
    # A frame that may have been a field, and one that may have been a message.
    (
        MESSAGE + "frame a at 3\nframe n 3 bits\n  in a at 30\n",
        ["3:9: expected a whole number, found `at`", "4:11: expected `bytes` or `byte`, found `bits`"],
    ),
    # A comment means nothing.
    (
        MESSAGE + "# \x07\n  in a at 9\n",
        ["3:3: \\x07 is a control character", "4:11: bit 16 is not in a, which has bits 0 to 15"],
    ),
    # A field that is wrong takes no bits.
    (
        FIELD + "message n 4 bits\n  in a at 10\nmessage o 1 bit\n  in a at 13\nmessage p 1 bit\n  in a at 12\n",
        ["5:11: bit 10 of a is taken by m, line 3", "9:11: bit 12 of a is taken by m, line 3"],
    ),
    # Lines are told in order, whatever was tested first.
    (
        "in a at 3\nmessage m 10 bits initial 1024\n  in a at 3\nmessage n 1 bit\n  in a at 8\nframe a 0x100 bytes",
        [
            "1:1: expected a message before its fields",
            f"2:27: initial 1024 is not {TEN_BITS}",
            "6:9: length 256 is not 1 to 32",
        ],
    ),
    ("\n".join(f"frame f{n} 1 byte" for n in range(34)), [f"33:7: {TOO_MANY} frames", f"34:7: {TOO_MANY} frames"]),
]


class Texts(unittest.TestCase):
    def test_samples(self) -> None:
        for name in ("paper", "brake", "largest", "strain"):
            with self.subTest(name=name):
                raw = (SAMPLES / f"{name}.layout").read_bytes()
                self.assertEqual(raw, parse((SAMPLES / f"{name}.txt").read_text()).to_bytes())
                self.assertEqual(raw, parse(write(read(raw))).to_bytes())

    def test_random_layouts(self) -> None:
        random = Random(2)
        for _ in range(50):
            layout = random_layout(random)
            self.assertEqual(layout, parse(write(layout)))

    def test_the_example_of_the_paper(self) -> None:
        raw = (SAMPLES / "paper.layout").read_bytes()
        self.assertEqual(file("01 00 02", "02 00 0A", "03 00 00 03"), raw)
        self.assertEqual("message frame start width status\n0 0 3 10 -\n", listing(read(raw)))

    def test_what_is_not_said(self) -> None:
        layout = parse(FIELD)
        self.assertEqual([Frame("a", 0, 2, order=0, direction=0, trigger=0)], layout.frames)
        message = Message("m", 0, 10, sign=0, direction=0, agreement=0, filter=0, x1=0, x2=0, initial=0)
        self.assertEqual([message], layout.messages)
        self.assertEqual([Field(0, 0, 3, present=0, place=0)], layout.fields)

    def test_any_order(self) -> None:
        text = "message m 4 bits initial 5 sent signed filter new&0xC!=4\nin b at 0 status 7\nin a at 4 status 0\n"
        layout = parse(text.replace("initial 5", "initial 0xD") + "frame a 1 byte sent\nframe b 1 byte event sent big")
        self.assertEqual([Frame("a", 0, 1, 0, 1, 0), Frame("b", 1, 1, 1, 1, 1)], layout.frames)
        self.assertEqual([Message("m", 0, 4, 1, 1, 0, 3, -4, 4, -3)], layout.messages)
        self.assertEqual([Field(0, 0, 4, 1, 0), Field(0, 1, 0, 1, 7)], layout.fields)

    def test_filters(self) -> None:
        for number, words in enumerate(FILTERS):
            for sign, value in (("unsigned", "0x3FF"), ("signed", "-512")):
                with self.subTest(words=words, sign=sign):
                    said = words.replace("X1", value).replace("X2", "3")
                    layout = parse(FRAME + f"message m 10 bits {sign} filter {said}\nin a at 3")
                    self.assertEqual(number, layout.messages[0].filter)
                    self.assertEqual(layout, parse(write(layout)))

    def test_floats(self) -> None:
        for word, pattern in WRITTEN:
            with self.subTest(word=word):
                message = f"message m 32 bits initial {word} filter {word}<=new<={word} float\n"
                layout = parse(f"frame a 4 bytes\n{message}in a at 0")
                self.assertEqual([Message("m", 0, 32, 2, 0, 0, 8, pattern, pattern, pattern)], layout.messages)
                self.assertEqual(layout, parse(write(layout)))

    def test_floats_are_written_as_short_decimals(self) -> None:
        message = put("02 00 20 02 00 00 09", 8, "CD CC CC BD 00 00 80 7E 00 00 00 80")
        self.assertEqual(
            "frame  frame0  4 bytes  little  received  time\n\n"
            "message  message0  32 bits  float  received  pick any  "
            "filter -0.1 > new or new > 8.507059e37  initial -0.0\n"
            "  in frame0  at 0\n",
            write(read(file("01 00 04", message, "03 00 00"))),
        )

    def test_the_sample_with_floats(self) -> None:
        within = put("02 00 20 02 00 01 08", 8, "00 00 7A C4 00 00 7A 44")
        records = ["01 00 08", "01 01 08", "01 02 08", "01 03 04 00 01", within, "02 01 20 02 01"]
        fields = ["03 00 00 00 01 20", "03 00 01 00 01 20", "03 00 02 00 01 20", "03 01 03"]
        self.assertEqual(file(*records, *fields), (SAMPLES / "strain.layout").read_bytes())

    def mistakes(self, text: str) -> list[str]:
        with self.assertRaises(Mistakes) as caught:
            parse(text)
        return [f"{mistake.line}:{mistake.column}: {mistake}" for mistake in caught.exception.found]

    def test_mistakes(self) -> None:
        for text, told in MISTAKES:
            with self.subTest(told=told):
                self.assertEqual([told], self.mistakes(text))

    def test_several_mistakes(self) -> None:
        for text, told in SEVERAL:
            with self.subTest(told=told):
                self.assertEqual(told, self.mistakes(text))


if __name__ == "__main__":
    unittest.main()
