"""Floats from decimals and back: ties, edges, and what two roundings would get wrong."""

import struct
import unittest
from collections.abc import Iterator
from decimal import Decimal
from fractions import Fraction
from math import ceil, floor
from random import Random

from mondgurt_layout.floats import INFINITE, LARGEST, MINUS, exact, finite, nearest, shortest

HALF = "1.000000059604644775390625"  # half way from 1 to the next float
ONE_AND_A_HALF = "1.000000178813934326171875"  # half way from there to the one after it
HALF_OF_LEAST = f"{5**150}e-150"  # 2^-150 with all its digits
HALF_WAY_TO_INFINITE = 2**128 - 2**103

# Decimals that Python's float takes for the tie beside them, so that two roundings end at the wrong float.
ROUNDED_TWICE = [
    (HALF + "0000000001", 0x3F800001),
    (HALF + "0" * 5000 + "1", 0x3F800001),
    (ONE_AND_A_HALF[:-1] + "4999999999", 0x3F800001),
    ("-" + HALF + "0000000001", 0xBF800001),
    ("16777217.0000000001", 0x4B800001),
    ("16777218.9999999999", 0x4B800001),
]

# A decimal, and its pattern.
NEAREST = [
    ("0", 0),
    ("0.0", 0),
    ("-0", MINUS),
    ("-0.0", MINUS),
    ("0e99999999", 0),
    ("-0e-99999999", MINUS),
    ("1", 0x3F800000),
    ("3", 0x40400000),
    ("1.5", 0x3FC00000),
    ("-1.5", 0xBFC00000),
    ("0015E-1", 0x3FC00000),
    ("150e-2", 0x3FC00000),
    ("0.0000015e+6", 0x3FC00000),
    ("1e-3", 0x3A83126F),
    ("0.1", 0x3DCCCCCD),
    ("-1000.0", 0xC47A0000),
    # Ties go to the even float.
    ("16777217", 0x4B800000),
    ("16777219", 0x4B800002),
    ("-16777219", 0xCB800002),
    ("33554434", 0x4C000000),
    ("33554438", 0x4C000002),
    (HALF, 0x3F800000),
    (HALF + "00", 0x3F800000),
    (ONE_AND_A_HALF, 0x3F800002),
    *ROUNDED_TWICE,
    # Up to the next power of two.
    ("1.99999997", 0x40000000),
    ("16777215.4", 0x4B7FFFFF),
    ("16777215.5", 0x4B800000),
    # Subnormal, with the least and the greatest, and half of the least.
    ("1e-45", 1),
    ("1.401298464324817e-45", 1),
    ("-1.4e-45", MINUS + 1),
    ("2.1e-45", 1),
    ("2.2e-45", 2),
    (HALF_OF_LEAST, 0),
    ("-" + HALF_OF_LEAST, MINUS),
    (f"{5**150}.0000000001e-150", 1),
    (f"{5**150 - 1}.9999999999e-150", 0),
    ("7.1e-46", 1),
    ("7e-46", 0),
    ("9.99e-47", 0),
    ("1e-46", 0),
    ("1e-99999999", 0),
    ("-1e-99999999", MINUS),
    ("1.1754942e-38", 0x007FFFFF),
    ("1.1754944e-38", 0x00800000),
    ("1.17549425e-38", 0x007FFFFF),
    # The largest, and where infinity begins.
    ("3.4028235e38", LARGEST),
    (str(2**128 - 2**104), LARGEST),
    (str(HALF_WAY_TO_INFINITE - 1), LARGEST),
    (str(HALF_WAY_TO_INFINITE - 1) + ".999999999", LARGEST),
    ("-" + str(HALF_WAY_TO_INFINITE - 1), MINUS | LARGEST),
    (str(HALF_WAY_TO_INFINITE), INFINITE),
    ("-" + str(HALF_WAY_TO_INFINITE), MINUS | INFINITE),
    (str(HALF_WAY_TO_INFINITE + 1), INFINITE),
    (str(2**128), INFINITE),
    ("3.5e38", INFINITE),
    (str(2**129 - 1), INFINITE),
    (str(2**129), INFINITE),
    ("-9.99e38", MINUS | INFINITE),
    ("1e39", INFINITE),
    ("-1e99999999", MINUS | INFINITE),
]

# A pattern, and its shortest decimal.
SHORTEST = [
    (0, "0.0"),
    (MINUS, "-0.0"),
    (0x3F800000, "1.0"),
    (0x3FC00000, "1.5"),
    (0xBFC00000, "-1.5"),
    (0x3DCCCCCD, "0.1"),
    (0x3EAAAAAB, "0.33333334"),
    (0xC47A0000, "-1000.0"),
    (0x38D1B717, "0.0001"),
    (0x3727C5AC, "1e-5"),
    (0xB727C5AC, "-1e-5"),
    (0x4B800000, "16777216.0"),
    (0x4CEB79A3, "123456790.0"),
    (0x4E6E6B28, "1e9"),
    (0x501502F9, "1e10"),
    (1, "1e-45"),
    (2, "3e-45"),
    (0x007FFFFF, "1.1754942e-38"),
    (0x00800000, "1.1754944e-38"),
    (LARGEST, "3.4028235e38"),
    (MINUS | LARGEST, "-3.4028235e38"),
    # As near to the decimal below as to the one above: the even one.
    (0x4A000001, "2097152.2"),
    (0x4A000003, "2097152.8"),
    # Powers of two: below them floats lie closer, so the closest decimal, ..774, ..250 and ..400, does not read back.
    (0x0F800000, "1.2621775e-29"),
    (0x6B000000, "1.5474251e26"),
    (0x6C800000, "1.2379401e27"),
]

# The ends and the middle of every row of floats with one exponent, of one sign and the other.
EDGES = [
    exponent % 2 * MINUS | exponent << 23 | fraction for exponent in range(255) for fraction in (0, 1, 2**22, 2**23 - 1)
]


def by_double(decimal: str) -> int:
    """The pattern of a decimal by way of Python's float, a double; right where the double is exact."""
    return int.from_bytes(struct.pack("<f", float(decimal)), "little")


def decimal_of(number: Fraction) -> str:
    """A fraction whose denominator is a power of two, with all its digits."""
    places = number.denominator.bit_length() - 1
    return f"{number.numerator * 5**places}e-{places}"


def some_patterns(seed: int, count: int) -> Iterator[int]:
    """Finite patterns."""
    random = Random(seed)
    while count:
        pattern = random.getrandbits(32)
        if finite(pattern):
            yield pattern
            count -= 1


class Floats(unittest.TestCase):
    def test_finite(self) -> None:
        for pattern in (0, 1, LARGEST, MINUS, MINUS | LARGEST, 0x3FC00000):
            self.assertTrue(finite(pattern))
        for pattern in (INFINITE, INFINITE + 1, 0x7FC00000, 0x7FFFFFFF, MINUS | INFINITE, 0xFFC00000, 0xFFFFFFFF):
            self.assertFalse(finite(pattern))

    def test_exact(self) -> None:
        for pattern in (*EDGES, *some_patterns(4, 1000)):
            [double] = struct.unpack("<f", pattern.to_bytes(4, "little"))
            self.assertEqual(Fraction(double), exact(pattern))

    def test_nearest(self) -> None:
        for decimal, pattern in NEAREST:
            with self.subTest(decimal=decimal):
                self.assertEqual(f"{pattern:08X}", f"{nearest(decimal):08X}")

    def test_what_is_rounded_twice_by_way_of_a_double(self) -> None:
        for decimal, pattern in ROUNDED_TWICE:
            with self.subTest(decimal=decimal):
                self.assertNotEqual(pattern, by_double(decimal))

    def test_half_way_and_beside_it(self) -> None:
        beside = Fraction(1, 2**400)
        for pattern in (*EDGES, *some_patterns(5, 1000)):
            lower = pattern % MINUS
            if lower == LARGEST:
                continue
            middle = (exact(lower) + exact(lower + 1)) / 2
            even = lower + lower % 2
            for number, right in ((middle - beside, lower), (middle, even), (middle + beside, lower + 1)):
                self.assertEqual(right, nearest(decimal_of(number)))
                self.assertEqual(MINUS | right, nearest("-" + decimal_of(number)))

    def test_doubles_are_rounded_once_by_struct_too(self) -> None:
        random = Random(6)
        for _ in range(2000):
            decimal = str(Decimal(random.uniform(-1, 1) * 2.0 ** random.randint(-155, 127)))
            self.assertEqual(by_double(decimal), nearest(decimal))

    def test_shortest(self) -> None:
        for pattern, decimal in SHORTEST:
            with self.subTest(decimal=decimal):
                self.assertEqual(decimal, shortest(pattern))

    def test_shortest_reads_back(self) -> None:
        for pattern in (*EDGES, *some_patterns(7, 3000)):
            decimal = shortest(pattern)
            self.assertRegex(decimal, r"^-?([0-9]+\.[0-9]+|[1-9](\.[0-9]+)?e-?[1-9][0-9]*)$")
            self.assertEqual(pattern, nearest(decimal))

    def test_no_decimal_with_fewer_digits_reads_back(self) -> None:
        for pattern in (*EDGES, *some_patterns(8, 1000)):
            lower = pattern % MINUS
            if lower in (0, LARGEST):
                continue
            decimal = Decimal(shortest(lower)).normalize()
            digits = len(decimal.as_tuple().digits)
            if digits == 1:
                continue
            # What has a digit less, or even fewer, is a multiple of this. Half way reads back to an even float.
            step = Fraction(10) ** (decimal.adjusted() - digits + 2)
            least = (exact(lower - 1) + exact(lower)) / 2 / step
            greatest = (exact(lower) + exact(lower + 1)) / 2 / step
            first, last = (floor(least) + 1, ceil(greatest) - 1) if lower % 2 else (ceil(least), floor(greatest))
            self.assertLess(last, first, f"{lower:08X}")

    def test_what_is_not_finite_has_no_decimal(self) -> None:
        for pattern in (INFINITE, MINUS | INFINITE, 0x7FC00000, 0xFFFFFFFF):
            with self.assertRaises(ValueError):
                shortest(pattern)


if __name__ == "__main__":
    unittest.main()
