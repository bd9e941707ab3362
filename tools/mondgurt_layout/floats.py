"""32-bit IEEE 754 floats as patterns: from decimals, rounded once, and to decimals, all in exact arithmetic."""

from __future__ import annotations

from decimal import Decimal
from fractions import Fraction

MINUS = 2**31
INFINITE = 0x7F800000  # all exponent bits are set, as in every NaN
LARGEST = INFINITE - 1


def finite(pattern: int) -> bool:
    """Whether a pattern stands for a number."""
    return pattern & INFINITE != INFINITE


def exact(pattern: int) -> Fraction:
    """The number that a finite pattern stands for, a whole multiple of 2^-149."""
    exponent, fraction = divmod(pattern % MINUS, 2**23)
    units = 2**23 + fraction << exponent - 1 if exponent else fraction
    return Fraction(-units if pattern & MINUS else units, 2**149)


def nearest(decimal: str) -> int:
    """The pattern of the float nearest to a decimal, in a tie the even one; past the largest float that of infinity."""
    number = Decimal(decimal)
    sign = MINUS if number.is_signed() else 0
    # The place of the first digit tells what is far too small or too large: 1e99999999 is nothing to calculate with.
    if not number or number.adjusted() < -46:
        return sign
    if number.adjusted() > 38:
        return sign | INFINITE
    # By way of Python's float it would be rounded twice. Fractions are exact, and their round takes the even in a tie.
    units = abs(Fraction(number)) * 2**149
    shift = max(int(units).bit_length() - 24, 0)
    # Rounded up to 2^24, this is the least float with the next exponent: the carry goes where it belongs.
    pattern = (shift << 23) + round(units / 2**shift)
    return sign | min(pattern, INFINITE)


def shortest(pattern: int) -> str:
    """The decimal with the fewest digits that reads back to a finite pattern; of several the closest, then the even."""
    if not finite(pattern):
        raise ValueError(f"0x{pattern:08X} is not finite")
    sign = "-" if pattern & MINUS else ""
    number = abs(exact(pattern))
    if not number:
        return sign + "0.0"
    place = 38
    while number < Fraction(10) ** place:
        place -= 1
    while True:  # nine digits are enough for every float
        # If a decimal with so many digits reads back, the next one below or above does: what reads back has no gaps.
        step = Fraction(10) ** place
        below = number // step
        for digits in sorted((below, below + 1), key=lambda digits: (abs(digits * step - number), digits % 2)):
            decimal = sign + written(digits, place)
            if nearest(decimal) == pattern:
                return decimal
        place -= 1


def written(digits: int, place: int) -> str:
    """The number digits * 10^place as a decimal, with an exponent where it would be a long row of zeros."""
    text = str(digits)
    place += len(text) - 1
    text = text.rstrip("0")
    if place > 8 or place < -4:
        return f"{text[0]}.{text[1:]}".rstrip(".") + f"e{place}"
    if place < 0:
        return "0." + "0" * (-place - 1) + text
    text = text.ljust(place + 2, "0")
    return f"{text[: place + 1]}.{text[place + 1 :]}"
