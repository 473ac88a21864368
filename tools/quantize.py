"""Real values into fixed-point types and back, in exact fractions."""

import math
from fractions import Fraction
from typing import Callable

from library import FixedType

HALF = Fraction(1, 2)


def to_even(value: Fraction) -> int:
    return round(value)


def away_from_zero(value: Fraction) -> int:
    """The nearest whole number, of two that are as near the one farther from 0."""
    return int(math.copysign(1, value)) * math.floor(abs(value) + HALF)


# By Simulink's names of roundings (docs/FORMATS.md).
ROUNDINGS: dict[str, Callable[[Fraction], int]] = {
    "Floor": math.floor,
    "Ceiling": math.ceil,
    "Zero": math.trunc,
    "Nearest": lambda value: math.floor(value + HALF),
    "Round": away_from_zero,
    "Convergent": to_even,
}


def quantized(value: Fraction, kind: FixedType, rounding: Callable[[Fraction], int]) -> tuple[int, bool]:
    """The stored integer of a value in a type, and whether it was limited to the type's range."""
    low, high = kind.range()
    found = rounding(value * Fraction(2) ** kind.fraction)
    return min(max(found, low), high), not low <= found <= high


def decimal(value: Fraction) -> str:
    """A value as a decimal: exact where its denominator has no other primes than 2 and 5, else to 20 places."""
    rest = value.denominator
    twos = (rest & -rest).bit_length() - 1
    fives, rest = 0, rest >> twos
    while rest % 5 == 0:
        fives, rest = fives + 1, rest // 5
    places = max(twos, fives) if rest == 1 else 20
    scaled = round(abs(value) * 10**places)
    whole, behind = divmod(scaled, 10**places)
    digits = f"{behind:0{places}d}".rstrip("0") if places else ""
    return ("-" if value < 0 and scaled else "") + str(whole) + (f".{digits}" if digits else "")


def errors(found: list[Fraction], kind: FixedType) -> str:
    """The greatest error, the mean, and the root of the mean square, also in units of the last bit."""
    if not found:
        return "no value has a reference"
    unit = 2.0**-kind.fraction
    mean, square = float(sum(found) / len(found)), math.sqrt(sum(float(it) ** 2 for it in found) / len(found))
    rows = (("greatest error", float(max(map(abs, found)))), ("mean", mean), ("rms", square))
    return f"{len(found)} values, " + ", ".join(f"{name} {value:.6g} ({value / unit:.4g} of the last bit)" for name, value in rows)
