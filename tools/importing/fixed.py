"""Fixed-point types: the ranges they hold, and the types that the profile's internal rules give."""

import math
import re
from collections.abc import Iterable
from dataclasses import dataclass
from fractions import Fraction

WHOLE = {"int8": (True, 8), "int16": (True, 16), "int32": (True, 32), "uint8": (False, 8), "uint16": (False, 16), "uint32": (False, 32)}
SPELLED = {wide: name for name, wide in WHOLE.items()}
FIXDT = re.compile(r"fixdt\((0|1),(\d+),(-?\d+)\)")


@dataclass(frozen=True)
class FixType:
    """A type of `width` bits, `frac` of them behind the point; `width` 0 stands where none was given, and
    `frac` None where the best precision is asked for. A boolean is an unsigned bit that is so called."""

    signed: bool
    width: int
    frac: int | None = 0
    logical: bool = False

    @property
    def is_valid(self) -> bool:
        low, high = (2, 128) if self.signed else (1, 127)
        return self.frac is not None and low <= self.width <= high and -64 <= self.frac <= 128

    @property
    def lowest(self) -> int:
        return -(1 << self.width - 1) if self.signed else 0

    @property
    def highest(self) -> int:
        return (1 << self.width - self.signed) - 1

    @property
    def step(self) -> Fraction:
        return Fraction(2) ** -(self.frac or 0)

    def __str__(self) -> str:
        if self.logical:
            return "boolean"
        if self.frac == 0 and (self.signed, self.width) in SPELLED:
            return SPELLED[self.signed, self.width]
        return f"fixdt({int(self.signed)},{self.width},{self.frac})"


BOOLEAN = FixType(False, 1, 0, True)
BIT = FixType(False, 1)


def read(text: str) -> FixType | None:
    """The type that a text of the profile spells, or none."""
    text = text.replace(" ", "")
    found = FIXDT.fullmatch(text)
    if found:
        return FixType(found[1] == "1", int(found[2]), int(found[3]))
    return BOOLEAN if text == "boolean" else FixType(*WHOLE[text]) if text in WHOLE else None


def nearest(value: Fraction) -> int:
    return math.floor(value + Fraction(1, 2))


def stored(value: Fraction, kind: FixType) -> int:
    """The stored integer nearest to a value, within the type's range; of a boolean 1 where it isn't 0."""
    if kind.logical:
        return int(value != 0)
    return min(max(nearest(value / kind.step), kind.lowest), kind.highest)


def narrowest(low: int, high: int, frac: int) -> FixType | None:
    """The narrowest type that holds all from `low` to `high`, counted in its steps."""
    signed = low < 0
    width = max(high.bit_length(), (-low - 1).bit_length() if signed else 0) + signed
    kind = FixType(signed, max(width, 2 if signed else 1), frac)
    return kind if kind.is_valid else None


def exact(values: Iterable[Fraction]) -> FixType | None:
    """The narrowest type that holds each value exactly, with the shortest fraction, or none."""
    values = list(values)
    parts = [value.denominator for value in values]
    if any(part & part - 1 for part in parts):
        return None
    frac = max(part.bit_length() - 1 for part in parts)
    counted = [int(value * 2**frac) for value in values]
    return narrowest(min(0, *counted), max(0, *counted), frac)


def full_sum(terms: list[tuple[bool, FixType]]) -> FixType | None:
    """The narrowest type that holds every sum of such terms, a true one being subtracted."""
    frac = max(kind.frac for _, kind in terms)
    low = high = 0
    for negative, kind in terms:
        ends = [end << frac - kind.frac for end in (kind.lowest, kind.highest)]
        low, high = (low - ends[1], high - ends[0]) if negative else (low + ends[0], high + ends[1])
    return narrowest(low, high, frac)


def full_product(a: FixType, b: FixType) -> FixType | None:
    kind = FixType(a.signed or b.signed, a.width + b.width, a.frac + b.frac)
    return kind if kind.is_valid else None


def union(a: FixType, b: FixType) -> FixType | None:
    if a == b:
        return a
    frac = max(a.frac, b.frac)
    lows = [kind.lowest << frac - kind.frac for kind in (a, b)]
    highs = [kind.highest << frac - kind.frac for kind in (a, b)]
    return narrowest(min(lows), max(highs), frac)


def best(values: list[Fraction], signed: bool, width: int) -> FixType | None:
    """The type of that width with the longest fraction at which each value, rounded, fits."""
    if not any(values):
        return FixType(signed, width, 0)
    for frac in range(128, -65, -1):
        kind = FixType(signed, width, frac)
        if all(kind.lowest <= nearest(value / kind.step) <= kind.highest for value in values):
            return kind
    return None


def parameter_type(values: list[Fraction], driver: FixType) -> FixType | None:
    """The type that the internal rule gives a coefficient."""
    signed = driver.signed or any(value < 0 for value in values)
    return best(values, signed, max(driver.width, 2) if signed else driver.width)
