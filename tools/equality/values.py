"""Types, decimals and lists as docs/FORMATS.md says them, over exact fractions."""

import re
from dataclasses import dataclass
from fractions import Fraction
from typing import Iterable, Optional

from written import Failed

NAMED = {f"{sign}int{width}": (sign == "", width) for sign in ("", "u") for width in (8, 16, 32)}
LEAST_FRAC, GREATEST_FRAC = -64, 128


@dataclass(frozen=True)
class Type:
    """A stored integer n of so many bits that means n / 2**frac; into a boolean any number but 0 is 1."""

    signed: bool
    width: int
    frac: int
    boolean: bool = False

    @property
    def low(self) -> int:
        return -(1 << (self.width - 1)) if self.signed else 0

    @property
    def high(self) -> int:
        return (1 << (self.width - self.signed)) - 1


BOOLEAN = Type(False, 1, 0, True)
BIT = Type(False, 1, 0)


def type_of(text: str) -> Optional[Type]:
    """The type that a text declares, or None where it declares none."""
    word = re.sub(r"\s", "", text)
    if word == "boolean":
        return BOOLEAN
    if word in NAMED:
        return Type(*NAMED[word], 0)
    form = re.fullmatch(r"fixdt\((1|0|true|false),(\d+),(-?\d+)\)", word)
    return Type(form[1] in ("1", "true"), int(form[2]), int(form[3])) if form else None


def decimal(text: str) -> Fraction:
    """The exact number of a decimal."""
    word = text.strip()
    if word in ("true", "false"):
        return Fraction(word == "true")
    try:
        return Fraction(word)
    except ValueError:
        raise Failed(f"{text!r} stands in place of a decimal") from None


def elements(text: str) -> list[str]:
    """The decimals of a list, or the one that stands alone; none of an empty list."""
    inside = re.fullmatch(r"\s*\[(.*)\]\s*", text, re.S)
    return [word for word in re.split(r"[\s,;]+", inside[1].strip()) if word] if inside else [text]


def decimals(text: str) -> list[Fraction]:
    """The numbers of a list, or the one of a decimal; none of an empty list."""
    return [decimal(word) for word in elements(text)]


def stored(number: Fraction, of: Type) -> int:
    """The stored integer of a parameter: rounded to the nearest, ties up, and held at the ends."""
    if of.boolean:
        return int(number != 0)
    scaled = number * Fraction(2) ** of.frac
    return min(max((2 * scaled.numerator + scaled.denominator) // (2 * scaled.denominator), of.low), of.high)


def narrowest(low: int, high: int, frac: int) -> Type:
    """The narrowest type that holds all from low to high, with a sign only where low is negative."""
    if low >= 0:
        return Type(False, max(high.bit_length(), 1), frac)
    return Type(True, max((-low - 1).bit_length(), high.bit_length(), 1) + 1, frac)


def full_sum(terms: Iterable[tuple[bool, Type]]) -> Type:
    """The type that holds every sum of the terms, of which those marked are subtracted."""
    terms = list(terms)
    frac = max(of.frac for _, of in terms)
    ends = [((-of.high, -of.low) if negative else (of.low, of.high), frac - of.frac) for negative, of in terms]
    return narrowest(sum(low << up for (low, _), up in ends), sum(high << up for (_, high), up in ends), frac)


def full_product(left: Type, right: Type) -> Type:
    return Type(left.signed or right.signed, left.width + right.width, left.frac + right.frac)


def union(left: Type, right: Type) -> Type:
    """The type itself where both are one, else the narrowest that holds both."""
    if left == right:
        return left
    frac = max(left.frac, right.frac)
    ends = [(of.low << (frac - of.frac), of.high << (frac - of.frac)) for of in (left, right)]
    found = narrowest(min(low for low, _ in ends), max(high for _, high in ends), frac)
    return found if left.signed or right.signed else Type(False, found.width, frac)


def coefficient(into: Type, numbers: list[Fraction]) -> Type:
    """The type of a gain's coefficient by the internal rule."""
    signed = into.signed or any(number < 0 for number in numbers)
    width = max(into.width, 2) if signed else into.width
    if not any(numbers):
        return Type(signed, width, 0)
    for frac in range(GREATEST_FRAC, LEAST_FRAC - 1, -1):
        of = Type(signed, width, frac)
        nearest = [(2 * it.numerator + it.denominator) // (2 * it.denominator) for it in (number * Fraction(2) ** frac for number in numbers)]
        if all(of.low <= it <= of.high for it in nearest):
            return of
    raise Failed("a coefficient has no type")
