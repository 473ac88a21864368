"""Stored integers for the references: rounding, limits and wrapping, and how a reference is run."""

import random
import sys
from collections.abc import Callable, Iterable

Row = list[int | None]


def shifted(number: int, places: int, rounding: str = "Floor") -> int:
    """A number divided by 2 ^ places, and rounded to a whole one."""
    if places <= 0:
        return number << -places
    low, rest = number >> places, number & ((1 << places) - 1)
    half = 1 << (places - 1)
    up = {
        "Floor": False, "Ceiling": rest > 0, "Zero": number < 0 and rest > 0, "Nearest": rest >= half,
        "Round": rest > half or (rest == half and number > 0), "Convergent": rest > half or (rest == half and low % 2 == 1),
    }[rounding]  # fmt: skip
    return low + up


def limited(number: int, bits: int) -> int:
    """The nearest number of so many bits, with a sign."""
    return min(max(number, -(1 << bits - 1)), (1 << bits - 1) - 1)


def wrapped(number: int, bits: int) -> int:
    """The number of so many bits, with a sign, that differs by a multiple of 2 ^ bits."""
    half = 1 << bits - 1
    return (number + half) % (2 * half) - half


def delayed(numbers: list[int], by: int = 1, first: int = 0) -> list[int]:
    return ([first] * by + numbers)[: len(numbers)]


def chances(seed: int, count: int, *ranges: tuple[int, int]) -> list[Row]:
    """Rows of random numbers, each in its range, and now and then an end of it."""
    chance = random.Random(seed)
    return [[chance.choice(ends) if chance.random() < 0.2 else chance.randint(*ends) for ends in ranges] for _ in range(count)]


def run(stimulus: Callable[[], Iterable[Row]], response: Callable[[list[Row]], Iterable[Row]]) -> None:
    """Writes the stimulus, or the response to the one that standard input has."""
    if sys.argv[1:] == ["stimulus"]:
        rows = stimulus()
    else:
        rows = response([[None if word == "-" else int(word) for word in line.split()] for line in sys.stdin])
    for row in rows:
        print(*("-" if number is None else number for number in row))
