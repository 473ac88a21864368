"""How a line goes from where the file leaves it to a port: past the blocks, where there is room.

Places are in the picture's units, x to the right and y down.
"""

from dataclasses import dataclass, field
from typing import Iterator, Sequence

Point = tuple[float, float]
# How far a line stands off a block before it turns, how much room the words below a block take, how far two
# lines of one height stand apart, and how many heights are tried.
STUB, WORDS, APART, TRIED = 12, 24, 5, 16
# How much longer a way counts for the words that it goes through, and for each block that it comes too close to.
THROUGH_WORDS, CLOSE = 100, 200


@dataclass(frozen=True)
class Area:
    """The place of a block."""

    left: float
    top: float
    right: float
    bottom: float

    def grown(self, by: float) -> "Area":
        return Area(self.left - by, self.top - by, self.right + by, self.bottom + by)

    def is_entered(self, begin: Point, end: Point) -> bool:
        """Whether a level or upright step goes through the inside."""
        (left, right), (top, bottom) = sorted((begin[0], end[0])), sorted((begin[1], end[1]))
        return left < self.right and right > self.left and top < self.bottom and bottom > self.top


@dataclass(frozen=True)
class Port:
    """Where a line ends, and from which side it comes there: -1 from the left, 1 from the right, 0 from above."""

    place: Point
    side: int


def plain(here: Point, port: Port) -> list[Point]:
    """The way with the fewest turns, from where a line stands."""
    (x, y), (to_x, to_y) = here, port.place
    if port.side == 0:
        return [here, (to_x, y), port.place]
    if abs(y - to_y) < 0.6 or abs(x - to_x) < 0.6:
        return [here, port.place]
    if to_x > x:
        return [here, ((x + to_x) / 2, y), ((x + to_x) / 2, to_y), port.place]
    return [here, (x, to_y), port.place]


@dataclass
class Routes:
    """The ways of a system's lines; each knows the blocks, and the level steps of those before it."""

    areas: Sequence[Area]
    levels: list[tuple[float, float, float]] = field(default_factory=list)

    def way(self, here: Point, port: Port, out: int) -> list[Point]:
        """The places behind `here` up to a port. The line leaves to the right where `out` is 1, to the left
        where it is -1, and to any side where it is 0: then it isn't at a block."""
        first = plain(here, port)
        if not self.entered(first):
            return first[1:]
        found = min(self.others(here, port, out), key=self.cost, default=first)
        if self.entered(found) >= self.entered(first):
            return first[1:]
        self.levels += [(begin[1], *sorted((begin[0], end[0]))) for begin, end in zip(found, found[1:]) if begin[1] == end[1]]
        return found[1:]

    def others(self, here: Point, port: Port, out: int) -> Iterator[list[Point]]:
        """Ways that turn close to the ends, and those over or under blocks."""
        (x, y), (to_x, to_y) = here, port.place
        begin = x + out * STUB
        end = to_x + port.side * STUB
        stop = to_y if port.side else to_y - STUB
        ending = [(end, stop), port.place] if port.side else [port.place]
        for turn in (begin, end):
            yield [here, (turn, y), (turn, stop), *ending]
        left, right = sorted((begin, end))
        between = [area for area in self.areas if area.left <= right and area.right >= left]
        heights = {height for area in between for height in (area.top - STUB, area.bottom + WORDS + STUB)}
        for height in sorted(heights, key=lambda it: abs(it - y) + abs(it - stop))[:TRIED]:
            free = self.free(height, left, right)
            yield [here, (begin, y), (begin, free), (end, free), *ending]

    def free(self, height: float, left: float, right: float) -> float:
        """The height, or one below at which no earlier line goes there."""
        while any(abs(level - height) < APART and begin < right and end > left for level, begin, end in self.levels):
            height += APART
        return height

    def entered(self, way: list[Point]) -> int:
        """How often a way goes through a block."""
        return sum(area.is_entered(begin, end) for begin, end in zip(way, way[1:]) for area in self.areas)

    def cost(self, way: list[Point]) -> tuple[int, float]:
        """Blocks that a way goes through, and its length."""
        steps = list(zip(way, way[1:]))
        words = [Area(it.left, it.bottom, it.right, it.bottom + WORDS) for it in self.areas]
        crossed = sum(area.is_entered(*step) for step in steps for area in words)
        # the first step and the last are at blocks
        close = sum(area.grown(APART).is_entered(*step) for step in steps[1:-1] for area in self.areas)
        length = sum(abs(begin[0] - end[0]) + abs(begin[1] - end[1]) for begin, end in steps)
        return self.entered(way), length + THROUGH_WORDS * crossed + CLOSE * close
