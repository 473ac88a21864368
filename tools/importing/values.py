"""Values of expressions: matrices of exact fractions or of doubles, maybe with a type, and types."""

from dataclasses import dataclass
from fractions import Fraction

from .fixed import FixType

Number = Fraction | float


@dataclass(frozen=True)
class Matrix:
    """Numbers in rows; `kind` is the type that a cast gave them."""

    rows: tuple[tuple[Number, ...], ...]
    kind: FixType | None = None

    @property
    def shape(self) -> tuple[int, int]:
        return len(self.rows), len(self.rows[0]) if self.rows else 0

    @property
    def numbers(self) -> list[Number]:
        """The elements, column by column."""
        high, wide = self.shape
        return [self.rows[i][j] for j in range(wide) for i in range(high)]

    @property
    def is_exact(self) -> bool:
        return not any(isinstance(number, float) for number in self.numbers)

    @property
    def is_vector(self) -> bool:
        return 1 in self.shape

    def transposed(self) -> "Matrix":
        return Matrix(tuple(zip(*self.rows)), self.kind)


def scalar(number: Number | int | bool, kind: FixType | None = None) -> Matrix:
    return Matrix(((number if isinstance(number, float) else Fraction(number),),), kind)


def row(numbers: list[Number]) -> Matrix:
    return Matrix((tuple(numbers),))


Value = Matrix | FixType | str
