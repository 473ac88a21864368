"""Operators and functions of expressions, over exact fractions where they can be, else over doubles."""

import math
from collections.abc import Callable
from fractions import Fraction

from .fixed import BOOLEAN, WHOLE, FixType, stored
from .values import Matrix, Number, Value, row, scalar

# The most elements of a matrix, and the most bits of an exact number.
MOST, LONGEST = 1 << 16, 4096


class Fault(Exception):
    """An expression without a value: why."""


def matrix(value: Value) -> Matrix:
    if not isinstance(value, Matrix):
        raise Fault("no number where one is needed")
    return value


def kept(number: Number) -> Number:
    """A number, as a double where its fraction has grown past all use."""
    if isinstance(number, Fraction) and max(number.numerator.bit_length(), number.denominator.bit_length()) > LONGEST:
        return float(number)
    if isinstance(number, float) and not math.isfinite(number):
        raise Fault("infinite, or no number")
    return number


def elementwise(change: Callable[..., Number], *values: Value) -> Matrix:
    """What a function gives element by element, a single element going with each."""
    given = [matrix(value) for value in values]
    shapes = {it.shape for it in given if it.shape != (1, 1)}
    if len(shapes) > 1:
        raise Fault("sizes that don't go together")
    high, wide = next(iter(shapes), (1, 1))

    def at(it: Matrix, i: int, j: int) -> Number:
        return it.rows[0][0] if it.shape == (1, 1) else it.rows[i][j]

    return Matrix(tuple(tuple(kept(change(*(at(it, i, j) for it in given))) for j in range(wide)) for i in range(high)))


def single(value: Value) -> Number:
    found = matrix(value)
    if found.shape != (1, 1):
        raise Fault("several numbers where one is needed")
    return found.rows[0][0]


def whole(value: Value) -> int:
    number = single(value)
    if number != int(number):
        raise Fault("no whole number where one is needed")
    return int(number)


def product(a: Value, b: Value, of_matrices: bool) -> Matrix:
    a, b = matrix(a), matrix(b)
    if not of_matrices or (1, 1) in (a.shape, b.shape):
        return elementwise(lambda x, y: x * y, a, b)
    if a.shape[1] != b.shape[0]:
        raise Fault("sizes that don't go together")
    return Matrix(tuple(tuple(kept(sum((x * y for x, y in zip(line, column)), Fraction(0))) for column in zip(*b.rows)) for line in a.rows))


def quotient(a: Value, b: Value, of_matrices: bool) -> Matrix:
    if of_matrices and matrix(b).shape != (1, 1):
        raise Fault("a division by a matrix")
    return elementwise(lambda x, y: x / y, a, b)


def raised(base: Number, exponent: Number) -> Number:
    if isinstance(base, Fraction) and isinstance(exponent, Fraction) and exponent.denominator == 1:
        bits = max(base.numerator.bit_length(), base.denominator.bit_length())
        if abs(exponent) * bits <= 2 * LONGEST:
            return base**exponent
    if base < 0 and exponent != int(exponent):
        raise Fault("a complex number")
    return float(base) ** float(exponent)


def power(a: Value, b: Value, of_matrices: bool) -> Matrix:
    if of_matrices and not matrix(a).shape == matrix(b).shape == (1, 1):
        raise Fault("a power of a matrix")
    return elementwise(raised, a, b)


def ranged(first: Value, last: Value, step: Value) -> Matrix:
    start, end, by = single(first), single(last), single(step)
    if by == 0:
        raise Fault("a range with a step of 0")
    # a double that should be whole is taken for it
    count = math.floor((end - start) / by + (0 if all(isinstance(it, Fraction) for it in (start, end, by)) else 1e-10)) + 1
    if count > MOST:
        raise Fault(f"a range of {count} elements, at most {MOST}")
    return row([start + by * k for k in range(max(count, 0))])


def joined(lines: list[list[Value]]) -> Matrix:
    """A matrix in brackets."""
    rows: list[tuple[Number, ...]] = []
    for line in lines:
        parts = [part for part in map(matrix, line) if part.shape != (0, 0) and part.shape[1]]
        if len({part.shape[0] for part in parts}) > 1:
            raise Fault("sizes that don't go together")
        rows += [tuple(it for part in parts for it in part.rows[i]) for i in range(parts[0].shape[0] if parts else 0)]
    if len({len(it) for it in rows}) > 1:
        raise Fault("rows of different lengths")
    return Matrix(tuple(rows))


def root(number: Number) -> Number:
    if number < 0:
        raise Fault("a complex number")
    if isinstance(number, Fraction):
        top, bottom = math.isqrt(number.numerator), math.isqrt(number.denominator)
        if top * top == number.numerator and bottom * bottom == number.denominator:
            return Fraction(top, bottom)
    return math.sqrt(number)


def away(number: Number) -> Fraction:
    """The nearest whole number, ties away from 0."""
    size = Fraction(math.floor(abs(Fraction(number)) + Fraction(1, 2)))
    return size if number >= 0 else -size


def logarithm(number: Number) -> Number:
    if isinstance(number, Fraction) and number > 0:
        for power in (number, 1 / number):
            if power.denominator == 1 and power.numerator & power.numerator - 1 == 0:
                return Fraction(power.numerator.bit_length() - 1) * (1 if power == number else -1)
    return math.log2(number)


def at_zero(change: Callable[[float], float], exact_value: int) -> Callable[[Number], Number]:
    """A function of doubles that is exact at 0."""
    return lambda number: Fraction(exact_value) if isinstance(number, Fraction) and number == 0 else change(number)


def least_of(change: Callable) -> Callable[..., Matrix]:
    """`min` or `max`: of two, element by element, or of all elements of a vector."""
    def of(*values: Value) -> Matrix:
        if len(values) == 2:
            return elementwise(change, *values)
        found = matrix(*values)
        if not found.is_vector:
            raise Fault("min or max of a matrix")
        return scalar(change(found.numbers))
    return of


def total(value: Value) -> Matrix:
    found = matrix(value)
    return scalar(kept(sum(found.numbers, Fraction(0)))) if found.is_vector else Matrix((tuple(kept(sum(column, Fraction(0))) for column in zip(*found.rows)),))


def filled(number: int) -> Callable[..., Matrix]:
    def of(*sizes: Value) -> Matrix:
        high, wide = (whole(sizes[0]), whole(sizes[-1])) if sizes else (1, 1)
        if not 0 <= high * wide <= MOST:
            raise Fault(f"a matrix of {high * wide} elements, at most {MOST}")
        return Matrix(tuple((Fraction(number),) * wide for _ in range(high)))
    return of


def spaced(first: Value, last: Value, count: Value | None = None) -> Matrix:
    start, end, steps = single(first), single(last), (100 if count is None else whole(count)) - 1
    if not 0 <= steps < MOST:
        raise Fault("a number of points that can't be")
    return row([end if k == steps else start + (end - start) * Fraction(k, steps) if isinstance(start, Fraction) and isinstance(end, Fraction) else start + (end - start) * k / steps for k in range(steps + 1)])


def fixdt(*words: Value) -> FixType:
    """`fixdt(S, W)`, `fixdt(S, W, F)` or `fixdt(S, W, SLOPE, BIAS)` with a power of two and no bias."""
    if len(words) == 4:
        slope, bias = Fraction(single(words[2])), single(words[3])
        places = logarithm(slope)
        if bias != 0 or not isinstance(places, Fraction):
            raise Fault("a slope or bias other than a power of two and 0")
        return FixType(bool(whole(words[0])), whole(words[1]), -int(places))
    if len(words) not in (2, 3):
        raise Fault("fixdt with so many words")
    return FixType(bool(whole(words[0])), whole(words[1]), whole(words[2]) if len(words) == 3 else None)


def cast(kind: FixType) -> Callable[..., Value]:
    """A type's name: the type by itself, or a cast of numbers, rounded to the nearest, ties away from 0."""
    def of(*values: Value) -> Value:
        if not values:
            return kind
        found = elementwise(lambda it: Fraction(int(it != 0) if kind.logical else min(max(away(it), kind.lowest), kind.highest)), *values)
        return Matrix(found.rows, kind)
    return of


def fi(value: Value, *words: Value) -> Matrix:
    """`fi(V, S, W, F)`: the nearest values of that type; ties up."""
    kind = fixdt(*words)
    if not kind.is_valid:
        raise Fault("fi without a whole type")
    return Matrix(elementwise(lambda it: stored(Fraction(it), kind) * kind.step, value).rows, kind)


def code(kind: FixType) -> Callable[[Value], FixType]:
    return lambda width: FixType(kind.signed, whole(width), kind.frac)


FUNCTIONS: dict[str, Callable[..., Value]] = {
    "pi": lambda: scalar(math.pi), "sqrt": lambda v: elementwise(root, v), "abs": lambda v: elementwise(abs, v),
    "round": lambda v: elementwise(away, v), "floor": lambda v: elementwise(lambda it: Fraction(math.floor(it)), v),
    "ceil": lambda v: elementwise(lambda it: Fraction(math.ceil(it)), v), "fix": lambda v: elementwise(lambda it: Fraction(math.trunc(it)), v),
    "sin": lambda v: elementwise(at_zero(math.sin, 0), v), "cos": lambda v: elementwise(at_zero(math.cos, 1), v),
    "exp": lambda v: elementwise(at_zero(math.exp, 1), v), "log2": lambda v: elementwise(logarithm, v),
    "min": least_of(min), "max": least_of(max), "sum": total, "zeros": filled(0), "ones": filled(1), "linspace": spaced,
    "mod": lambda a, b: elementwise(lambda x, y: x - y * math.floor(x / y) if y else x, a, b),
    "length": lambda v: scalar(max(matrix(v).shape)), "numel": lambda v: scalar(len(matrix(v).numbers)),
    "fixdt": fixdt, "numerictype": fixdt, "fi": fi, "boolean": cast(BOOLEAN), "logical": cast(BOOLEAN),
    "double": lambda v: Matrix(matrix(v).rows), "sfix": code(FixType(True, 0)), "ufix": code(FixType(False, 0)),
    "sint": code(FixType(True, 0)), "uint": code(FixType(False, 0)),
    **{name: cast(FixType(*wide)) for name, wide in {**WHOLE, "int64": (True, 64), "uint64": (False, 64)}.items()},
}  # fmt: skip
