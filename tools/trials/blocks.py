"""What the blocks that tools/import rebuilds give by their documentation, in fractions and integers: for each a
case at random, with its parameters, the types of its inputs, and a reference."""

import math
import random
from collections.abc import Callable
from dataclasses import dataclass, field
from fractions import Fraction

Rows = list[list[int | None]]
ROUNDINGS = ("Floor", "Ceiling", "Zero", "Nearest", "Round", "Convergent")


@dataclass(frozen=True)
class Type:
    """A fixed-point type, as the cases know it."""

    signed: bool
    bits: int
    frac: int = 0

    @property
    def text(self) -> str:
        return f"fixdt({int(self.signed)},{self.bits},{self.frac})"

    @property
    def low(self) -> int:
        return -(2 ** (self.bits - 1)) if self.signed else 0

    @property
    def high(self) -> int:
        return 2 ** (self.bits - 1) - 1 if self.signed else 2**self.bits - 1

    def real(self, stored: int) -> Fraction:
        return Fraction(stored) / Fraction(2) ** self.frac

    def take(self, value: Fraction, rounding: str = "Nearest", saturates: bool = True) -> int:
        """The stored integer of a value, rounded once, and limited or wrapped."""
        scaled = value * Fraction(2) ** self.frac
        low, high = math.floor(scaled), math.ceil(scaled)
        middle = scaled - low == Fraction(1, 2)
        near = low if scaled - low < Fraction(1, 2) else high
        number = {
            "Floor": low, "Ceiling": high, "Zero": math.trunc(scaled), "Nearest": high if middle else near,
            "Round": (high if scaled > 0 else low) if middle else near, "Convergent": (low if low % 2 == 0 else high) if middle else near,
        }[rounding]  # fmt: skip
        if saturates:
            return min(max(number, self.low), self.high)
        return (number - self.low) % (self.high - self.low + 1) + self.low

    def to(self, value: Fraction) -> Fraction:
        """A parameter as the type holds it."""
        return self.real(self.take(value))


@dataclass
class Case:
    """A block with its parameters, the types of what it reads, and how it answers rows of stored integers."""

    kind: str
    parameters: dict[str, object]
    inputs: list[Type]
    response: Callable[[Rows], Rows]
    widths: list[int] = field(default_factory=list)
    out: Type | None = None
    period: str = "1"
    slow: list[int] = field(default_factory=list)


def some_type(chance: random.Random, most: int = 16, signed: bool | None = None, whole: bool = False) -> Type:
    sign = chance.random() < 0.7 if signed is None else signed
    bits = chance.randint(3, most)
    return Type(sign, bits, 0 if whole else chance.randint(-2, bits + 2))


def some_value(chance: random.Random, kind: Type) -> Fraction:
    """A value about a type's range, that the type may not hold."""
    return Fraction(chance.randint(4 * kind.low, 4 * kind.high), 4) / Fraction(2) ** kind.frac


def decimal(value: Fraction) -> str:
    """An expression of a value."""
    return str(value.numerator) if value.denominator == 1 else f"{value.numerator}/{value.denominator}"


def listed(values: list[Fraction]) -> str:
    return "[" + " ".join(map(decimal, values)) + "]"


def each(reckon: Callable[..., int]) -> Callable[[Rows], Rows]:
    """The response of a block without a state."""
    return lambda rows: [[reckon(*row)] for row in rows]


def link(source: str, name: str, **parameters: object) -> dict[str, object]:
    return {"SourceBlock": f"{source}/{name}", "SourceType": name.replace("\n", " "), **parameters}


def saturate(chance: random.Random, rounding: str) -> Case:
    u = some_type(chance)
    low, high = sorted(some_value(chance, u) for _ in range(2))
    least, most = u.take(low), u.take(high)
    return Case("Saturate", {"LowerLimit": decimal(low), "UpperLimit": decimal(high), "RndMeth": rounding}, [u], each(lambda x: min(max(x, least), most)))


def absolute(chance: random.Random, rounding: str) -> Case:
    u, y, saturates = some_type(chance), some_type(chance), chance.random() < 0.5
    if chance.random() < 0.4:
        y = u
    said = "Inherit: Same as input" if y == u else y.text
    parameters = {"OutDataTypeStr": said, "RndMeth": rounding, "SaturateOnIntegerOverflow": "on" if saturates else "off"}
    return Case("Abs", parameters, [u], each(lambda x: y.take(abs(u.real(x)), rounding, saturates)))


def extreme(chance: random.Random, rounding: str) -> Case:
    kinds = [some_type(chance, 10) for _ in range(chance.randint(2, 4))]
    y, word, saturates = some_type(chance), chance.choice(("min", "max")), chance.random() < 0.5
    parameters = {"Function": word, "Inputs": len(kinds), "OutDataTypeStr": y.text, "RndMeth": rounding, "SaturateOnIntegerOverflow": "on" if saturates else "off"}
    pick = min if word == "min" else max
    return Case("MinMax", parameters, kinds, each(lambda *row: y.take(pick(kind.real(x) for kind, x in zip(kinds, row)), rounding, saturates)))


def extreme_of_elements(chance: random.Random, rounding: str) -> Case:
    u, word, wide = some_type(chance, 10), chance.choice(("min", "max")), chance.randint(2, 5)
    pick = min if word == "min" else max
    return Case("MinMax", {"Function": word, "Inputs": 1}, [u], each(lambda *row: pick(row)), widths=[wide])


def signum(chance: random.Random, rounding: str) -> Case:
    bits = chance.randint(4, 12)
    u = Type(chance.random() < 0.7, bits, chance.randint(0, bits - 2))
    return Case("Signum", {}, [u], each(lambda x: ((x > 0) - (x < 0)) * 2**u.frac))


RELATIONS: dict[str, Callable[[Fraction, Fraction], bool]] = {
    "==": lambda a, b: a == b, "~=": lambda a, b: a != b, "<": lambda a, b: a < b,
    "<=": lambda a, b: a <= b, ">": lambda a, b: a > b, ">=": lambda a, b: a >= b,
}  # fmt: skip


def compared(chance: random.Random, rounding: str) -> Case:
    u, word = some_type(chance, 6), list(RELATIONS)[ROUNDINGS.index(rounding)]
    limit, to_zero = some_value(chance, u), chance.random() < 0.3
    kept = u.to(limit) if not to_zero else Fraction(0)
    name = "Compare\nTo Zero" if to_zero else "Compare\nTo Constant"
    parameters = link("simulink/Logic and Bit\nOperations", name, relop=word, const=decimal(limit), OutDataTypeStr=chance.choice(("boolean", "uint8")))
    return Case("Reference", parameters, [u], each(lambda x: int(RELATIONS[word](u.real(x), kept))))


def multiport(chance: random.Random, rounding: str) -> Case:
    count, extra, saturates = chance.randint(2, 5), chance.random() < 0.5, chance.random() < 0.5
    order = chance.choice(("Zero-based contiguous", "One-based contiguous", "Specify indices"))
    indices = chance.sample(range(8), count) if order[0] == "S" else [k + (order[0] == "O") for k in range(count)]
    control, y = Type(chance.random() < 0.5, 4), some_type(chance)
    kinds = [some_type(chance, 10) for _ in range(count + extra)]
    parameters = {
        "DataPortOrder": order, "Inputs": count, "DataPortIndices": "{" + ",".join(map(str, indices)) + "}", "OutDataTypeStr": y.text, "RndMeth": rounding,
        "DataPortForDefault": "Additional data port" if extra else "Last data port", "SaturateOnIntegerOverflow": "on" if saturates else "off",
    }  # fmt: skip

    def reckon(number: int, *data: int) -> int:
        port = indices.index(number) if number in indices else len(kinds) - 1
        return y.take(kinds[port].real(data[port]), rounding, saturates)

    return Case("MultiPortSwitch", parameters, [control, *kinds], each(reckon))


def rising(chance: random.Random, u: Type, count: int) -> list[Fraction]:
    """Breakpoints that a type holds."""
    return [u.real(it) for it in sorted(chance.sample(range(u.low, u.high + 1), min(count, 2**u.bits)))]


def table(chance: random.Random, rounding: str) -> Case:
    u, y = some_type(chance, 8), some_type(chance)
    points = rising(chance, u, chance.randint(2, 9))
    values = [some_value(chance, y) for _ in points]

    def reckon(x: int) -> int:
        return y.take(values[max(sum(u.real(x) >= point for point in points) - 1, 0)])

    if chance.random() < 0.5:
        return Case("Lookup", {"InputValues": listed(points), "OutputValues": listed(values), "LookUpMeth": "Use Input Below", "OutDataTypeStr": y.text}, [u], each(reckon))
    parameters = {"NumberOfTableDimensions": 1, "BreakpointsForDimension1": listed(points), "Table": listed(values), "InterpMethod": "Flat", "ExtrapMethod": "Clip", "OutDataTypeStr": y.text}
    return Case("Lookup_n-D", parameters, [u], each(reckon))


def direct(chance: random.Random, rounding: str) -> Case:
    u, y = Type(chance.random() < 0.5, chance.randint(3, 5)), some_type(chance)
    values = [some_value(chance, y) for _ in range(chance.randint(2, 12))]
    parameters = {"NumberOfTableDimensions": 1, "Table": listed(values), "TableDataTypeStr": y.text}
    return Case("LookupNDDirect", parameters, [u], each(lambda x: y.take(values[min(max(x, 0), len(values) - 1)])))


def biased(chance: random.Random, rounding: str) -> Case:
    u, saturates = some_type(chance, 10), chance.random() < 0.5
    bias = some_value(chance, u)
    parameters = {"Bias": decimal(bias), "SaturateOnIntegerOverflow": "on" if saturates else "off"}
    return Case("Bias", parameters, [u], each(lambda x: u.take(u.real(x) + u.to(bias), "Floor", saturates)))


def stepped(chance: random.Random, rounding: str) -> Case:
    bits = chance.randint(3, 10)
    u, up, of_stored = Type(chance.random() < 0.5, bits, chance.randint(0, bits)), chance.random() < 0.5, chance.random() < 0.5
    name = f"{'Increment' if up else 'Decrement'}\n{'Stored Integer' if of_stored else 'Real World'}"
    by = (1 if up else -1) * (u.real(1) if of_stored else 1)
    source = "simulink/Additional Math\n& Discrete/Additional Math:\nIncrement - Decrement"
    return Case("Reference", link(source, name), [u], each(lambda x: u.take(u.real(x) + by, "Floor", False)))


def bits(chance: random.Random, rounding: str) -> Case:
    u = some_type(chance)
    if chance.random() < 0.4:
        low, high = sorted(chance.randint(0, u.bits - 1) for _ in range(2))
        return Case("Reference", link("hdlsllib/HDL Operations", "Bit Slice", lidx=high, ridx=low), [u], each(lambda x: x >> low & (1 << high - low + 1) - 1))
    count = chance.randint(1, u.bits)
    words = ("Upper half", "Lower half", "Range starting with most significant bit", "Range ending with least significant bit", "Range of bits")
    word = chance.choice(words)
    wide = {words[0]: -(-u.bits // 2), words[1]: -(-u.bits // 2)}.get(word, count)
    low = u.bits - wide if word in words[0::2][:2] else 0 if word in words[1::2] else chance.randint(0, u.bits - count)
    parameters = {"bitsToExtract": word, "numBits": count, "bitIdxRange": f"[{low} {low + wide - 1}]", "outScalingMode": chance.choice(("Preserve fixed-point scaling", "Treat bit field as an integer"))}
    return Case("Reference", link("simulink/Logic and Bit\nOperations", "Extract Bits", **parameters), [u], each(lambda x: x >> low & (1 << wide) - 1))


CASES = (
    saturate, absolute, extreme, extreme_of_elements, signum, compared, multiport, table, direct, biased, stepped, bits,
)  # fmt: skip
