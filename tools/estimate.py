"""What a module of the Verilog subset takes, counted from its text: bits of registers, operations by
width, and levels of logic by a plain table of delays. What no output depends on counts for nothing.
"""

from collections import Counter
from dataclasses import dataclass, field
from typing import Iterator, Optional

from subset import Binary, Cast, Choice, Concat, Expression, Module, Name, Number, Part, Register, Repeat, Unary, names_in, parts_of
from written import Failed

CARRIED = {"+", "-"}
ORDERED = {"<", "<=", ">", ">="}
EQUAL = {"==", "!="}
# What gives one bit, whatever its operands are.
TRUTHS = ORDERED | EQUAL | {"&&", "||"}
SHIFTS = {"<<", ">>", ">>>"}


@dataclass
class Estimate:
    """Counts of a module; operations by their widths in bits, and the deepest path in levels."""

    registers: int = 0
    register_bits: int = 0
    multipliers: Counter = field(default_factory=Counter)
    by_constants: int = 0
    adders: Counter = field(default_factory=Counter)
    comparisons: Counter = field(default_factory=Counter)
    choices: Counter = field(default_factory=Counter)
    levels: int = 0
    path: list[str] = field(default_factory=list)

    def columns(self) -> dict[str, int]:
        """One number for each count, as `tools/explore` writes them: bits, and levels."""
        sums = {name: sum(width * count for width, count in found.items()) for name, found in (("adders", self.adders), ("choices", self.choices))}
        return {"registers": self.register_bits, **sums, "levels": self.levels}


def logarithm(width: int) -> int:
    """How often a width of 2 or more is parted by four down to one bit, at least once."""
    return max(-(-(width - 1).bit_length() // 2), 1)


def carried(width: int) -> int:
    """The levels of an adder: a chain of carries is quick."""
    return 1 + -(-width // 16)


def delay(expression: Expression, widths: list[int], width: int, is_constant: bool) -> int:
    """The levels of one operation, by the widths of its operands and its own; `is_constant`: by a constant."""
    if isinstance(expression, Choice):
        return 1
    if isinstance(expression, Unary) and expression.operator == "-":
        return carried(width)
    if not isinstance(expression, Binary) or expression.operator in SHIFTS:
        return 0
    if expression.operator == "*":
        return (2 if is_constant else 4) + -(-sum(widths) // 16)
    if expression.operator in CARRIED:
        return carried(width)
    if expression.operator in ORDERED:
        return carried(max(widths))
    return logarithm(max(widths)) if expression.operator in EQUAL else 1


def width_of(module: Module, expression: Expression) -> int:
    """The width that an expression has by itself (IEEE 1364-2005, 5.4.1)."""
    if isinstance(expression, Name):
        return module.nets[expression.name].width
    if isinstance(expression, Part):
        return expression.high - expression.low + 1
    if isinstance(expression, Number):
        return expression.width
    if isinstance(expression, Concat):
        return sum(width_of(module, part) for part in expression.parts)
    if isinstance(expression, Repeat):
        return expression.count * width_of(module, expression.part)
    if isinstance(expression, Cast):
        return width_of(module, expression.part)
    if isinstance(expression, Unary):
        return 1 if expression.operator == "!" else width_of(module, expression.part)
    if isinstance(expression, Choice):
        return max(width_of(module, expression.yes), width_of(module, expression.no))
    if expression.operator in TRUTHS:
        return 1
    left = width_of(module, expression.left)
    return left if expression.operator in SHIFTS else max(left, width_of(module, expression.right))


def inner_width(expression: Expression, width: int, of_operands: int, place: int) -> int:
    """The width that an operand is taken to inside an expression of a width; 0 where it is its own."""
    if isinstance(expression, (Concat, Repeat, Cast)) or isinstance(expression, Unary) and expression.operator == "!":
        return 0
    if isinstance(expression, Choice):
        return 0 if place == 0 else width
    if isinstance(expression, Binary):
        if expression.operator in SHIFTS:
            return width if place == 0 else 0
        if expression.operator in TRUTHS:
            return 0 if expression.operator in ("&&", "||") else of_operands
    return width


def reads_of(register: Register) -> Iterator[str]:
    """The nets that a register takes its value and its enable from."""
    yield from names_in(register.value)
    yield from names_in(register.enable)


def needed(module: Module) -> set[str]:
    """The nets and registers that an output depends on."""
    found, left = set(), [port.name for port in module.ports("output")]
    while left:
        name = left.pop()
        if name in found:
            continue
        if name not in module.nets:
            raise Failed(f"undriven: {name}")
        found.add(name)
        if name in module.assigns:
            left += names_in(module.assigns[name])
        elif name in module.registers:
            left += reads_of(module.registers[name])
    return found


class Counting:
    """Counts the operations of a module, net by net, each behind those that it reads."""

    def __init__(self, module: Module) -> None:
        self.module, self.found = module, Estimate()
        # by net the levels up to it, the net before it on that way, and whether it is constant
        self.levels: dict[str, int] = {}
        self.before: dict[str, Optional[str]] = {}
        self.constant: set[str] = set()
        self.order(needed(module))

    def order(self, names: set[str]) -> None:
        """Goes over the assignments so that each comes behind what it reads."""
        assigns, begun = self.module.assigns, set()
        for first in sorted(names):
            left = [first]
            while left:
                name = left[-1]
                if name in self.levels or name not in assigns:
                    left.pop()
                    continue
                wanted = [it for it in names_in(assigns[name]) if it in assigns and it not in self.levels]
                if wanted and name in begun:
                    raise Failed(f"combinational loop: {name}")
                begun.add(name)
                if wanted:
                    left += wanted
                else:
                    left.pop()
                    self.assign(name)
        for name in sorted(names & set(self.module.registers)):
            self.register(name)
        for port in self.module.ports("output"):
            self.reach(self.levels.get(port.name, 0), self.before.get(port.name), port.name)

    def is_constant(self, expression: Expression) -> bool:
        return all(name in self.constant for name in names_in(expression))

    def assign(self, name: str) -> None:
        value = self.module.assigns[name]
        if self.is_constant(value):
            self.constant.add(name)
        self.levels[name], self.before[name] = self.way(value, self.module.nets[name].width)

    def register(self, name: str) -> None:
        taken, width = self.module.registers[name], self.module.nets[name].width
        self.found.registers += 1
        self.found.register_bits += width
        for value, wide in ((taken.value, width), (taken.enable, 1)):
            if value is not None:
                levels, before = self.way(value, wide)
                self.reach(levels, before, name)

    def reach(self, levels: int, before: Optional[str], end: str) -> None:
        """A way that ends: the deepest counts."""
        if levels > self.found.levels:
            self.found.levels, path = levels, [end]
            while before is not None:
                path.append(before)
                before = self.before.get(before)
            self.found.path = path[::-1]

    def way(self, expression: Expression, context: int) -> tuple[int, Optional[str]]:
        """The levels to an expression in a context of a width, and the net that they come from."""
        if isinstance(expression, (Name, Part)):
            return self.levels.get(expression.name, 0), expression.name
        parts = parts_of(expression)
        if not parts:
            return 0, None
        own = [width_of(self.module, part) for part in parts]
        width = max(width_of(self.module, expression), context)
        operands = max(own)
        ways = [self.way(part, inner_width(expression, width, operands, place)) for place, part in enumerate(parts)]
        if self.is_constant(expression):
            return 0, None
        deepest = max(ways, key=lambda it: it[0])
        has_constant = isinstance(expression, Binary) and any(map(self.is_constant, parts))
        self.count(expression, own, width, has_constant)
        return deepest[0] + delay(expression, own, width, has_constant), deepest[1]

    def count(self, expression: Expression, own: list[int], width: int, has_constant: bool) -> None:
        if isinstance(expression, Choice):
            self.found.choices[width] += 1
        elif isinstance(expression, Unary) and expression.operator == "-":
            self.found.adders[width] += 1
        elif isinstance(expression, Binary):
            if expression.operator == "*":
                self.found.multipliers[max(own), min(own)] += 1
                self.found.by_constants += has_constant
            elif expression.operator in CARRIED:
                self.found.adders[width] += 1
            elif expression.operator in ORDERED | EQUAL and max(own) > 1:
                self.found.comparisons[max(own)] += 1


def estimate(module: Module) -> Estimate:
    """What a module takes."""
    return Counting(module).found
