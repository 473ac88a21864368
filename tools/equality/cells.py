"""The cells of a design as Yosys reads it, made into a machine of gates: words of literals, the last bit first.

Yosys' own gates follow the names of nets; here a product of the same operands is the same gates wherever it stands.
What a cell gives is that of Yosys' library of cells; a cell that no text of the subset asks for isn't known.
"""

import json
from typing import Any, Callable, Iterator

from equality.aig import Machine
from written import Failed

Word = list[int]
FALSE, TRUE = 0, 1


class Gates:
    """Words of a machine."""

    def __init__(self, machine: Machine) -> None:
        self.machine, self.both, self.either = machine, machine.both, machine.either

    def differ(self, left: int, right: int) -> int:
        return self.either(self.both(left, right ^ 1), self.both(left ^ 1, right))

    def added(self, left: Word, right: Word, carry: int = FALSE) -> Word:
        """The sum of two words of one width, and the carry behind it."""
        found = []
        for one, other in zip(left, right):
            odd = self.differ(one, other)
            found.append(self.differ(odd, carry))
            carry = self.either(self.both(one, other), self.both(odd, carry))
        return [*found, carry]

    def product(self, left: Word, right: Word, width: int) -> Word:
        """The product of two signed words, row after row, in one order whatever theirs is."""
        left, right = sorted((trimmed(left), trimmed(right)), key=lambda word: (len(word), word))
        total, wide = [FALSE] * width, extended(right, width, True)
        for row, bit in enumerate(left[:width]):
            # the first bit of a signed number counts against the others
            is_less = row == len(left) - 1
            part = [self.both(bit, of) ^ is_less for of in wide[: width - row]]
            total[row:] = self.added(total[row:], part, FALSE ^ is_less)[:-1]
        return total

    def less(self, left: Word, right: Word, is_signed: bool) -> int:
        if is_signed:
            left, right = [*left[:-1], left[-1] ^ 1], [*right[:-1], right[-1] ^ 1]
        return self.added(left, [bit ^ 1 for bit in right], TRUE)[-1] ^ 1

    def equal(self, left: Word, right: Word) -> int:
        return self.either(*map(self.differ, left, right)) ^ 1


def trimmed(word: Word) -> Word:
    """A signed word without the first bits that say nothing."""
    while len(word) > 1 and word[-1] == word[-2]:
        word = word[:-1]
    return word


def extended(word: Word, width: int, is_signed: bool) -> Word:
    return (word + [word[-1] if is_signed else FALSE] * (width - len(word)))[:width]


class Cell:
    """A cell with its operands as they come in."""

    def __init__(self, gates: Gates, told: dict[str, Any], word: Callable[[str], Word]) -> None:
        self.gates, self.kind = gates, told["type"].lstrip("$")
        number = lambda name: int(told["parameters"].get(name, "0"), 2)
        self.width = number("Y_WIDTH")
        self.operands = [word(name) for name in "AB" if name in told["connections"]]
        # two operands are signed where both are
        self.is_signed = all(number(f"{name}_SIGNED") for name in "AB"[: len(self.operands)])
        self.is_first_signed = bool(number("A_SIGNED"))

    def wide(self, width: int) -> list[Word]:
        return [extended(word, width, self.is_signed) for word in self.operands]

    def result(self) -> Word:
        make = getattr(self, f"of_{self.kind}", None)
        if make is None:
            raise Failed(f"a cell {self.kind} isn't known")
        return extended(make(), self.width, False)

    def by_bits(self, gate: Callable[[int, int], int]) -> Word:
        return list(map(gate, *self.wide(self.width)))

    def of_and(self) -> Word:
        return self.by_bits(self.gates.both)

    def of_or(self) -> Word:
        return self.by_bits(self.gates.either)

    def of_xor(self) -> Word:
        return self.by_bits(self.gates.differ)

    def of_xnor(self) -> Word:
        return [bit ^ 1 for bit in self.of_xor()]

    def of_not(self) -> Word:
        return [bit ^ 1 for bit in self.wide(self.width)[0]]

    def of_pos(self) -> Word:
        return self.wide(self.width)[0]

    def of_add(self) -> Word:
        return self.gates.added(*self.wide(self.width))[:-1]

    def of_sub(self) -> Word:
        left, right = self.wide(self.width)
        return self.gates.added(left, [bit ^ 1 for bit in right], TRUE)[:-1]

    def of_neg(self) -> Word:
        return self.gates.added([FALSE] * self.width, self.of_not(), TRUE)[:-1]

    def of_mul(self) -> Word:
        signed = [word if self.is_signed else [*word, FALSE] for word in self.operands]
        return self.gates.product(*signed, self.width)

    # ---- what gives one bit

    def truths(self) -> list[int]:
        return [self.gates.either(*word) for word in self.operands]

    def longest(self) -> list[Word]:
        return self.wide(max(map(len, self.operands)))

    def of_eq(self) -> Word:
        return [self.gates.equal(*self.longest())]

    def of_ne(self) -> Word:
        return [self.of_eq()[0] ^ 1]

    def of_lt(self) -> Word:
        return [self.gates.less(*self.longest(), self.is_signed)]

    def of_ge(self) -> Word:
        return [self.of_lt()[0] ^ 1]

    def of_gt(self) -> Word:
        return [self.gates.less(*self.longest()[::-1], self.is_signed)]

    def of_le(self) -> Word:
        return [self.of_gt()[0] ^ 1]

    def of_logic_and(self) -> Word:
        return [self.gates.both(*self.truths())]

    def of_logic_or(self) -> Word:
        return [self.gates.either(*self.truths())]

    def of_logic_not(self) -> Word:
        return [self.truths()[0] ^ 1]

    def of_reduce_bool(self) -> Word:
        return self.truths()

    of_reduce_or = of_reduce_bool

    # ---- shifts by numbers

    def shift(self) -> int:
        if any(bit > TRUE for bit in self.operands[1]):
            raise Failed("a shift by what isn't a number isn't known")
        return min(sum(bit << at for at, bit in enumerate(self.operands[1])), 1 << 16)

    def of_shl(self) -> Word:
        word = extended(self.operands[0], max(self.width, len(self.operands[0])), self.is_first_signed)
        return ([FALSE] * self.shift() + word)[: self.width]

    of_sshl = of_shl

    def shifted_down(self, fill: int) -> Word:
        word = extended(self.operands[0], max(self.width, len(self.operands[0])), self.is_first_signed)
        return (word[self.shift() :] + [fill] * len(word))[: len(word)]

    def of_shr(self) -> Word:
        return self.shifted_down(FALSE)

    def of_sshr(self) -> Word:
        return self.shifted_down(self.operands[0][-1] if self.is_first_signed else FALSE)


class Design:
    """A flat module of Yosys' JSON, whose only state are `$dff` cells."""

    def __init__(self, text: str, top: str) -> None:
        told = json.loads(text)["modules"][top]
        self.ports, cells = told["ports"], told["cells"].values()
        self.registers = [cell for cell in cells if cell["type"] == "$dff"]
        self.cells = [cell for cell in cells if cell["type"] != "$dff"]
        self.first = self.first_bits(told["netnames"].values())
        inputs = [(name, at, bit) for name, port in self.ports.items() if port["direction"] == "input" and name != "clk" for at, bit in enumerate(port["bits"])]
        self.inputs = {(name, at): place for place, (name, at, _) in enumerate(inputs)}
        states = [bit for cell in self.registers for bit in cell["connections"]["Q"]]
        self.machine = Machine(len(inputs), len(states))
        self.literals = {bit: self.machine.input(at) for at, (*_, bit) in enumerate(inputs)}
        self.literals |= {bit: self.machine.latch(at) for at, bit in enumerate(states)}
        self.machine.initial = [self.first.get(bit, 0) for bit in states]
        self.make()

    @staticmethod
    def first_bits(nets: Any) -> dict[int, int]:
        """What bits begin with."""
        found = {}
        for net in nets:
            told = net["attributes"].get("init", "")[::-1]
            found |= {bit: int(first == "1") for bit, first in zip(net["bits"], told)}
        return found

    def word(self, bits: list[Any]) -> Word:
        """The literals of bits; one that nothing drives is 0."""
        return [self.literals.get(bit, FALSE) if isinstance(bit, int) else int(bit == "1") for bit in bits]

    def ordered(self) -> Iterator[dict[str, Any]]:
        """The cells, each behind those that it reads."""
        makers = {bit: cell for cell in self.cells for bit in cell["connections"]["Y"]}
        done, begun = set(), set()
        for first in self.cells:
            left = [first]
            while left:
                cell = left[-1]
                if id(cell) in done:
                    left.pop()
                    continue
                reads = [bit for name, bits in cell["connections"].items() if name != "Y" for bit in bits]
                wanted = {id(it): it for bit in reads if (it := makers.get(bit)) is not None and id(it) not in done}
                if wanted and id(cell) in begun:
                    raise Failed("a combinational loop")
                begun.add(id(cell))
                left += wanted.values()
                if not wanted:
                    done.add(id(left.pop()))
                    yield cell

    def make(self) -> None:
        gates = Gates(self.machine)
        for cell in self.ordered():
            joined = cell["connections"]
            if cell["type"] == "$mux":
                which, no, yes = (self.word(joined[name]) for name in "SAB")
                found = [self.machine.choice(which[0], *pair) for pair in zip(yes, no)]
            else:
                found = Cell(gates, cell, lambda name, joined=joined: self.word(joined[name])).result()
            self.literals |= dict(zip(joined["Y"], found))
        self.machine.following = [bit for cell in self.registers for bit in self.word(cell["connections"]["D"])]

    def output(self, name: str) -> Word:
        return self.word(self.ports[name]["bits"])
