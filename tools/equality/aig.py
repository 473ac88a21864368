"""Machines of and-gates and inverters (AIGER): read, unrolled by many clocks a step, and written.

A literal is twice a variable, and one more where it is inverted; the literals 0 and 1 are false and true.
"""

from dataclasses import dataclass, field
from typing import Optional


@dataclass
class Machine:
    """Inputs come first, then latches, then gates, each by two literals that stand before it."""

    inputs: int
    latches: int
    gates: list[tuple[int, int]] = field(default_factory=list)
    following: list[int] = field(default_factory=list)
    initial: list[int] = field(default_factory=list)
    outputs: list[int] = field(default_factory=list)

    def __post_init__(self) -> None:
        self.known: dict[tuple[int, int], int] = {}

    def input(self, at: int) -> int:
        return 2 * (1 + at)

    def latch(self, at: int) -> int:
        return 2 * (1 + self.inputs + at)

    def both(self, left: int, right: int) -> int:
        """A gate, or the literal that it would be."""
        left, right = max(left, right), min(left, right)
        if right == 0 or left ^ right == 1:
            return 0
        if right == 1 or left == right:
            return left
        for one, other in ((left, right), (right, left)):
            known = self.known_of(one, other)
            if known is not None:
                return known
        if (left, right) not in self.known:
            self.gates.append((left, right))
            self.known[left, right] = 2 * (self.inputs + self.latches + len(self.gates))
        return self.known[left, right]

    def known_of(self, one: int, other: int) -> Optional[int]:
        """What a gate of two literals is, where the other is one of the two that make the first, or its inverse."""
        place = (one >> 1) - 1 - self.inputs - self.latches
        if place < 0:
            return None
        pair = self.gates[place]
        if other ^ 1 in pair:
            return other if one & 1 else 0
        if other in pair:
            return self.both(other, (pair[0] if pair[1] == other else pair[1]) ^ 1) if one & 1 else one
        return None

    def either(self, *literals: int) -> int:
        found = 0
        for literal in literals:
            found = self.both(found ^ 1, literal ^ 1) ^ 1
        return found

    def choice(self, which: int, yes: int, no: int) -> int:
        return self.either(self.both(which, yes), self.both(which ^ 1, no))

    def copy(self, other: "Machine", inputs: list[int], state: list[int]) -> tuple[list[int], list[int]]:
        """The outputs and the following state of another machine whose inputs and state are these literals."""
        values = [0, *inputs, *state]
        literal = lambda of: values[of >> 1] ^ (of & 1)
        for left, right in other.gates:
            values.append(self.both(literal(left), literal(right)))
        return [literal(of) for of in other.outputs], [literal(of) for of in other.following]

    def written(self) -> bytes:
        """The binary form, in which every latch begins with 0."""
        first = 1 + self.inputs + self.latches
        lines = [f"aig {first - 1 + len(self.gates)} {self.inputs} {self.latches} {len(self.outputs)} {len(self.gates)}"]
        lines += [str(of) for of in self.following + self.outputs]
        return "".join(f"{line}\n" for line in lines).encode() + b"".join(
            varint(2 * (first + at) - left) + varint(left - right) for at, (left, right) in enumerate(self.gates)
        )


def varint(number: int) -> bytes:
    found = bytearray()
    while number >= 128:
        found.append(number & 127 | 128)
        number >>= 7
    return bytes(found + bytes([number]))


def from_nothing(machine: Machine, fixed: dict[int, int]) -> Machine:
    """The machine whose latches begin with 0, of which there is one at least, as ABC asks, and some of whose
    inputs have these numbers."""
    lacking = int(machine.latches == 0)
    found = Machine(machine.inputs, machine.latches + lacking, initial=[0] * (machine.latches + lacking))
    inputs = [fixed.get(at, found.input(at)) for at in range(machine.inputs)]
    state = [found.latch(at) ^ first for at, first in enumerate(machine.initial)]
    found.outputs, following = found.copy(machine, inputs, state)
    found.following = [of ^ first for of, first in zip(following, machine.initial)] + [0] * lacking
    return found


def stands_still(machine: Machine, fixed: dict[int, int]) -> bool:
    """Whether, where some inputs have these numbers, the machine keeps its state, and its first output is 0."""
    found = Machine(machine.inputs, machine.latches)
    inputs = [fixed.get(at, found.input(at)) for at in range(machine.inputs)]
    state = [found.latch(at) for at in range(machine.latches)]
    outputs, following = found.copy(machine, inputs, state)
    return following == state and outputs[0] == 0


def stepped(made: Machine, machine: Machine, clocks: int, sample: int, first: int, state: list[int]) -> tuple[list[int], list[int]]:
    """So many clocks of a machine, whose inputs stand in another from a place on: whether its first output is 1
    in one of them, with its other outputs in the first clock of each sample; and the following state."""
    wrong, helping = 0, []
    for clock in range(clocks):
        inputs = [made.input(first + clock * machine.inputs + at) for at in range(machine.inputs)]
        outputs, state = made.copy(machine, inputs, state)
        wrong = made.either(wrong, outputs[0])
        helping += outputs[1:] if clock % sample == 0 else []
    return [wrong, *helping], state


def alike(machine: Machine, clocks: int, start: list[int]) -> list[Optional[int]]:
    """By latch the first that always has its value from a start on, at the end of each step; or None of one
    that keeps the number of its start. Latches are alike where their starts are one literal, and so are what
    follows of those alike."""
    kinds = [(literal, 0) for literal in start]
    while True:
        first = {}
        for at, kind in enumerate(kinds):
            first.setdefault(kind, at)
        keeps = [kind == (literal, 0) and literal < 2 for kind, literal in zip(kinds, start)]
        made = Machine(machine.inputs * clocks, machine.latches)
        state = [start[at] if keeps[at] else made.latch(first[kind]) for at, kind in enumerate(kinds)]
        _, following = stepped(made, machine, clocks, clocks, 0, state)
        numbers: dict[tuple, int] = {}
        parted = []
        for at, kind in enumerate(kinds):
            key = (kind, 0 if keeps[at] and following[at] == start[at] else following[at] + 2)
            parted.append((start[at], 0) if key[1] == 0 else (start[at], numbers.setdefault(key, len(numbers) + 1)))
        if len(set(parted)) == len(set(kinds)) and all(not kept or of[1] == 0 for kept, of in zip(keeps, parted)):
            return [None if keeps[at] else first[kind] for at, kind in enumerate(kinds)]
        kinds = parted


def by_steps(machine: Machine, clocks: int, sample: int, before: int) -> Machine:
    """The machine that makes so many clocks in a step, and begins in any state after so many steps, those of
    latches that are alike by their form. Its first output is 1 where that of the machine is in one of the
    clocks, those before the begin too; the others are those of the first clock of each sample."""
    width = machine.inputs * clocks
    found = Machine(width * (before + 1), machine.latches + 1)
    begun, early, start = found.latch(machine.latches), 0, [0] * machine.latches
    for at in range(before):
        (wrong, *_), start = stepped(found, machine, clocks, sample, at * width, start)
        early = found.either(early, wrong)
    same = alike(machine, clocks, start)
    state = [start[at] if of is None else found.choice(begun, found.latch(of), start[of]) for at, of in enumerate(same)]
    outputs, following = stepped(found, machine, clocks, sample, before * width, state)
    found.following = [*following, 1]
    found.outputs = [found.either(outputs[0], found.both(begun ^ 1, early)), *outputs[1:]]
    return found
