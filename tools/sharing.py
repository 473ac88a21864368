"""Which multiplications of a design share which multipliers, and when: levels, slots and units.

It restates docs/FORMATS.md and the program's rules of sharing, in Python and over the flat diagram that a
check tells, and is no part of what is proved.
"""

import re
from collections import defaultdict
from fractions import Fraction
from typing import NamedTuple

from checked import Checked
from library import BLANKS, INTERNAL, FixedType, elements_of, number, type_of
from mdl import Defaults, Section, branches_of, step_of, systems
from quantize import ROUNDINGS
from written import Failed

DELAYS = ("UnitDelay", "Delay")


class Edge(NamedTuple):
    """A line of the flat diagram: from a block's output to another block's input, or to its enable (0)."""

    source: str
    port: int
    to: str
    input: int


class Flat(NamedTuple):
    """The flat diagram: its blocks by path with their sections, and its lines."""

    blocks: dict[str, Section]
    edges: list[Edge]


class Kind(NamedTuple):
    """What operations of one multiplier have in common."""

    period: int
    latency: int
    left: FixedType
    right: FixedType


class Operation(NamedTuple):
    """A shared multiplication, an element of a block: with its kind, its level, its slot in the clocks of its
    period, and its multiplier, all from 0."""

    path: str
    element: int
    kind: Kind
    level: int
    slot: int
    unit: int


def inner_port(block: Section, above: str, kind: str, port: int) -> str:
    """The path of a subsystem's inner port."""
    inside = [it for system in block.all("System")[:1] for it in system.all("Block") if it.get("BlockType") == kind]
    found = next((it for it in inside if kind == "EnablePort" or (number(it.get("Port", "1"), 1, 20000) or 1) == port), None)
    if found is None:
        raise Failed(f"{above} has no such port")
    return f"{above}/{step_of(found)}"


def flat_of(root: Section) -> Flat:
    """The flat diagram of a model that keeps the rules."""
    blocks, edges = {}, []
    for system, above in systems(root):
        under = {it.get("Name"): it for it in system.all("Block")}
        path_of = lambda name: "/".join(above + [step_of(under[name])])
        blocks |= {path_of(name): it for name, it in under.items()}
        for line in system.all("Line"):
            if line.get("SrcBlock") not in under:
                continue
            source, port = path_of(line.get("SrcBlock")), number(line.get("SrcPort", "1"), 1, 20000) or 1
            if under[line.get("SrcBlock")].get("BlockType") == "SubSystem":
                source, port = inner_port(under[line.get("SrcBlock")], source, "Outport", port), 1
            for branch in (it for it in branches_of(line) if it.get("DstBlock") in under):
                to, into = path_of(branch.get("DstBlock")), number(branch.get("DstPort", "1"), 1, 20000) or 0
                if under[branch.get("DstBlock")].get("BlockType") == "SubSystem":
                    to, into = inner_port(under[branch.get("DstBlock")], to, "EnablePort" if into == 0 else "Inport", into), min(into, 1)
                edges.append(Edge(source, port, to, into))
    return Flat(blocks, with_enables(blocks, edges))


def with_enables(blocks: dict[str, Section], edges: list[Edge]) -> list[Edge]:
    """The lines, of which those to an EnablePort go to each block that it enables."""
    found = []
    for edge in edges:
        if blocks[edge.to].get("BlockType") != "EnablePort":
            found.append(edge)
            continue
        holder = edge.to.rpartition("/")[0]
        within = [path for path, it in blocks.items() if path.startswith(f"{holder}/") and it.get("BlockType") in (*DELAYS, "Outport")]
        found += [Edge(edge.source, edge.port, path, 0) for path in within]
    return found


def decimal_of(text: str) -> Fraction:
    return Fraction({"true": "1", "false": "0"}.get(text, text))


def by_internal_rule(values: list[Fraction], given: FixedType) -> FixedType:
    """The type of a coefficient by the internal rule: as wide as the input, with the longest fraction that each fits."""
    is_signed = given.is_signed or any(it < 0 for it in values)
    bits = max(given.bits, 2) if is_signed else given.bits
    if not any(values):
        return FixedType(is_signed, bits, 0)
    for fraction in range(128, -65, -1):
        low, high = FixedType(is_signed, bits, fraction).range()
        if all(low <= ROUNDINGS["Nearest"](it * Fraction(2) ** fraction) <= high for it in values):
            return FixedType(is_signed, bits, fraction)
    return FixedType(is_signed, bits, -64)


class Sharing:
    """A design's shared multiplications."""

    def __init__(self, root: Section, found: Checked) -> None:
        self.flat, self.found, self.defaults = flat_of(root), found, Defaults(root)
        self.into = {(edge.to, edge.input): edge for edge in self.flat.edges}
        self.readers = defaultdict(list)
        for edge in self.flat.edges:
            self.readers[edge.source].append(edge)

    def get(self, path: str, name: str, otherwise: str) -> str:
        return (self.defaults.of(self.flat.blocks[path], name) or (otherwise,))[0]

    def period(self, path: str) -> int:
        return self.found.blocks[path].period or 1

    def is_shared(self, path: str) -> bool:
        """Whether multiplications of a block wait for a multiplier: at one clock those of slower blocks alone."""
        block = self.found.blocks.get(path)
        is_one = block is not None and self.flat.blocks[path].get("BlockType") in ("Gain", "Product") and block.period is not None
        return is_one and self.found.multipliers > 0 and (self.found.cycles > 1 or block.period > 1)

    def type_into(self, path: str, port: int) -> FixedType:
        edge = self.into[path, port]
        said = type_of(re.sub(r"^fixdt\((\w+),", lambda it: f"fixdt({it[1]},", self.found.blocks[edge.source].outputs[edge.port - 1][0]))
        if said is None:
            raise Failed(f"{edge.source} has no type")
        return said

    def kind(self, path: str) -> Kind:
        left = self.type_into(path, 1)
        if self.flat.blocks[path].get("BlockType") == "Product":
            right = self.type_into(path, 2)
        else:
            said = self.get(path, "ParamDataTypeStr", INTERNAL)
            values = [decimal_of(it) for it in elements_of(self.get(path, "Gain", "1").strip(BLANKS)) or []]
            right = type_of(said) or (left if said == "Inherit: Same as input" else by_internal_rule(values, left))
        return Kind(self.period(path), self.found.blocks[path].latency, left, right)

    def is_instant(self, edge: Edge) -> bool:
        """Whether what the reader gives follows what comes at once."""
        kind = self.flat.blocks[edge.to].get("BlockType")
        is_to_faster = kind == "RateTransition" and self.found.blocks[edge.source].period is not None and self.period(edge.to) < self.period(edge.source)
        return kind not in DELAYS and not is_to_faster and self.found.blocks[edge.to].period is not None

    def depths(self) -> dict[int, dict[str, int]]:
        """By period, for each block, the most shared blocks of that period on an instant path that ends with it."""
        periods = {self.period(path) for path in self.found.blocks if self.is_shared(path)}
        waits = {path: 0 for path in self.found.blocks}
        instant = [edge for edge in self.flat.edges if edge.to in waits and edge.source in waits and self.is_instant(edge)]
        for edge in instant:
            waits[edge.to] += 1
        found = {period: dict.fromkeys(waits, 0) for period in periods}
        left = [path for path, count in waits.items() if count == 0]
        after = defaultdict(list)
        for edge in instant:
            after[edge.source].append(edge.to)
        while left:
            path = left.pop()
            for period, depths in found.items():
                depths[path] += self.is_shared(path) and self.period(path) == period
                for to in after[path]:
                    depths[to] = max(depths[to], depths[path])
            for to in after[path]:
                waits[to] -= 1
                left += [to] if waits[to] == 0 else []
        return found

    def start(self, period: int) -> int:
        """The first slot of a period: when what comes from shorter ones is there."""
        shorter = [
            self.period(edge.source)
            for edge in self.flat.edges
            if edge.to in self.found.blocks and self.flat.blocks[edge.to].get("BlockType") == "RateTransition"
            and self.found.blocks[edge.source].period is not None and self.period(edge.source) < self.period(edge.to) == period
        ]  # fmt: skip
        return max(shorter, default=0) * self.found.cycles

    def operations(self) -> list[Operation]:
        """All of them, in the order of blocks and elements."""
        depths, multipliers = self.depths(), self.found.multipliers
        shared = [path for path in self.found.blocks if self.is_shared(path)]
        rows = [(path, element, self.kind(path), depths[self.period(path)][path] - 1) for path in shared for element in range(self.found.blocks[path].outputs[0][1])]
        counts, turns = defaultdict(int), defaultdict(int)
        for _, _, kind, level in rows:
            counts[kind, level] += 1
        widths = defaultdict(int)
        for (kind, level), count in counts.items():
            widths[kind.period, level] = max(widths[kind.period, level], -(-count // multipliers))
        kinds, first = list(dict.fromkeys(kind for _, _, kind, _ in rows)), {}
        taken = 0
        for kind in kinds:
            first[kind] = taken
            taken += min(multipliers, max(count for (other, _), count in counts.items() if other == kind))
        found = []
        for path, element, kind, level in rows:
            turn = turns[kind, level]
            turns[kind, level] += 1
            base = self.start(kind.period) + sum(widths[kind.period, it] for it in range(level))
            found.append(Operation(path, element, kind, level, base + turn // multipliers, first[kind] + turn % multipliers))
        return found
