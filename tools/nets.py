"""Which block a net of a written module belongs to, and the clocks in which it shows its block's number.

Nets say it by their names: B is the line of their block in a check's blocks and E the element of its outputs,
both from 0. `fx_eB_E_NAME` shows the element, `fx_mB_E` the product that it is made of, and `fx_pB_E_K` is
the K-th pipeline register behind it.
"""

import re
from bisect import bisect_left
from dataclasses import dataclass
from typing import Dict, List, Optional, Tuple

from frames import RESET, Frames, may_hold
from mdl import strings
from subset import Choice, Expression, Module, Name, names_in
from written import Failed

NET = re.compile(r"fx_(?:(?P<kind>[em])(?P<block>\d+)_(?P<element>\d+)(?P<name>_\w*)?|p(?P<piped>\d+)_(?P<of>\d+)_(?P<register>[1-9]\d*))")
BLOCK = re.compile(r'block ("(?:[^"\\]|\\.)*") period (\d+|inf) latency (\d+)((?: (?:boolean|fixdt\([^)]*\)) \d+)*)')


@dataclass(frozen=True)
class Block:
    """A line of a check: a path, hits in base samples (none of what never changes), latency, and each output port's width."""

    path: str
    period: Optional[int]
    latency: int
    widths: Tuple[int, ...]

    def steps(self) -> List[str]:
        """The names on the path: a slash in a name is written twice."""
        return [step.replace("//", "/") for step in re.findall(r"(?:[^/]|//)+", self.path)]


@dataclass(frozen=True)
class Shown:
    """A net, what it shows of which element, and the first and last clock of hit 0; a hit is `step` clocks behind the one before."""

    net: str
    shows: str
    block: int
    path: str
    port: int
    element: int
    latency: int
    first: int
    last: Optional[int]
    step: Optional[int]


def blocks_of(check: str) -> List[Block]:
    """The blocks of a check, in order."""
    found = [BLOCK.fullmatch(line) for line in check.splitlines() if line.startswith("block ")]
    if not found or None in found:
        raise Failed("the check is not understood")
    return [
        Block(strings(it[1]), None if it[2] == "inf" else int(it[2]), int(it[3]), tuple(int(width) for width in re.findall(r"(\d+)(?: |$)", re.sub(r"\([^)]*\)", "", it[4]))))
        for it in found
        if it
    ]


def cycles_of(check: str) -> int:
    return int(check.split()[2])


def place(block: Block, element: int) -> Tuple[int, int]:
    """The output port of an element, from 1, and the element's place in it."""
    for port, width in enumerate(block.widths, 1):
        if element < width:
            return port, element
        element -= width
    raise Failed(f'"{block.path}" has no such element')


class Changes:
    """Since when nets show what they do in a clock, by the module's frames."""

    def __init__(self, module: Module) -> None:
        self.module, self.frames = module, Frames(module)
        self.cycles = module.attributes.get("fx_cycles", 1)
        self.found: Dict[Tuple[str, int], int] = {}

    def known(self, clock: int) -> Dict[str, int]:
        shown, before = self.frames.shown, self.frames.before
        return shown[clock if clock < len(shown) else before + (clock - before) % self.frames.length]

    def last_take(self, name: str, clock: int) -> int:
        """The last clock before this one at whose end a register takes, or the reset."""
        later = max((clock - self.frames.before) // self.frames.length - 1, 0) * self.frames.length
        takes = self.frames.takes[name]
        place = bisect_left(takes, clock - later)
        return takes[place - 1] + later if place else RESET

    def of(self, one: Expression, clock: int) -> int:
        """The clock at whose beginning a value changed last, choices that are known being taken for what they choose."""
        if isinstance(one, Choice):
            condition = self.frames.truth.of(one.condition, self.known(clock))
            if condition is not None:
                return self.of(one.yes if condition else one.no, clock)
        if isinstance(one, Name):
            return self.of_net(one.name, clock)
        if isinstance(one, Choice):
            return max(self.of(part, clock) for part in (one.condition, one.yes, one.no))
        return max((self.of_net(name, clock) for name in names_in(one)), default=0)

    def of_net(self, name: str, clock: int) -> int:
        if (name, clock) not in self.found:
            self.found[name, clock] = self.looked_up(name, clock)
        return self.found[name, clock]

    def looked_up(self, name: str, clock: int) -> int:
        module = self.module
        if name in module.assigns:
            return self.of(module.assigns[name], clock)
        if name in self.frames.known:
            return 0
        if name in module.registers:
            taken, value = self.last_take(name, clock), module.registers[name].value
            # one that holds what it was given shows what was there before
            return self.of(value, taken) if taken >= 0 and may_hold(module, value, name) else taken + 1
        step = (module.nets[name].attribute("fx_period") or 1) * self.cycles
        return clock - clock % step


class Nets:
    """The nets of a module with their blocks, by a check of its model and plan."""

    def __init__(self, module: Module, check: str) -> None:
        self.module, self.blocks, self.cycles = module, blocks_of(check), cycles_of(check)
        told = dict(re.findall(r"^output (\S+) clocks (\d+) ", check, re.M))
        latencies = {net.name: str(net.attribute("fx_latency")) for net in module.ports("output") if net.attribute("fx_period")}
        if module.attributes.get("fx_cycles") != self.cycles or told != latencies:
            raise Failed("it isn't the module of this model by this plan")
        self.changes = Changes(module)

    def shown(self) -> List[Shown]:
        """What each net that names a block shows."""
        found = ((name, NET.fullmatch(name)) for name in self.module.nets)
        return [self.of(name, match) for name, match in found if match]

    def of(self, name: str, match: "re.Match[str]") -> Shown:
        number, element = int(match["block"] or match["piped"]), int(match["element"] or match["of"])
        if number >= len(self.blocks):
            raise Failed(f"{name}: the check has no block {number}")
        block = self.blocks[number]
        port, at = place(block, element)
        what = {"e": "value", "m": "product"}.get(match["kind"], f"register {match['register']}")
        return Shown(name, what, number, block.path, port, at, block.latency, *self.window(name, block, int(match["register"] or 0)))

    def window(self, name: str, block: Block, registers: int) -> Tuple[int, Optional[int], Optional[int]]:
        """The first and the last clock of hit 0, and how many clocks lie between two hits."""
        if block.period is None:
            return block.latency * self.cycles, None, None
        step = block.period * self.cycles
        begin = (block.latency + registers * block.period) * self.cycles
        # one of the later hits, when the frames have come round
        later = begin + step * (2 + (self.changes.frames.before + self.changes.frames.length) // step)
        ready = max(self.changes.of_net(name, later + step - 1) - later, 0)
        return begin + ready, begin + step - 1, step
