"""When the registers of a module take, by clocks from the reset on: derived from its text, for any inputs.

Registers that read nothing but each other and the clock enable run by themselves, so what they hold is known
at each clock; they begin again after so many clocks, a *frame*. What they hold says of each other register
in which clocks it can't take: where its enable is 0, or choices give it what it holds. In all others it may.
"""

from bisect import bisect_left
from functools import lru_cache
from typing import Callable, Dict, List, Optional, Set, Tuple

from running import Compiler, Running, Shapes, in_order, source_of
from subset import Binary, Choice, Expression, Module, Name, Register, Unary, names_in
from written import Failed

ENABLE = "clk_enable"
# The row of reset, at whose end every register takes.
RESET = -1
# How many times clocks and registers a text may be looked at.
MOST = 5_000_000

Known = Dict[str, int]
Clocks = Tuple[int, ...]


def alone(module: Module) -> Set[str]:
    """The nets and registers that read nothing but each other and the clock enable."""
    known = {name for name in (*module.assigns, *module.registers)} | {ENABLE}
    reads = {name: set(names_in(it)) for name, it in module.assigns.items()}
    for name, it in module.registers.items():
        reads[name] = {*names_in(it.enable), *names_in(it.value)}
    while True:
        others = {name for name in known - {ENABLE} if not reads[name] <= known}
        if not others:
            return known
        known -= others


def part_of(module: Module, names: Set[str]) -> Module:
    """The module of these nets and registers alone."""
    inputs = {net.name for net in module.ports("input") if net.name in ("clk", "reset", ENABLE)}
    return Module(
        module.name, module.attributes, {name: net for name, net in module.nets.items() if name in names | inputs},
        {name: it for name, it in module.assigns.items() if name in names}, {name: it for name, it in module.registers.items() if name in names},
    )  # fmt: skip


class Truth:
    """Whether expressions are true where some nets are known: yes, no, or it depends on the others."""

    def __init__(self, module: Module, nets: Set[str]) -> None:
        self.module, self.nets, self.shapes = module, nets, Shapes(module)
        self.compiler = Compiler(module, {name: f"known['{name}']" for name in module.nets})
        self.made: Dict[Expression, Optional[Callable[[Known], int]]] = {}

    def function(self, one: Expression) -> Optional[Callable[[Known], int]]:
        """The value of an expression of known nets."""
        if one not in self.made:
            is_known = all(name in self.nets for name in names_in(one))
            self.made[one] = eval(f"lambda known: {self.compiler.alone(one)}") if is_known else None
        return self.made[one]

    def of(self, one: Expression, known: Known) -> Optional[bool]:
        function = self.function(one)
        if function is not None:
            return bool(function(known))
        if isinstance(one, Name) and one.name in self.module.assigns:
            driver = self.module.assigns[one.name]
            return self.of(driver, known) if self.shapes.width(driver) <= self.module.nets[one.name].width else None
        if isinstance(one, Unary) and one.operator == "!":
            inner = self.of(one.part, known)
            return None if inner is None else not inner
        if isinstance(one, Binary) and one.operator in ("&&", "||", "&", "|"):
            return self.joined(one, known)
        if isinstance(one, Choice):
            condition = self.of(one.condition, known)
            found = {self.of(part, known) for part, is_it in ((one.yes, condition is not False), (one.no, condition is not True)) if is_it}
            return found.pop() if len(found) == 1 else None
        return None

    def joined(self, one: Binary, known: Known) -> Optional[bool]:
        left, right = self.of(one.left, known), self.of(one.right, known)
        decides = one.operator in ("||", "|")
        if decides in (left, right):
            return decides
        # bits of two numbers that aren't 0 may have none in common
        is_whole = one.operator != "&" or self.shapes.width(one.left) == self.shapes.width(one.right) == 1
        return not decides if left is right is not None and is_whole else None

    def changes(self, value: Expression, name: str, known: Known) -> bool:
        """Whether a register may take anything but what it holds."""
        seen = source_of(value, name, self.module)
        if isinstance(seen, Choice):
            condition = self.of(seen.condition, known)
            return condition is not False and self.changes(seen.yes, name, known) or condition is not True and self.changes(seen.no, name, known)
        return seen != Name(name)


class Frames:
    """The clocks of two frames at whose end each register may take, from the reset on."""

    def __init__(self, module: Module) -> None:
        self.module, self.known = module, alone(module)
        self.truth = Truth(module, self.known)
        self.shown, self.before = self.run()
        self.length = len(self.shown) - self.before
        clocks = [*self.shown, *self.shown[self.before :]]
        if len(clocks) * len(module.registers) > MOST:
            raise Failed(f"its frame has {self.length} clocks, too many to look at {len(module.registers)} registers in")
        self.takes: Dict[str, Clocks] = {
            name: tuple(clock for clock, known in enumerate(clocks) if self.may_take(register, known)) for name, register in module.registers.items()
        }

    def run(self) -> Tuple[List[Known], int]:
        """What the known nets show by clock, until what registers hold comes again, and the clock of which it does."""
        part = part_of(self.module, self.known)
        run = Running(part)
        row = {name: 0 for name in part.nets if name != "clk" and part.nets[name].direction == "input"} | {ENABLE: 1}
        run.clock({**row, "reset": 1})
        shown: List[Known] = []
        seen: Dict[Tuple[int, ...], int] = {}
        while tuple(run.held.values()) not in seen:
            if len(shown) > MOST:
                raise Failed("its registers don't come to an end of a frame")
            seen[tuple(run.held.values())] = len(shown)
            shown.append({**row, **run.clock({**row, "reset": 0})[0]})
        return shown, seen[tuple(run.held.values())]

    def may_take(self, register: Register, known: Known) -> bool:
        if register.enable is not None and self.truth.of(register.enable, known) is False:
            return False
        return self.truth.changes(register.value, register.name, known)

    def holds_in_stalls(self) -> bool:
        """Whether every register keeps what it holds where the clock enable is 0."""
        truth, stalled = Truth(self.module, {ENABLE}), {ENABLE: 0}
        return all(it.enable is not None and truth.of(it.enable, stalled) is False for it in self.module.registers.values())


@lru_cache(maxsize=None)
def apart(source: Clocks, target: Clocks) -> Optional[int]:
    """The fewest clocks from one at whose end a source takes, or the reset, to one at whose end a target does."""
    begins = (RESET, *source)
    return min((clock - begins[bisect_left(begins, clock) - 1] for clock in target), default=None)


def may_hold(module: Module, value: Expression, name: str) -> bool:
    """Whether a choice of a value may give a register what it holds."""
    seen = source_of(value, name, module)
    return seen == Name(name) or isinstance(seen, Choice) and (may_hold(module, seen.yes, name) or may_hold(module, seen.no, name))


class Cones:
    """The registers and inputs that nets and expressions read in the same clock."""

    def __init__(self, module: Module) -> None:
        self.module, self.of_net = module, {name: frozenset([name]) for name in module.nets if name not in module.assigns}
        for name in in_order(module):
            self.of_net[name] = self.of(module.assigns[name])

    def of(self, one: Optional[Expression]) -> "frozenset[str]":
        return frozenset().union(*(self.of_net[name] for name in set(names_in(one))))

    def choosing(self, value: Expression, name: str) -> "frozenset[str]":
        """What the choices read by which a register may be given what it holds, and with them the register."""
        seen = source_of(value, name, self.module)
        if not isinstance(seen, Choice) or not may_hold(self.module, seen, name):
            return frozenset()
        return frozenset([name]) | self.of(seen.condition) | self.choosing(seen.yes, name) | self.choosing(seen.no, name)

    def enabling(self, register: Register) -> "frozenset[str]":
        """What says whether a register takes, which is looked at in each clock."""
        return self.of(register.enable) | self.choosing(register.value, register.name)
