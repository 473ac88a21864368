"""The multicycle paths of a module, derived from its text, and its timing constraints as SDC and XDC.

A path has so many clocks as lie at least between a clock at whose end its source takes, or the reset, and the
next one at whose end its target does, whatever the inputs are. What says whether a register takes is looked
at in each clock, so that no path to that is relaxed.
"""

from dataclasses import dataclass
from typing import Dict, FrozenSet, Iterator, List, Set, Tuple

from frames import Clocks, Cones, Frames, apart
from subset import Module, Net
from written import MODULE

# The ports that carry no numbers.
CONTROLS = ("clk", "reset", "clk_enable", "ce_out")
HEAD = """# {form} of {module}, whose base sample has {cycles} clocks and whose frame has {length}.
# A register NAME of more than one bit is NAME_reg[*] here, as synthesis names it; where a tool keeps the
# names, take `_reg` out. {within}
create_clock -name clk -period {period:.3f} [get_ports clk]
"""
WITHIN = {
    "SDC": "In a larger design put `current_instance PLACE` before the paths.",
    "XDC": f"In a larger design read it by `read_xdc -ref {MODULE}`.",
}
SAFE = "\n# Between registers. Safe under stalls: in a stall no register takes.\n"
UNSAFE = "\n# Between registers. Not safe under stalls.\n"
OF_INPUTS = """
# From inputs that change at the beginning of the first clock of a hit alone. Not safe under stalls, in which
# an input may show anything: take the `#` away where it keeps its number in them, or nothing stalls.
"""
OF_OUTPUTS = """
# To outputs that are taken at the end of the clock in which the text says that they show a hit, or later.
# Safe under stalls, which are no clocks. Take the `#` away where all are so taken.
"""
NONE = "# none has more than one clock\n"


@dataclass(frozen=True)
class Path:
    clocks: int
    sources: Tuple[str, ...]
    targets: Tuple[str, ...]


@dataclass(frozen=True)
class End:
    """Where paths end: when it takes, what it reads, and what says whether it takes."""

    name: str
    takes: Clocks
    reads: FrozenSet[str]
    enabling: FrozenSet[str]


def paths(takes: Dict[str, Clocks], ends: List[End]) -> Iterator[Path]:
    """The paths of more than one clock from sources, of which it is known when they take, to ends."""
    by_source: Dict[Clocks, Set[str]] = {}
    for name, clocks in takes.items():
        by_source.setdefault(clocks, set()).add(name)
    by_end: Dict[Tuple[Clocks, FrozenSet[str]], List[End]] = {}
    for end in ends:
        by_end.setdefault((end.takes, end.enabling.intersection(takes)), []).append(end)
    for begins, names in by_source.items():
        for (clocks, enabling), group in by_end.items():
            many = apart(begins, clocks)
            if many is None or many < 2:
                continue
            free = names - enabling
            targets = [end.name for end in group if end.reads & free]
            read = frozenset().union(*(end.reads for end in group)) & free
            if targets:
                yield Path(many, tuple(name for name in takes if name in read), tuple(targets))


def hits(net: Net, cycles: int, frames: Frames) -> range:
    """The clocks at whose end an input changes next, or an output is taken: once in its period."""
    step = (net.attribute("fx_period") or 1) * cycles
    is_input = net.direction == "input"
    begin = step - 1 if is_input else net.attribute("fx_latency") or 0
    return range(begin, begin + max(2 * frames.length + frames.before, 2 * step), step)


class Paths:
    """The paths of a module: between registers, from inputs and to outputs."""

    def __init__(self, module: Module) -> None:
        self.module, self.frames, cones = module, Frames(module), Cones(module)
        self.cycles = module.attributes["fx_cycles"]
        takes = self.frames.takes
        ends = [End(name, takes[name], cones.of(it.value), cones.enabling(it)) for name, it in module.registers.items()]
        self.inner = list(paths(takes, ends))
        carriers = [net for net in module.nets.values() if net.direction and net.name not in CONTROLS]
        inputs = {net.name: self.of_port(net) for net in carriers if net.direction == "input"}
        self.of_inputs = list(paths(inputs, ends))
        outputs = [End(net.name, self.of_port(net), cones.of_net[net.name], frozenset()) for net in carriers if net.direction == "output"]
        self.of_outputs = list(paths(takes, outputs))

    def of_port(self, net: Net) -> Clocks:
        return tuple(hits(net, self.cycles, self.frames))


def listed(module: Module, names: Tuple[str, ...]) -> str:
    """Ports by their names, and registers by those that synthesis gives them."""
    ports = [name for name in names if module.nets[name].direction]
    shown = [name + ("" if name in ports else "_reg") + ("[*]" if module.nets[name].width > 1 else "") for name in names]
    return f"[{'get_ports' if ports else 'get_cells'} {{{' '.join(shown)}}}]"


def lines(module: Module, found: List[Path], mark: str = "") -> str:
    """The lines of paths; the hold is looked at where the first register takes."""
    made = []
    for path in sorted(found, key=lambda it: it.clocks):
        between = f"-from {listed(module, path.sources)} -to {listed(module, path.targets)}"
        made.append(f"{mark}set_multicycle_path {path.clocks} -setup {between}\n{mark}set_multicycle_path {path.clocks - 1} -hold {between}\n")
    return "".join(made) or NONE


def constraints(found: Paths, form: str, megahertz: float) -> str:
    """The constraints of a module in a form, SDC or XDC."""
    module = found.module
    head = HEAD.format(form=form, module=module.name, cycles=found.cycles, length=found.frames.length, period=1000 / megahertz, within=WITHIN[form])
    inner = (SAFE if found.frames.holds_in_stalls() else UNSAFE) + lines(module, found.inner)
    return head + inner + OF_INPUTS + lines(module, found.of_inputs, "# ") + OF_OUTPUTS + lines(module, found.of_outputs, "# ")
