"""A block that is rebuilt: a subsystem of its name, with blocks of the profile in it."""

from fractions import Fraction

from .fixed import FixType
from .model import Block, Edge, System
from .profile import FIRST, INPUT, TABLE
from .report import Refusal
from .settings import INTERNAL, Settings, listed
from .signals import Signals

Source = tuple[Block, int]


class Group:
    """The blocks that stand for one. Its inputs are `inputs`, from 0."""

    def __init__(self, block: Block, inputs: int, period: Fraction | str = "-1"):
        self.block, self.system = block, System(block=block)
        self.taken: set[str] = set()
        names = ["in"] if inputs == 1 else [f"in{number}" for number in range(1, inputs + 1)]
        self.inputs: list[Source] = [self.put("Inport", name, Port=str(number), SampleTime=period) for number, name in enumerate(names, 1)]

    def put(self, kind: str, name: str, *sources: Source, **parameters: object) -> Source:
        """Adds a block behind its sources; what is not given has the profile's default. A taken name gets a number."""
        count, free = 2, name
        while free in self.taken:
            free, count = f"{name} {count}", count + 1
        self.taken.add(free)
        block = Block(kind, free, line=self.block.line, part=self.block.part, above=self.system, settled=True)
        block.parameters = {key: default for key, default, _ in TABLE[kind]}
        for key, value in parameters.items():
            block.parameters[key] = value if isinstance(value, Fraction) else str(value)
        self.system.blocks.append(block)
        self.system.edges += [Edge(*source, block, number) for number, source in enumerate(sources, 1)]
        return block, 1

    def join(self, source: Source, target: Source) -> None:
        """Leads a line to the first input of a block that stands already."""
        self.system.edges.append(Edge(*source, target[0], 1))

    def constant(self, name: str, values: list[Fraction], kind: FixType) -> Source:
        return self.put("Constant", name, Value=listed(values), OutDataTypeStr=kind)

    def close(self, *outputs: Source) -> None:
        """Puts the group in the block's place, with such outputs."""
        for number, source in enumerate(outputs, 1):
            name = "out" if len(outputs) == 1 else f"out{number}"
            self.put("Outport", name, source, Port=str(number))
        block = self.block
        block.parameters = {"SystemSampleTime": "-1"}
        block.kind, block.system, block.settled = "SubSystem", self.system, True


class Rebuild:
    """What a step that rebuilds a block can ask of it."""

    def __init__(self, block: Block, settings: Settings, signals: Signals):
        self.block, self.settings, self.signals = block, settings, signals

    def number(self, name: str, default: str = "") -> Fraction:
        return self.settings.number(self.block, name, default)

    def numbers(self, name: str, default: str = "") -> list[Fraction]:
        return self.settings.numbers(self.block, name, default)

    def whole(self, name: str, default: str, low: int, high: int) -> int:
        return self.settings.whole(self.block, name, default, low, high)

    def choice(self, name: str, allowed: tuple[str, ...], default: str, remedy: str = "") -> str:
        return self.settings.choice(self.block, name, allowed, default, remedy)

    def period(self, name: str = "SampleTime") -> Fraction | str:
        return self.settings.period(self.block, name)

    def input_type(self, port: int = 1) -> FixType:
        return self.signals.type_in(self.block, port)

    def width(self, port: int = 1) -> int:
        return self.signals.width_in(self.block, port)

    def count(self) -> int:
        """How many inputs lines lead to."""
        return max((it for it in self.block.above.drivers(self.block) if isinstance(it, int)), default=0)

    def rounding(self) -> dict[str, str]:
        """How the block rounds, and what it does beyond the range."""
        found = self.choice("RndMeth", ("Floor", "Ceiling", "Zero", "Nearest", "Round", "Convergent"), "Floor")
        return {"RndMeth": found, "SaturateOnIntegerOverflow": self.settings.flag(self.block, "SaturateOnIntegerOverflow")}

    def result(self, default: str, port: int = 1, name: str = "OutDataTypeStr") -> FixType:
        """The type of the result, which is declared or that of an input."""
        found = self.settings.type(self.block, name, default)
        if isinstance(found, FixType):
            if found.frac is None:
                raise Refusal("a type without a fraction", "declare fixdt(S,W,F)", name, self.settings.type_text(self.block, name, default))
            return found
        if found in (FIRST, INPUT):
            return self.input_type(port)
        raise Refusal("an inheriting choice that isn't covered", "declare a type", name, found)

    def result_or_internal(self, default: str, port: int = 1) -> str:
        """The same, where the internal rule may stand as it is."""
        found = self.settings.type(self.block, "OutDataTypeStr", default)
        return INTERNAL if found == INTERNAL else str(self.result(default, port))

    def tell(self, said: str) -> None:
        self.settings.report.tell(self.block.place(), said)

    def group(self, inputs: int = 1, period: Fraction | str | None = None) -> Group:
        return Group(self.block, inputs, self.period() if period is None else period)
