"""Types, widths and periods of signals, as far as the profile's rules tell them forwards."""

import re
from fractions import Fraction

from . import fixed
from .fixed import BIT, BOOLEAN, FixType
from .model import Block, Model, Port
from .profile import FIRST, INPUT
from .report import NotYet
from .settings import INTERNAL

End = tuple[int, Port]
Period = Fraction | str
PASSING = ("UnitDelay", "Delay", "RateTransition", "Outport")


def numbers(text: str) -> list[Fraction]:
    return [Fraction(it) for it in re.findall(r"[-+.\d]+(?:e[-+]?\d+)?", text)]


class Signals:
    """What is known of each output port, and of each block's period."""

    def __init__(self, model: Model):
        self.model = model
        self.drivers: dict[End, tuple[Block, Port]] = {}
        for system in model.systems():
            for edge in system.edges:
                self.drivers[id(edge.target), edge.target_port] = edge.source, edge.source_port
        self.types: dict[End, FixType] = {}
        self.widths: dict[End, int] = {}
        self.periods: dict[int, Period] = {}
        declared = [value for block in model.blocks() for name, value in block.parameters.items() if name in ("SampleTime", "OutPortSampleTime") and isinstance(value, Fraction)]
        self.base = min(declared, default=None)
        before = None
        while before != (len(self.types), len(self.widths), len(self.periods)):
            before = len(self.types), len(self.widths), len(self.periods)
            for block in model.blocks():
                self.look_at(block)

    def driver(self, block: Block, port: Port) -> End | None:
        found = self.drivers.get((id(block), port))
        return (id(found[0]), found[1]) if found else None

    def type_in(self, block: Block, port: Port = 1) -> FixType:
        found = self.types.get(self.driver(block, port))
        if found is None:
            raise NotYet(f"the type of its input {port} isn't known")
        return found

    def width_in(self, block: Block, port: Port = 1) -> int:
        found = self.widths.get(self.driver(block, port))
        if found is None:
            raise NotYet(f"the number of elements of its input {port} isn't known")
        return found

    def period_in(self, block: Block, port: Port = 1) -> Period:
        found = self.drivers.get((id(block), port))
        if not found or id(found[0]) not in self.periods:
            if found and found[0].kind == "SubSystem":
                inner = found[0].inner("Outport")
                if isinstance(found[1], int) and found[1] <= len(inner) and id(inner[found[1] - 1]) in self.periods:
                    return self.periods[id(inner[found[1] - 1])]
            raise NotYet(f"the sample time of its input {port} isn't known")
        return self.periods[id(found[0])]

    def look_at(self, block: Block) -> None:
        """Takes down what the block's inputs tell of it now."""
        if block.kind == "SubSystem":
            for number, port in enumerate(block.inner("Outport"), 1):
                self.copy(self.driver(port, 1), (id(block), number))
            return
        if not block.settled:
            return
        if block.kind == "Inport" and block.above.block:
            self.copy(self.outside(block), (id(block), 1))
        ports = self.ports(block)
        for out in range(1, self.outputs(block) + 1):
            kind, width = self.type_of(block, ports), self.width_of(block, ports, out)
            if kind is not None:
                self.types.setdefault((id(block), out), kind)
            if width is not None:
                self.widths.setdefault((id(block), out), width)
        period = self.period_of(block, ports)
        if period is not None:
            self.periods.setdefault(id(block), period)

    def copy(self, source: End | None, target: End) -> None:
        for table in (self.types, self.widths):
            if source in table:
                table.setdefault(target, table[source])

    def outside(self, port: Block) -> End | None:
        return self.driver(port.above.block, int(port.parameters["Port"]))

    def ports(self, block: Block) -> list[End | None]:
        return [self.driver(block, number) for number in range(1, inputs_of(block) + 1)]

    @staticmethod
    def outputs(block: Block) -> int:
        if block.kind == "Demux":
            parts = numbers(str(block.parameters["Outputs"]))
            return len(parts) if str(block.parameters["Outputs"]).startswith("[") else int(parts[0])
        return 0 if block.kind in ("Terminator", "EnablePort") else 1

    def type_of(self, block: Block, ports: list[End | None]) -> FixType | None:
        said = str(block.parameters.get("OutDataTypeStr", ""))
        declared = fixed.read(said)
        if declared:
            return declared
        given = [self.types.get(port) for port in ports]
        if block.kind == "Ground":
            return BIT
        if block.kind in ("RelationalOperator", "Logic"):
            return BOOLEAN
        if block.kind in PASSING or block.kind in ("Mux", "Demux") or said in (FIRST, INPUT):
            return given[0] if given else None
        if said != INTERNAL or not all(given) or not given:
            return None
        return self.internal(block, given)

    @staticmethod
    def internal(block: Block, given: list[FixType]) -> FixType | None:
        if block.kind == "Sum":
            return fixed.full_sum([(sign == "-", kind) for sign, kind in zip(str(block.parameters["Inputs"]), given)])
        if block.kind == "Product":
            return fixed.full_product(*given)
        if block.kind == "Switch":
            return fixed.union(given[0], given[2])
        said, values = str(block.parameters["ParamDataTypeStr"]), numbers(str(block.parameters["Gain"]))
        kind = fixed.read(said) or (given[0] if said == INPUT else fixed.parameter_type(values, given[0]))
        return fixed.full_product(given[0], kind) if kind else None

    def width_of(self, block: Block, ports: list[End | None], out: int) -> int | None:
        given = [self.widths.get(port) for port in ports]
        lists = [str(block.parameters[name]) for name in ("Value", "Gain", "InitialCondition", "Threshold") if name in block.parameters]
        if block.kind == "Inport":
            said = int(block.parameters["PortDimensions"])
            return said if said > 0 else None if block.above.block else 1
        if block.kind in ("Constant", "Ground"):
            return len(numbers(lists[0])) if lists else 1
        if not given or None in given:
            return None
        if block.kind == "Mux":
            return sum(given)
        if block.kind == "Demux":
            return parts(str(block.parameters["Outputs"]), given[0])[out - 1]
        return max(given + [len(numbers(text)) for text in lists])

    def period_of(self, block: Block, ports: list[End | None]) -> Period | None:
        said = block.parameters.get("OutPortSampleTime" if block.kind == "RateTransition" else "SampleTime", "-1")
        if isinstance(said, Fraction):
            return said
        if block.kind == "RateTransition":
            return None
        if block.kind in ("Constant", "Ground"):
            return "inf"
        if block.kind == "Inport" and not block.above.block:
            return self.base
        sources = [(block.above.block, int(block.parameters["Port"]))] if block.kind == "Inport" else [(block, port) for port in range(1, inputs_of(block) + 1)]
        found = []
        for reader, port in sources:
            try:
                found.append(self.period_in(reader, port))
            except NotYet:
                found.append(None)
        finite = [it for it in found if isinstance(it, Fraction)]
        return min(finite) if finite else "inf" if found and all(it == "inf" for it in found) and block.kind not in ("UnitDelay", "Delay") else None


def parts(said: str, width: int) -> list[int]:
    """How wide each output of a Demux is."""
    given = [int(it) for it in numbers(said)]
    if said.startswith("["):
        return given
    each, more = divmod(width, given[0])
    return [max(each + (k < more), 1) for k in range(given[0])]


def inputs_of(block: Block) -> int:
    """How many numbered inputs a block of the profile has."""
    if block.kind in ("Inport", "Constant", "Ground", "EnablePort"):
        return 0
    if block.kind == "SubSystem":
        return len(block.inner("Inport"))
    if block.kind == "Sum":
        return len(str(block.parameters["Inputs"]))
    if block.kind == "Logic":
        return 1 if block.parameters["Operator"] == "NOT" else int(block.parameters["Inputs"])
    if block.kind == "Mux":
        said = str(block.parameters["Inputs"])
        return len(numbers(said)) if said.startswith("[") else int(said)
    return {"Product": 2, "RelationalOperator": 2, "Switch": 3}.get(block.kind, 1)
