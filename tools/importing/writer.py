"""Writes a model of the profile as classic MDL text, for a person to read."""

from collections.abc import Iterator
from fractions import Fraction

from .model import Block, Model, System
from .profile import TABLE, is_default
from .report import Place, Refusal, Report
from .settings import told

MOST_TIMES = 4096
UPRIGHT = ("Position", "Orientation", "BlockMirror")


def quoted(text: str) -> str:
    text = text.replace("\\", "\\\\").replace('"', '\\"').replace("\n", "\\n").replace("\t", "\\t")
    return f'"{text}"'


class Periods:
    """Sample times as whole multiples of the least."""

    def __init__(self, model: Model, report: Report):
        periods = [(block, name, value) for block in model.blocks() for name, value in block.parameters.items() if isinstance(value, Fraction)]
        self.least = min((value for _, _, value in periods), default=Fraction(1))
        for block, name, value in periods:
            times = value / self.least
            if times.denominator != 1 or times > MOST_TIMES:
                why = f"no whole multiple of the least sample time {told(self.least)}, up to {MOST_TIMES} times"
                report.refuse(block.place(name), Refusal(why, "sample times that are", name, told(value)))
        if self.least != 1 and periods:
            report.tell(Place(1), f"a base sample is {told(self.least)}: sample times are written as multiples of it")

    def spelled(self, value: Fraction) -> str:
        return str(value / self.least)


class Writer:
    """Writes lines with two blanks for each section that is open."""

    def __init__(self, periods: Periods):
        self.periods, self.lines, self.depth = periods, [], 0

    def put(self, text: str) -> None:
        self.lines.append("  " * self.depth + text)

    def begin(self, name: str) -> None:
        self.put(name + " {")
        self.depth += 1

    def end(self) -> None:
        self.depth -= 1
        self.put("}")

    def pair(self, name: str, value: str) -> None:
        self.put(f"{name} {value}")

    def model(self, model: Model, said: str) -> str:
        self.begin("Model")
        self.pair("Name", quoted(model.name))
        self.pair("SavedCharacterEncoding", quoted("UTF-8"))
        self.system(model.root, model.name, said)
        self.end()
        return "\n".join(self.lines) + "\n"

    def system(self, system: System, name: str, said: str = "") -> None:
        self.begin("System")
        self.pair("Name", quoted(name))
        for block in system.blocks:
            self.block(block)
        for target, port, source, source_port in self.ends(system):
            self.begin("Line")
            self.pair("SrcBlock", quoted(source.name))
            self.pair("SrcPort", str(source_port))
            self.pair("DstBlock", quoted(target.name))
            self.pair("DstPort", str(port))
            self.end()
        if said:
            self.begin("Annotation")
            self.pair("Name", quoted(said))
            self.pair("Position", "[20, 15]")
            self.end()
        self.end()

    @staticmethod
    def ends(system: System) -> Iterator[tuple[Block, int | str, Block, int | str]]:
        order = {id(block): number for number, block in enumerate(system.blocks)}
        for edge in sorted(system.edges, key=lambda it: (order[id(it.target)], str(it.target_port).rjust(9))):
            yield edge.target, edge.target_port, edge.source, edge.source_port

    def block(self, block: Block) -> None:
        self.begin("Block")
        self.pair("BlockType", block.kind)
        self.pair("Name", quoted(block.name))
        for name in UPRIGHT:
            said = block.given.get(name, "")
            if said and said not in ("right", "off"):
                self.pair(name, " ".join(said.split()) if said.startswith("[") else quoted(said))
        for name, value in block.parameters.items():
            text = self.periods.spelled(value) if isinstance(value, Fraction) else value
            if block.kind not in TABLE or not is_default(block.kind, name, value):
                self.pair(name, quoted(text))
        if block.system:
            self.system(block.system, block.name)
        self.end()
