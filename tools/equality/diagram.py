"""The blocks of a model without its subsystems, and what drives each of their inputs."""

import re
from dataclasses import dataclass, field
from typing import Optional

from equality.values import elements, type_of
from mdl import Defaults, Section, read_file, step_of, systems_of
from written import Failed, whole

# What each block type has where the file says nothing (docs/FORMATS.md, "Block types and parameters").
INTERNAL = "Inherit: Inherit via internal rule"
DEFAULTS = {
    "Inport": {"Port": "1", "PortDimensions": "-1"},
    "Outport": {"Port": "1", "OutputWhenDisabled": "held", "InitialOutput": "[]"},
    "Constant": {"Value": "1", "SampleTime": "inf"},
    "Sum": {"Inputs": "++", "AccumDataTypeStr": INTERNAL, "OutDataTypeStr": INTERNAL},
    "Gain": {"Gain": "1", "ParamDataTypeStr": INTERNAL, "OutDataTypeStr": INTERNAL},
    "Product": {"OutDataTypeStr": INTERNAL},
    "UnitDelay": {"InitialCondition": "0"},
    "Delay": {"DelayLength": "2", "InitialCondition": "0"},
    "Switch": {"Criteria": "u2 >= Threshold", "Threshold": "0", "OutDataTypeStr": INTERNAL},
    "RelationalOperator": {"Operator": "<="},
    "Logic": {"Operator": "AND", "Inputs": "2"},
    "DataTypeConversion": {"ConvertRealWorld": "Real World Value (RWV)"},
    "Mux": {"Inputs": "4"},
    "Demux": {"Outputs": "4"},
    "RateTransition": {"InitialCondition": "0"},
    "EnablePort": {"StatesWhenEnabling": "held"},
    "DiscreteFir": {"Coefficients": "[0.5 0.5]", "InitialStates": "0", "CoefDataTypeStr": "Inherit: Same word length as input", "OutDataTypeStr": INTERNAL},
}
COMMON = {"OutDataTypeStr": "", "RndMeth": "Floor", "SaturateOnIntegerOverflow": "off", "SampleTime": "-1"}
TWO_INPUTS = ("Product", "RelationalOperator")


@dataclass(eq=False)
class Block:
    """A block of the flat diagram. An inner port is a `Pass`, or of an enabled subsystem's outputs an
    `EnOut`; an EnablePort is an `EnableTest`. The drivers are blocks with their output ports, from 0."""

    path: str
    kind: str
    parameters: dict[str, str]
    enable: Optional["Block"] = None
    drivers: dict[int, tuple["Block", int]] = field(default_factory=dict, repr=False)

    def get(self, name: str) -> str:
        return self.parameters[name]

    @property
    def sources(self) -> list["Block"]:
        """What drives it, in the order of its inputs."""
        return [self.drivers[at][0] for at in sorted(self.drivers)]

    @property
    def resets(self) -> bool:
        """Whether it begins anew when its subsystem is enabled again."""
        if self.kind == "EnOut":
            return self.get("OutputWhenDisabled") == "reset"
        return self.enable is not None and self.enable.get("StatesWhenEnabling") == "reset"

    @property
    def is_delay(self) -> bool:
        return self.kind in ("UnitDelay", "Delay")

    @property
    def length(self) -> int:
        return whole(self.get("DelayLength")) if self.kind == "Delay" else 1


class Reader:
    """Takes the subsystems of a model apart."""

    def __init__(self, root: Section) -> None:
        self.defaults, self.blocks = Defaults(root), []

    def parameters(self, section: Section) -> dict[str, str]:
        kind = section.get("BlockType")
        names = {**COMMON, **DEFAULTS.get(kind, {}), "OutPortSampleTime": "-1"}
        found = {name: (self.defaults.of(section, name) or (otherwise,))[0] for name, otherwise in names.items()}
        if "InitialCondition" in found:
            own = (section, self.defaults.by_type.get(kind))
            told = [it.parameters[name] for it in own if it for name in ("InitialCondition", "X0") if name in it.parameters]
            found["InitialCondition"] = told[0] if told else "0"
        return found

    def system(self, system: Section, above: list[str], enable: Optional[Block], is_root: bool) -> tuple[dict, dict, Optional[Block]]:
        """Reads a system; gives its inner inputs and outputs by number, and its test of the enable."""
        sections = {it.get("Name"): it for it in system.all("Block")}
        path = lambda section: "/".join(above + [step_of(section)])
        ports = [it for it in sections.values() if it.get("BlockType") == "EnablePort"]
        own = Block(path(ports[0]), "EnableTest", self.parameters(ports[0])) if ports else None
        enable, found, inner = own or enable, {}, {}
        for name, section in sections.items():
            kind = section.get("BlockType")
            if kind == "EnablePort":
                self.blocks.append(own)
                continue
            if kind == "SubSystem":
                inner[name] = self.system(systems_of(section)[0], above + [step_of(section)], enable, False)
                continue
            if not is_root and kind in ("Inport", "Outport"):
                kind = "EnOut" if kind == "Outport" and own else "Pass"
            if kind == "DiscreteFir":
                inner[name] = self.filter(path(section), self.parameters(section), enable)
                continue
            found[name] = Block(path(section), kind, self.parameters(section), enable)
            self.blocks.append(found[name])
        self.join(system, found, inner)
        by_number = lambda kind: {whole(found[name].get("Port")): found[name] for name, it in sections.items() if it.get("BlockType") == kind}
        return by_number("Inport"), by_number("Outport"), own

    def filter(self, path: str, told: dict[str, str], enable: Optional[Block]) -> tuple[dict, dict, Optional[Block]]:
        """A discrete FIR filter as delays in a chain, a gain of each, and their sum."""
        taps, states = elements(told["Coefficients"]), elements(told["InitialStates"])
        states = states if len(states) > 1 else states * (len(taps) - 1)
        factor = told["CoefDataTypeStr"] if type_of(told["CoefDataTypeStr"]) else INTERNAL

        def made(name: str, kind: str, **own: str) -> Block:
            self.blocks.append(Block(f"{path}/{name}", kind, {**COMMON, **DEFAULTS.get(kind, {}), **own}, enable))
            return self.blocks[-1]

        chain = [made("in", "Pass", OutDataTypeStr="Inherit: auto")]
        for at, state in enumerate(states, 1):
            chain.append(made(f"d{at}", "UnitDelay", InitialCondition=state))
            chain[at].drivers[0] = (chain[at - 1], 0)
        total = Block(f"{path}/sum", "Sum", {**told, **DEFAULTS["Sum"], "Inputs": "+" * len(taps), "OutDataTypeStr": told["OutDataTypeStr"]}, enable)
        for at, tap in enumerate(taps):
            gain = made(f"c{at}", "Gain", Gain=tap, ParamDataTypeStr=factor)
            gain.drivers[0], total.drivers[at] = (chain[at], 0), (gain, 0)
        self.blocks.append(total)
        out = made("out", "Pass", OutDataTypeStr="Inherit: auto")
        out.drivers[0] = (total, 0)
        return {1: chain[0]}, {1: out}, None

    def join(self, system: Section, found: dict[str, Block], inner: dict[str, tuple]) -> None:
        for line in system.all("Line"):
            name, port = line.get("SrcBlock"), whole(line.get("SrcPort", "1"))
            if "SrcBlock" not in line.parameters:
                continue
            driver = (inner[name][1][port], 0) if name in inner else (found[name], port - 1)
            left = [line]
            while left:
                end = left.pop()
                left += end.all("Branch")
                if "DstBlock" in end.parameters:
                    self.end(end, driver, found, inner)

    def end(self, end: Section, driver: tuple[Block, int], found: dict[str, Block], inner: dict[str, tuple]) -> None:
        name, port = end.get("DstBlock"), end.get("DstPort", "1")
        if port == "enable":
            inner[name][2].drivers[0] = driver
        elif name in inner:
            inner[name][0][whole(port)].drivers[0] = driver
        else:
            found[name].drivers[whole(port) - 1] = driver


def signs(block: Block) -> list[bool]:
    """Of a Sum's inputs, which are subtracted."""
    text = re.sub(r"[\s|]", "", block.get("Inputs"))
    return [sign == "-" for sign in text] if not text.isdigit() else [False] * int(text)


def sizes(text: str) -> list[int]:
    """The sizes of a Mux or Demux, or so many noughts where it says their number alone."""
    inside = re.fullmatch(r"\s*\[(.*)\]\s*", text, re.S)
    return [int(word) for word in re.split(r"[\s,;]+", inside[1].strip())] if inside else [0] * int(text)


def inputs_of(block: Block) -> int:
    """How many inputs a block has."""
    if block.kind in ("Inport", "Constant", "Ground"):
        return 0
    if block.kind in TWO_INPUTS:
        return 2
    if block.kind == "Sum":
        return len(signs(block))
    if block.kind == "Switch":
        return 3
    if block.kind == "Logic":
        return 1 if block.get("Operator") == "NOT" else whole(block.get("Inputs"))
    return len(sizes(block.get("Inputs"))) if block.kind == "Mux" else 1


def outputs_of(block: Block) -> int:
    """How many outputs a block has."""
    return len(sizes(block.get("Outputs"))) if block.kind == "Demux" else int(block.kind not in ("Outport", "Terminator", "EnableTest")) or 1


def read(path: str) -> list[Block]:
    """The flat diagram of a model's file, which keeps the program's rules of structure."""
    _, root = read_file(path)
    reader = Reader(root)
    try:
        reader.system(root.all("Model")[0].all("System")[0], [], None, True)
    except (IndexError, KeyError, AttributeError) as fault:
        raise Failed(f"the model isn't understood: {fault!r}") from None
    for block in reader.blocks:
        if sorted(block.drivers) != list(range(inputs_of(block))):
            raise Failed(f"{block.path}: an input has no driver")
    return reader.blocks
