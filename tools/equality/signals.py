"""Widths, types and periods of the flat diagram, by rounds until nothing changes."""

import re
from fractions import Fraction
from typing import Optional

from equality.diagram import INTERNAL, Block, outputs_of, signs, sizes
from equality.values import BIT, BOOLEAN, Type, coefficient, decimal, decimals, full_product, full_sum, type_of, union
from written import Failed

LISTS = {"Constant": "Value", "Gain": "Gain", "UnitDelay": "InitialCondition", "Delay": "InitialCondition", "Switch": "Threshold",
         "RateTransition": "InitialCondition", "EnOut": "InitialOutput"}  # fmt: skip

# The kinds whose type may be declared, those that may have the type of their exact result, and those that
# have the sample time of what they read.
DECLARING = ("Inport", "Outport", "Pass", "EnOut", "Constant", "Sum", "Gain", "Product", "Switch", "DataTypeConversion")
FULL = ("Sum", "Gain", "Product", "Switch")
INHERITING = ("Ground", "Mux", "Demux", "Terminator", "EnableTest")


def list_of(block: Block) -> list[Fraction]:
    """The numbers of a block's list; an initial output of none is 0."""
    return decimals(block.get(LISTS[block.kind])) or [Fraction(0)] if block.kind in LISTS else []


class Signals:
    """What stands at each output of a diagram's blocks. A period is in base samples, None of what never changes."""

    def __init__(self, blocks: list[Block]) -> None:
        self.blocks = blocks
        self.widths = self.widths_of()
        self.types: dict[Block, Type] = {}
        while any([self.take_type(block) for block in blocks]):
            pass
        self.periods = self.periods_of()

    # ---- widths

    def widths_of(self) -> dict[Block, list[int]]:
        found = {block: [declared_width(block)] * outputs_of(block) for block in self.blocks}
        for _ in self.blocks:
            following = {block: self.round(block, found) for block in self.blocks}
            if following == found:
                break
            found = following
        return found

    def round(self, block: Block, found: dict[Block, list[int]]) -> list[int]:
        comes = [found[source][port] for _, (source, port) in sorted(block.drivers.items())]
        if block.kind == "Mux":
            return [sum(comes)]
        if block.kind == "EnableTest":
            return [1]
        if block.kind == "Demux":
            told = sizes(block.get("Outputs"))
            whole, over = divmod(comes[0], len(told))
            return told if any(told) else [whole + (at < over) or 1 for at in range(len(told))]
        return [max([*found[block], *comes, len(list_of(block))])]

    # ---- types

    def inputs(self, block: Block) -> list[Type]:
        return [self.types[source] for source in block.sources]

    def take_type(self, block: Block) -> bool:
        """Whether a block has its type now, and had none before."""
        if block in self.types:
            return False
        told = type_of(block.get("OutDataTypeStr")) if block.kind in DECLARING else None
        if told is None and any(source not in self.types for source in needed(block)):
            return False
        self.types[block] = told or self.inherited(block)
        return True

    def inherited(self, block: Block) -> Type:
        comes = [self.types[source] for source in needed(block)]
        if block.kind in ("RelationalOperator", "Logic", "EnableTest"):
            return BOOLEAN
        if block.kind == "Ground":
            return BIT
        if not comes:
            raise Failed(f"{block.path}: its type is missing")
        if block.kind in FULL and block.get("OutDataTypeStr") == INTERNAL:
            return union(*comes) if block.kind == "Switch" else self.exact(block)
        return comes[0]

    def exact(self, block: Block) -> Type:
        """The type that holds every result of a Sum, Gain or Product."""
        comes = self.inputs(block)
        if block.kind == "Sum":
            return self.accumulator(block) or full_sum(zip(signs(block), comes))
        return full_product(comes[0], self.factor(block) if block.kind == "Gain" else comes[1])

    def accumulator(self, block: Block) -> Optional[Type]:
        """The type in which a Sum adds one input after another, where it has one."""
        told = block.get("AccumDataTypeStr")
        return self.inputs(block)[0] if told == "Inherit: Same as first input" else type_of(told)

    def factor(self, block: Block) -> Type:
        """The type of a Gain's coefficient."""
        told = block.get("ParamDataTypeStr")
        into = self.inputs(block)[0]
        return into if told == "Inherit: Same as input" else type_of(told) or coefficient(into, list_of(block))

    # ---- periods

    def periods_of(self) -> dict[Block, Optional[int]]:
        declared = {block: declared_time(block) for block in self.blocks}
        base = min((time for time in declared.values() if time), default=Fraction(1))
        found: dict[Block, Optional[int]] = {}
        for block, time in declared.items():
            if time is not None:
                found[block] = int(time / base)
            elif block.kind == "Inport":
                found[block] = 1
            elif block.kind in ("Ground", "Constant"):
                found[block] = None
        for _ in self.blocks:
            further = self.further(found)
            if not further:
                break
            found.update(further)
        return {block: found.get(block, 1) for block in self.blocks}

    def further(self, found: dict[Block, Optional[int]]) -> dict[Block, Optional[int]]:
        """The periods that the next round gives."""
        told = {}
        for block in (it for it in self.blocks if it not in found):
            sources = block.sources + [block.enable] * (block.enable is not None)
            finite = [found[source] for source in sources if found.get(source)]
            if finite:
                told[block] = min(finite)
            elif sources and all(source in found for source in sources) and not (block.is_delay or block.kind in ("EnOut", "Outport")):
                told[block] = None
        return told


def needed(block: Block) -> list[Block]:
    """What drives the inputs that an undeclared type follows."""
    sources = block.sources
    if block.kind in ("RelationalOperator", "Logic", "EnableTest"):
        return []
    if block.get("OutDataTypeStr") != INTERNAL:
        return sources[:1]
    return sources[::2] if block.kind == "Switch" else sources


def declared_width(block: Block) -> int:
    told = re.search(r"\d+", block.parameters.get("PortDimensions", "1").replace("-1", "1"))
    return int(told[0]) if told else 1


def declared_time(block: Block) -> Optional[Fraction]:
    """The sample time that a block declares."""
    text = block.get("OutPortSampleTime" if block.kind == "RateTransition" else "SampleTime").strip()
    if block.kind in INHERITING or text in ("-1", "inf"):
        return None
    return decimals(text)[0] if text.startswith("[") else decimal(text)
