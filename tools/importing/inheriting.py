"""Types by back propagation: that which all readers of a signal, or what they also read, have."""

from collections.abc import Iterator

from . import fixed
from .fixed import FixType
from .group import Rebuild
from .model import Block
from .report import NotYet
from .signals import Signals

PASSED = ("UnitDelay", "Delay", "RateTransition")
SAME = ("RelationalOperator", "Switch", "Sum", "Product")


def readers(block: Block, port: int, seen: set[tuple[int, int]]) -> Iterator[tuple[Block, int]]:
    """The blocks that read a signal, behind those that pass it on with its type."""
    if (id(block), port) in seen:
        return
    seen.add((id(block), port))
    for edge in block.above.readers(block, port):
        reader, number = edge.target, edge.target_port
        declared = fixed.read(str(reader.parameters.get("OutDataTypeStr", "")))
        if reader.kind in PASSED or (reader.kind == "Inport" and not declared):
            yield from readers(reader, 1, seen)
        elif reader.kind == "SubSystem" and isinstance(number, int):
            inner = reader.inner("Inport")
            if number <= len(inner):
                said = fixed.read(str(inner[number - 1].parameters.get("OutDataTypeStr", "")))
                yield from [(inner[number - 1], 0)] if said else readers(inner[number - 1], 1, seen)
        elif reader.kind == "Outport" and not declared and reader.above.block:
            yield from readers(reader.above.block, int(reader.parameters["Port"]), seen)
        elif isinstance(number, int):
            yield reader, number


def wanted(reader: Block, number: int, signals: Signals) -> set[FixType]:
    """The types that a reader needs at an input."""
    declared = fixed.read(str(reader.parameters.get("OutDataTypeStr", "")))
    if reader.kind in ("Inport", "Outport"):
        return {declared} if declared else set()
    same = reader.kind == "Mux" or (reader.kind in SAME and reader.given.get("InputSameDT") == "on")
    others = [port for port in reader.above.drivers(reader) if port != number and isinstance(port, int) and not (reader.kind == "Switch" and 2 in (port, number))]
    found = {signals.types.get(signals.driver(reader, port)) for port in others} if same else set()
    return {kind for kind in found if kind}


def back_propagated(it: Rebuild) -> None:
    """Takes the one type that the readers want."""
    found: set[FixType] = set()
    for reader, number in readers(it.block, 1, set()):
        found |= wanted(reader, number, it.signals)
    if len(found) != 1:
        why = "types that differ are wanted by what reads it" if found else "nothing that reads it has a type that decides it"
        raise NotYet(f"back propagation: {why}")
    kind = found.pop()
    it.block.parameters["OutDataTypeStr"] = str(kind)
    it.block.settled = True
    it.tell(f"OutDataTypeStr by back propagation is {kind}, as its readers want it")
