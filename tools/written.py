"""The written text of a module with its ports, a stimulus, and what a bench drives and sees when."""

import os
import re
from typing import NamedTuple, Optional

MODULE = "fx_model"
# The module with valid and ready.
STREAM = "fx_stream"


class Port(NamedTuple):
    """A port of a written module; those that carry no numbers have no period, and inputs no latency."""

    is_input: bool
    signed: bool
    width: int
    name: str
    period: Optional[int]
    latency: Optional[int]


class Case(NamedTuple):
    """A text with its stimulus; `controls` are the ports that carry no numbers, but for `clk` and `reset`."""

    text: str
    cycles: int
    controls: list[Port]
    ports: list[Port]
    rows: list[list[str]]


class Failed(Exception):
    """A tool that ended with a fault, a file that is missing, or a text that is not understood."""


def attributes(text: Optional[str]) -> dict[str, int]:
    return {name: int(number) for name, number in re.findall(r"(\w+) = (\d+)", text or "")}


def header(text: str) -> tuple[int, list[Port], list[Port]]:
    """The clocks per base sample of a written module, its ports of the clock enable, and those that carry numbers.
    Modules of which it holds instances may stand before it."""
    head = re.search(r"^\(\* ([^\n]*?) \*\)\nmodule (?:" + MODULE + "|" + STREAM + r") \(\n(.*?)\n\);\n", text, re.S | re.M)
    if head is None:
        raise Failed("its header is not understood")
    ports = []
    form = r"(?:  \(\* (.*?) \*\)\n)?  (input|output) wire( signed)?(?: \[(\d+):0\])? (\w+),?"
    for attrs, way, signed, high, name in re.findall(form, head.group(2)):
        told = attributes(attrs)
        port = Port(way == "input", bool(signed), int(high or 0) + 1, name, told.get("fx_period"), told.get("fx_latency"))
        if name not in ("clk", "reset"):
            ports.append(port)
    controls = [port for port in ports if is_bit(port, True, "clk_enable")]
    if controls:
        controls += [port for port in ports if is_bit(port, False, "ce_out")]
    cycles, rest = attributes(head.group(1)).get("fx_cycles"), [port for port in ports if port not in controls]
    if not cycles or any(not port.period or not port.is_input and port.latency is None for port in rest):
        raise Failed("its header lacks an attribute")
    return cycles, controls, rest


def is_bit(port: Port, is_input: bool, name: str) -> bool:
    """Whether a port is an unsigned one of one bit with this name."""
    return port.is_input == is_input and port.name == name and not port.signed and port.width == 1


def stalls(case: Case) -> bool:
    return any(port.is_input for port in case.controls)


def inputs_of(case: Case) -> list[Port]:
    return [port for port in case.ports if port.is_input]


def outputs_of(case: Case) -> list[Port]:
    return [port for port in case.ports if not port.is_input]


def rows_of(path: str) -> list[list[str]]:
    if not os.path.isfile(path):
        raise Failed(f"no {os.path.basename(path)} stands beside it")
    with open(path, encoding="ascii", errors="replace") as file:
        return [line.split() for line in file]


def whole(field: str) -> int:
    """The number of a field."""
    if not re.fullmatch("-?[0-9]{1,64}", field):
        raise Failed(f"{field} stands in place of a number")
    return int(field)


def case_of(path: str) -> Case:
    """The text at a path, with the stimulus that stands beside it. A module with valid and ready is renamed."""
    with open(path, encoding="ascii", errors="replace") as file:
        text = file.read().replace(f"module {STREAM} (", f"module {MODULE} (", 1)
    cycles, controls, ports = header(text)
    stimulus = beside(path, ".stim")
    case = Case(text, cycles, controls, ports, rows_of(stimulus))
    if any(len(row) != len(inputs_of(case)) for row in case.rows):
        raise Failed(f"{os.path.basename(stimulus)} has a line without a field for each of {len(inputs_of(case))} inputs")
    return case


def beside(path: str, ending: str) -> str:
    return os.path.splitext(path)[0] + ending


def declaration(port: Port) -> str:
    sign = " signed" if port.signed else ""
    kind = "reg" if port.is_input else "wire"
    return f"  {kind}{sign} [{port.width - 1}:0] {port.name};"


def instance(case: Case, module: str = MODULE) -> list[str]:
    """A bench's nets, and the module between them."""
    ports = case.controls + case.ports
    names = ["clk", "reset"] + [port.name for port in ports]
    lines = ["  reg clk, reset;"] + [declaration(port) for port in ports]
    return lines + [f"  {module} fx_tested ({', '.join(f'.{name}({name})' for name in names)});"]


def bits(port: Port, number: str) -> int:
    """A number in the port's width, by two's complement."""
    try:
        return whole(number) % 2**port.width
    except Failed as fault:
        raise Failed(f"{port.name}: {fault}") from None


def last_clock(case: Case) -> int:
    """The clock behind the last one at which an output shows a hit."""
    return len(case.rows) * case.cycles + max((port.latency or 0 for port in case.ports), default=0)


def inputs_at(case: Case, clock: int) -> list[tuple[Port, int]]:
    """The inputs that change at a clock, with their bits: those of a hit, and 0 after the last sample."""
    sample, within = divmod(clock, case.cycles)
    if within != 0:
        return []
    if sample >= len(case.rows):
        return [(port, 0) for port in inputs_of(case)]
    shown = zip(inputs_of(case), case.rows[sample])
    return [(port, bits(port, field)) for port, field in shown if sample % port.period == 0]


def outputs_at(case: Case, clock: int) -> list[tuple[Port, int, int]]:
    """The outputs that show a hit first at a clock, each with the hit's sample and its place among them."""
    found = []
    for place, port in enumerate(outputs_of(case)):
        sample, within = divmod(clock - (port.latency or 0), case.cycles)
        if within == 0 and 0 <= sample < len(case.rows) and sample % port.period == 0:
            found.append((port, sample, place))
    return found
