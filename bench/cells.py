"""The slowest path of a design in cells of a device, as Yosys writes it in JSON, by one table of delays, without wires."""

from typing import Any, Optional

Cell = dict[str, Any]
# Nanoseconds from an input to the output of a cell; a level is one of those that count.
DELAYS = {"LUT": 0.9, "CARRY4": 0.1, "MUXF": 0.3, "DSP48E1": 4.0, "INV": 0.0, "SB_LUT4": 1.2, "SB_CARRY": 0.13, "SB_MAC16": 6.0}
LEVELS = ("LUT", "DSP48E1", "SB_LUT4", "SB_MAC16")
STORING = ("FD", "SB_DFF", "SRL")
# Of a multiplier the parameters that put a register behind it; those before it are named by their inputs.
BEHIND = {"PREG": (1, 2), "MREG": (1,), "TOPOUTPUT_SELECT": (1,), "PIPELINE_16x16_MULT_REG1": (1,), "PIPELINE_16x16_MULT_REG2": (1,)}


def kind_of(cell: str, table: tuple[str, ...]) -> Optional[str]:
    return next((kind for kind in table if cell.startswith(kind)), None)


def parameter(cell: Cell, name: str) -> int:
    told = cell.get("parameters", {}).get(name, "0")
    return int(told, 2) if isinstance(told, str) and set(told) <= {"0", "1"} else int(told) if isinstance(told, int) else 0


def is_behind(cell: Cell) -> bool:
    """Whether a register stands behind a cell's logic, inside of it."""
    return any(parameter(cell, name) in numbers for name, numbers in BEHIND.items())


def is_before(cell: Cell, port: str) -> bool:
    """Whether a register stands behind an input, inside of the cell."""
    return any(parameter(cell, name) for name in (f"{port}REG", f"{port}_REG"))


def bits_of(cell: Cell, direction: str) -> list[int]:
    """The bits at the ports of a direction, but for those that a register of the cell takes."""
    ports = [port for port, way in cell["port_directions"].items() if way == direction and not (way == "input" and is_before(cell, port))]
    return [bit for port in ports for bit in cell["connections"].get(port, ()) if isinstance(bit, int)]


def longest(cells: list[Cell]) -> tuple[int, float]:
    """The levels and the delay of the slowest path between registers, inputs and outputs.

    A multiplier with a register behind it ends a path. Fails where paths come round.
    """
    logic = [cell for cell in cells if kind_of(cell["type"], STORING) is None]
    drivers = {bit: at for at, cell in enumerate(logic) if not is_behind(cell) for bit in bits_of(cell, "output")}
    found: dict[int, tuple[float, int]] = {}
    begun: set[int] = set()
    for first in range(len(logic)):
        left = [first]
        while left:
            at = left[-1]
            reads = {drivers[bit] for bit in bits_of(logic[at], "input") if bit in drivers} if at not in found else set()
            wanted = [it for it in reads if it not in found]
            if wanted and at in begun:
                raise ValueError(f"a path through a {logic[at]['type']} comes round")
            begun.add(at)
            left += wanted
            if not wanted:
                left.pop()
                found.setdefault(at, behind(logic[at], [found[it] for it in reads]))
    delay, levels = max(found.values(), default=(0.0, 0))
    return levels, delay


def behind(cell: Cell, before: list[tuple[float, int]]) -> tuple[float, int]:
    """The delay and the levels up to a cell's outputs, by those up to what it reads."""
    delay, levels = max(before, default=(0.0, 0))
    kind = kind_of(cell["type"], tuple(DELAYS))
    return delay + DELAYS.get(kind or "", 0.0), levels + (kind in LEVELS)
