"""A model's root ports with what stands of them in its stimulus and response, for the tools."""

import os
import re
import subprocess
from typing import NamedTuple, Optional

from library import number
from mdl import Defaults, Section, read_file
from written import Failed, beside, rows_of, whole

TOP = os.path.dirname(os.path.dirname(os.path.abspath(__file__)))


class Port(NamedTuple):
    """A root port; its traces are its elements: a number at each sample that has one, and else None."""

    name: str
    is_input: bool
    type: str
    traces: list[list[Optional[int]]]


def root_ports(root: Section, kind: str) -> list[tuple[str, str, int]]:
    """The root blocks of this kind in the order of their numbers, as name, type and declared width."""
    defaults, found = Defaults(root), []
    for model in root.all("Model"):
        for block in (it for system in model.all("System") for it in system.all("Block") if it.get("BlockType") == kind):
            value = lambda name, otherwise: (defaults.of(block, name) or (otherwise,))[0]
            wide = number(value("PortDimensions", "1").strip("[ \t]"), 1, 1024) or 1
            found.append((whole(value("Port", "1")), block.get("Name"), value("OutDataTypeStr", ""), wide))
    return [it[1:] for it in sorted(found)]


def traces(rows: list[list[str]], first: int, wide: int) -> list[list[Optional[int]]]:
    return [[None if row[at] == "-" else whole(row[at]) for row in rows] for at in range(first, first + wide)]


def ports_of(rows: list[list[str]], declared: list[tuple[str, str, int]], is_input: bool) -> list[Port]:
    """The columns of rows by port."""
    if any(len(row) != sum(it[2] for it in declared) for row in rows):
        raise Failed(f"the {'stimulus' if is_input else 'response'} doesn't have the columns of the model's ports")
    found, first = [], 0
    for name, kind, wide in declared:
        found.append(Port(name, is_input, kind, traces(rows, first, wide)))
        first += wide
    return found


def answered(command: str, *words: str) -> list[str]:
    """The lines that the program answers."""
    done = subprocess.run([os.path.join(TOP, "tilecatnip"), command, *words], stdout=subprocess.PIPE, text=True)
    if done.returncode:
        raise Failed(f"no {command} of it: status {done.returncode}")
    return done.stdout.splitlines()


def with_widths(path: str, declared: list[tuple[str, str, int]], columns: int) -> list[tuple[str, str, int]]:
    """The root outputs with how many elements each has: the file doesn't say it, so where it is in doubt the program does."""
    if len(declared) == 1 or columns in (0, len(declared)):
        return [(name, kind, max(columns // len(declared), 1)) for name, kind, _ in declared]
    # behind `path` stand blocks of which the last is the Outport
    last = [re.search(r'"(?:[^"\\]|\\.)*"$', line)[0] for line in answered("check", path, "-") if line.startswith("output ")]
    widths = [last.count(port) for port in dict.fromkeys(last)]
    return [(name, kind, wide) for (name, kind, _), wide in zip(declared, widths)]


def case_of(path: str) -> list[Port]:
    """The ports of a model with its stimulus, and its response: the one beside it, or the program's."""
    _, root = read_file(path)
    stimulus, response = rows_of(beside(path, ".stim")), beside(path, ".response")
    if os.path.isfile(response):
        response = rows_of(response)
    else:
        response = [line.split() for line in answered("simulate", path, beside(path, ".stim"))]
    outputs = root_ports(root, "Outport")
    if outputs:
        outputs = with_widths(path, outputs, max(map(len, response), default=0))
    return ports_of(stimulus, root_ports(root, "Inport"), True) + ports_of(response, outputs, False)
