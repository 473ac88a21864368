"""The text of a check (docs/FORMATS.md) as its parts, and the types of a model's root ports by it."""

import re
from typing import NamedTuple, Optional

from library import FixedType, number, type_of
from mdl import Section, branches_of, step_of, systems
from program import answer
from written import Failed

QUOTED = r'"(?:[^"\\]|\\.)*"'


class Block(NamedTuple):
    """A block of the flat diagram: its period in base samples, none where it never changes, its latency
    in base samples, and type and width of each output."""

    path: str
    period: Optional[int]
    latency: int
    outputs: list[tuple[str, int]]


class Output(NamedTuple):
    """An element of a root output: its name in the module, its latency in clocks, and a path that makes it so late."""

    name: str
    clocks: int
    path: list[str]


class Checked(NamedTuple):
    """A design by its check; paths are texts without quotes."""

    cycles: int
    multipliers: int
    blocks: dict[str, Block]
    outputs: list[Output]


class Port(NamedTuple):
    """A root port with its type, the number of its elements and its period in base samples."""

    name: str
    type: FixedType
    width: int
    period: int

    def names(self) -> list[str]:
        """A name for each element."""
        return [self.name] if self.width == 1 else [f"{self.name}_{at}" for at in range(self.width)]


def unquoted(text: str) -> str:
    return re.sub(r"\\(.)", lambda it: {"n": "\n", "t": "\t"}.get(it[1], it[1]), text[1:-1], flags=re.S)


def checked(text: str) -> Checked:
    """The parts of a check's text."""
    head = re.match(r"accepted cycles (\d+) multipliers (\d+)\n", text)
    if head is None:
        raise Failed("`check` writes no such text")
    blocks = {}
    for path, period, latency, rest in re.findall(rf"^block ({QUOTED}) period (\d+|inf) latency (\d+)(.*)$", text, re.M):
        words = rest.split()
        ports = list(zip(words[::2], map(int, words[1::2])))
        blocks[unquoted(path)] = Block(unquoted(path), None if period == "inf" else int(period), int(latency), ports)
    found = re.findall(rf"^output (\S+) clocks (\d+) path((?: {QUOTED})+)$", text, re.M)
    outputs = [Output(name, int(clocks), [unquoted(it) for it in re.findall(QUOTED, path)]) for name, clocks, path in found]
    return Checked(int(head[1]), int(head[2]), blocks, outputs)


def root_blocks(root: Section, kind: str) -> list[Section]:
    """The root blocks of a type by the numbers of their ports."""
    [system, *_] = [system for system, above in systems(root) if not above] or [Section("", 0)]
    found = [it for it in system.all("Block") if it.get("BlockType") == kind]
    return sorted(found, key=lambda it: number(it.get("Port", "1"), 1, 20000) or 0)


def driver_of(system: Section, name: str) -> tuple[Section, int]:
    """The block, and the number of its port, that drives the only input of another."""
    for line in system.all("Line"):
        if any(it.get("DstBlock") == name for it in branches_of(line)):
            source = next((it for it in system.all("Block") if it.get("Name") == line.get("SrcBlock")), None)
            if source is not None:
                return source, number(line.get("SrcPort", "1"), 1, 20000) or 1
    raise Failed(f"nothing drives {name}")


def of_output(root: Section, outport: Section, found: Checked) -> tuple[str, int]:
    """The type and the width of what drives a root Outport."""
    [system, *_] = [system for system, above in systems(root) if not above]
    source, port = driver_of(system, outport.get("Name"))
    path = step_of(source)
    if source.get("BlockType") == "SubSystem":
        inner = [it for it in source.all("System")[0].all("Block") if it.get("BlockType") == "Outport" and (number(it.get("Port", "1"), 1, 20000) or 1) == port]
        path, port = f"{path}/{step_of(inner[0])}", 1
    return found.blocks[path].outputs[port - 1]


def root_ports(path: str, root: Section, kind: str) -> list[Port]:
    """The root ports of a model, inputs (`Inport`) or outputs (`Outport`), as the program checks them."""
    found, ports = checked(answer("check", path, "-")), []
    for block in root_blocks(root, kind):
        row = found.blocks[step_of(block)]
        said, width = row.outputs[0] if kind == "Inport" else of_output(root, block, found)
        made = type_of(said)
        if made is None:
            raise Failed(f"{block.get('Name')} has no type")
        ports.append(Port(block.get("Name"), made, width, row.period or 1))
    return ports
