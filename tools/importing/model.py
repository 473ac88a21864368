"""The tree of a model: systems, blocks, and lines as edges from ports to ports."""

from collections.abc import Iterator
from dataclasses import dataclass, field
from fractions import Fraction

from .report import NotText, Place
from .sections import Section
from .values import Value

Port = int | str
"""A port's number, or the word of one that is no plain input."""


@dataclass(eq=False)
class Block:
    """A block. `given` is what the file says, `parameters` what the profile is told."""

    kind: str
    name: str
    given: dict[str, str] = field(default_factory=dict)
    lines: dict[str, int] = field(default_factory=dict)
    line: int = 0
    part: str = ""
    parameters: dict[str, str | Fraction] = field(default_factory=dict)
    system: "System | None" = None
    above: "System | None" = None
    settled: bool = False
    masks: list[Section] = field(default_factory=list)
    has_defaults: bool = True

    @property
    def path(self) -> str:
        steps, block = [], self
        while block is not None:
            steps.insert(0, block.name.replace("/", "//"))
            block = block.above.block if block.above else None
        return "/".join(steps)

    def place(self, parameter: str = "") -> Place:
        return Place(self.lines.get(parameter, self.line), self.part, self.path)

    def inner(self, kind: str) -> list["Block"]:
        """A subsystem's ports, in the order of their numbers."""
        found = [it for it in self.system.blocks if it.kind == kind] if self.system else []
        return sorted(found, key=lambda it: number_of(it))


def number_of(block: Block) -> int:
    said = str(block.parameters.get("Port") or block.given.get("Port") or "1")
    return int(said) if said.isdigit() and len(said) < 9 else 0


@dataclass(eq=False)
class Edge:
    source: Block
    source_port: Port
    target: Block
    target_port: Port


@dataclass(eq=False)
class System:
    blocks: list[Block] = field(default_factory=list)
    edges: list[Edge] = field(default_factory=list)
    block: Block | None = None
    names: dict[str, Value] = field(default_factory=dict)
    hides: set[str] = field(default_factory=set)

    def driver(self, block: Block, port: Port) -> tuple[Block, Port] | None:
        return next(((it.source, it.source_port) for it in self.edges if it.target is block and it.target_port == port), None)

    def readers(self, block: Block, port: Port | None = None) -> list[Edge]:
        return [it for it in self.edges if it.source is block and port in (None, it.source_port)]

    def drivers(self, block: Block) -> dict[Port, tuple[Block, Port]]:
        return {it.target_port: (it.source, it.source_port) for it in self.edges if it.target is block}

    def drop(self, block: Block) -> None:
        self.blocks.remove(block)
        self.edges = [it for it in self.edges if block not in (it.source, it.target)]

    def free(self, name: str) -> str:
        """The name, or that with the least number behind it that no block has."""
        taken = {it.name for it in self.blocks}
        count = 2
        found = name
        while found in taken:
            found, count = f"{name} {count}", count + 1
        return found


@dataclass
class Model:
    name: str
    root: System
    section: Section
    lost: list[tuple[Place, str]]

    def systems(self) -> Iterator[System]:
        left = [self.root]
        while left:
            system = left.pop(0)
            yield system
            left += [it.system for it in system.blocks if it.system]

    def blocks(self) -> Iterator[Block]:
        for system in self.systems():
            yield from list(system.blocks)


def ends(section: Section) -> Iterator[tuple[str, Port, int]]:
    """The ends of a line and of its branches: block, port and line."""
    if "DstBlock" in section.parameters:
        said = section.get("DstPort", "1")
        yield section.get("DstBlock"), int(said) if said.isdigit() else said, section.lines["DstBlock"]
    for branch in section.all("Branch"):
        yield from ends(branch)


class Builder:
    """Makes the tree of the sections of a file."""

    def __init__(self, model: Section):
        self.model = model
        self.lost: list[tuple[Place, str]] = []
        found = [it for section in model.all("BlockParameterDefaults")[:1] for it in section.all("Block")]
        self.defaults: dict[str, Section] = {}
        for section in found:
            self.defaults.setdefault(section.get("BlockType"), section)

    def block(self, section: Section, above: System) -> Block:
        kind, name = section.get("BlockType"), section.get("Name")
        if not kind or "Name" not in section.parameters:
            raise NotText(f"{section.part} line {section.line}: a block without a type or a name")
        defaults = self.defaults.get(kind)
        given = {**(defaults.parameters if defaults else {}), **section.parameters}
        lines = {**(defaults.lines if defaults else {}), **section.lines}
        for inner in section.all("InstanceData"):
            given.update(inner.parameters)
            lines.update(inner.lines)
        if "X0" in section.parameters and "InitialCondition" not in section.parameters:
            given["InitialCondition"], lines["InitialCondition"] = section.get("X0"), section.lines["X0"]
        elif "X0" in given:
            given.setdefault("InitialCondition", given["X0"])
        block = Block(kind, name, given, lines, section.line, section.part, above=above, has_defaults=defaults is not None)
        block.masks = section.all("Mask") + [it for it in section.all("Object") if "Simulink.Mask" in (it.get("$ClassName"), it.get("ClassName"))]
        systems = section.all("System") if kind == "SubSystem" else []
        if len(systems) > 1:
            raise NotText(f"{section.part} line {section.line}: a subsystem with {len(systems)} systems")
        if kind == "SubSystem":
            block.system = self.system(systems[0] if systems else Section("System", section.line), block)
        return block

    def system(self, section: Section, block: Block | None) -> System:
        system = System(block=block)
        for inner in section.all("Block"):
            system.blocks.append(self.block(inner, system))
        by_name: dict[str, Block] = {}
        for inner_block in system.blocks:
            if by_name.setdefault(inner_block.name, inner_block) is not inner_block:
                raise NotText(f"line {inner_block.line}: two blocks of the name {inner_block.path}")
        for line in section.all("Line"):
            self.line(line, system, by_name)
        return system

    def line(self, section: Section, system: System, by_name: dict[str, Block]) -> None:
        path = system.block.path if system.block else "model"
        place = Place(section.line, section.part, path)
        if "SrcBlock" not in section.parameters:
            self.lost.append((place, "a line without a source is dropped"))
            return
        source, said = by_name.get(section.get("SrcBlock")), section.get("SrcPort", "1")
        targets = list(ends(section))
        for name in [section.get("SrcBlock")] * (source is None) + [name for name, _, _ in targets if name not in by_name]:
            raise NotText(f"{section.part} line {section.line}: a line names {name}, which is no block there")
        if not targets:
            self.lost.append((place, f"a line of {section.get('SrcBlock')} without an end is dropped"))
        for name, port, _ in targets:
            system.edges.append(Edge(source, int(said) if said.isdigit() else said, by_name[name], port))


def build(root: Section) -> Model:
    """The tree of a file's only model; raises NotText where it isn't one."""
    models = root.all("Model")
    if len(models) != 1:
        raise NotText("no Model" if not root.all("Library") else "a library, and no Model")
    systems = models[0].all("System")
    if len(systems) != 1:
        raise NotText(f"a Model with {len(systems)} systems")
    builder = Builder(models[0])
    return Model(models[0].get("Name"), builder.system(systems[0], None), models[0], builder.lost)
