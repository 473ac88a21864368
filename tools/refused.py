"""What rules 1 to 3 refuse of a model: all of it, each with its line, where the program tells the first.

It is no part of what is proved: it restates docs/RULES.md and the tables of docs/FORMATS.md.
"""

from collections import Counter
from typing import Iterator, NamedTuple

from library import BLANKS, LIBRARY, Parameter, are_states, number, taps_of
from mdl import Defaults, Section, branches_of, shown, step_of
from remedies import of_parameter, of_type

MOST_BLOCKS, MOST_LEVELS = 20000, 64
STRUCTURE, LIBRARY_RULE, PARAMETER = "rule 1 (structure)", "rule 2 (library)", "rule 3 (parameter)"
# How much of a value is shown.
MOST_SHOWN = 60


class Refused(NamedTuple):
    """A fault with its line, its rule, its place, and what is said of it."""

    line: int
    rule: str
    place: str
    said: str

    def __str__(self) -> str:
        return f"{self.rule}: {self.place}: {self.said}"


class Place(NamedTuple):
    """A System with the path above it, and its level from 1."""

    system: Section
    path: str
    level: int


def brief(text: str) -> str:
    """A value as it is shown: a long one is cut."""
    return shown(text if len(text) <= MOST_SHOWN else text[:MOST_SHOWN] + "..")


def places(root: Section) -> Iterator[Place]:
    """All Systems that count, in the order of the file."""
    left = [Place(system, "", 1) for model in root.all("Model") for system in model.all("System")][::-1]
    while left:
        place = left.pop()
        yield place
        inner = [
            Place(system, f"{place.path}{step_of(block)}/", place.level + 1)
            for block in place.system.all("Block")
            if block.get("BlockType") == "SubSystem"
            for system in block.all("System")
        ]
        left += inner[::-1]


def of_roots(root: Section) -> Iterator[Refused]:
    """Models and root Systems beside the first, or none."""
    models = root.all("Model")
    systems = [system for model in models for system in model.all("System")]
    for found, name in ((models, "Model"), (systems, "System of the model")):
        if not found:
            yield Refused(models[0].line if models else 1, STRUCTURE, "model", f"there is no {name}; allowed: one; remedy: save the model whole")
        for section in found[1:]:
            yield Refused(section.line, STRUCTURE, "model", f"a second {name}; allowed: one; remedy: a file for each model")


def extent_of(block: Section, defaults: Defaults) -> int:
    """How many blocks a block stands for: a filter for its subsystem and what stands in that."""
    if block.get("BlockType") != "DiscreteFir":
        return 1
    taps = taps_of(value_of(block, LIBRARY["DiscreteFir"][0], defaults)[0])
    return 1 if taps is None else 2 * taps + 3


def too_deep(line: int) -> Refused:
    return Refused(line, STRUCTURE, "model", f"a System deeper than {MOST_LEVELS}; allowed: {MOST_LEVELS}; remedy: expand subsystems")


def of_sizes(found: list[Place], defaults: Defaults) -> Iterator[Refused]:
    """Systems that are too deep, that of a filter among them, and blocks that are too many."""
    blocks = 0
    for place in found:
        if place.level == MOST_LEVELS + 1:
            yield too_deep(place.system.line)
        for block in place.system.all("Block"):
            if place.level == MOST_LEVELS and block.get("BlockType") == "DiscreteFir":
                yield too_deep(block.line)
            before, blocks = blocks, blocks + extent_of(block, defaults)
            if before <= MOST_BLOCKS < blocks:
                yield Refused(block.line, STRUCTURE, "model", f"more than {MOST_BLOCKS} blocks; allowed: {MOST_BLOCKS}; remedy: a model for each part")


def of_end(section: Section, end: str, names: set[str], words: tuple[str, ...]) -> Iterator[tuple[int, str]]:
    """What is wrong with one end of a line, by the names of its System and the words that a port may be."""
    name, port = section.get(f"{end}Block"), section.get(f"{end}Port", "1")
    if name not in names:
        said = f"{end}Block {brief(name)} names no block of its System; remedy: name one, or drop the line"
        yield section.lines[f"{end}Block"], said
    if port not in words and number(port, 1, MOST_BLOCKS) is None:
        allowed = " or ".join([f"a whole number from 1 to {MOST_BLOCKS}", *words])
        remedy = "such a subsystem isn't in the library: rebuild it of enabled ones" if port[:1].isalpha() else "number the port"
        yield section.lines[f"{end}Port"], f"{end}Port {brief(port)}; allowed: {allowed}; remedy: {remedy}"


def of_lines(place: Place) -> Iterator[Refused]:
    """Lines with an end that isn't of a block and a port."""
    names = {block.get("Name") for block in place.system.all("Block") if "Name" in block.parameters}
    where = shown(place.path.removesuffix("/")) if place.path else "the root"
    for line in place.system.all("Line"):
        if "SrcBlock" not in line.parameters:
            continue
        faults = list(of_end(line, "Src", names, ()))
        for branch in branches_of(line):
            if "DstBlock" in branch.parameters:
                faults += of_end(branch, "Dst", names, ("enable",))
        for at, said in faults:
            yield Refused(at, STRUCTURE, "model", f"a line in {where}: {said}")


def of_block(block: Section, path: str, stood: Counter) -> Iterator[Refused]:
    """A block without type or name, with an earlier one's name, or a SubSystem without one System."""
    for name in ("BlockType", "Name"):
        if name not in block.parameters:
            yield Refused(block.line, STRUCTURE, path, f"a block without a {name}; remedy: give it one")
    if "Name" in block.parameters:
        if stood[block.get("Name")]:
            yield Refused(block.lines["Name"], STRUCTURE, path, "an earlier block of its System has this name; remedy: rename one")
        stood[block.get("Name")] += 1
    if block.get("BlockType") == "SubSystem" and len(block.all("System")) != 1:
        said = f"a SubSystem with {len(block.all('System'))} Systems; allowed: one; remedy: break a link to a library, so that its blocks stand in the file"
        yield Refused(block.line, STRUCTURE, path, said)


def value_of(block: Section, parameter: Parameter, defaults: Defaults) -> tuple[str, int]:
    """The value that counts, and its line: that of the block where it is a default."""
    names = (parameter.name, "X0") if parameter.name == "InitialCondition" else (parameter.name,)
    for section in defaults.sections_of(block):
        for name in names:
            if name in section.parameters:
                return section.parameters[name], section.lines[name]
    return parameter.default, block.line


def is_read(kind: str, parameter: Parameter, value: str, first: str) -> bool:
    """Whether a value reads, where the first parameter of the block has this one."""
    if (kind, parameter.name, first) == ("Logic", "Inputs", "NOT"):
        return True
    if parameter.name == "InitialStates":
        return are_states(value, first)
    return parameter.reader.reads(value)


def of_parameters(block: Section, path: str, defaults: Defaults) -> Iterator[Refused]:
    """A type that isn't in the library, or parameters that don't read."""
    kind = block.get("BlockType")
    if "BlockType" not in block.parameters:
        return
    if kind not in LIBRARY:
        said = f"{kind if kind.isidentifier() else brief(kind)}; allowed: the block types of docs/FORMATS.md; remedy: {of_type(kind)}"
        yield Refused(block.lines["BlockType"], LIBRARY_RULE, path, said)
        return
    first = value_of(block, LIBRARY[kind][0], defaults)[0] if LIBRARY[kind] else ""
    for parameter in LIBRARY[kind]:
        value, line = value_of(block, parameter, defaults)
        if not is_read(kind, parameter, value, first):
            remedy = of_parameter(parameter.name, value.strip(BLANKS))
            yield Refused(line, PARAMETER, path, f"{parameter.name} {brief(value)}; allowed: {parameter.reader.allowed}; remedy: {remedy}")


def refused(root: Section) -> list[Refused]:
    """All that rules 1 to 3 refuse, by lines."""
    found, defaults = list(places(root)), Defaults(root)
    faults = [*of_roots(root), *of_sizes(found, defaults)]
    for place in found:
        faults += of_lines(place)
        stood: Counter = Counter()
        for block in place.system.all("Block"):
            path = shown(place.path + step_of(block)) if place.path + step_of(block) else "model"
            faults += of_block(block, path, stood)
            faults += of_parameters(block, path, defaults)
    return sorted(faults)
