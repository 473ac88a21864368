"""A discrete FIR filter as the subsystem that it stands for (docs/FORMATS.md), for the tools.

It is no part of what is proved: that the program takes a filter apart in the same way is not said here.
"""

from library import INTERNAL, LIBRARY, WORD_LENGTH, are_states, elements_of, taps_of
from mdl import Defaults, Section, systems

KIND = "DiscreteFir"
DEFAULT = {it.name: it.default for it in LIBRARY[KIND]}
# What the sum takes of the block.
OF_SUM = ("OutDataTypeStr", "RndMeth", "SaturateOnIntegerOverflow", "SampleTime")


def section(name: str, line: int, parameters: dict[str, str]) -> Section:
    """A section that stands where the filter does."""
    made = Section(name, line)
    made.parameters = parameters
    made.lines = {it: line for it in parameters}
    return made


def part(kind: str, name: str, said: dict[str, str]) -> dict[str, str]:
    """A block with all its parameters, so that the defaults that a file gives its type don't count."""
    return {"BlockType": kind, "Name": name, **{it.name: it.default for it in LIBRARY[kind]}, **said}


def parts_of(said: dict[str, str]) -> list[dict[str, str]]:
    """The blocks in the subsystem, in the order of the file."""
    taps, states = elements_of(said["Coefficients"]), elements_of(said["InitialStates"])
    param = INTERNAL if said["CoefDataTypeStr"] == WORD_LENGTH else said["CoefDataTypeStr"]
    delays = states * (len(taps) - 1) if len(states) == 1 else states
    return [
        part("Inport", "in", {}),
        *(part("UnitDelay", f"d{k}", {"InitialCondition": state}) for k, state in enumerate(delays, 1)),
        *(part("Gain", f"c{k}", {"Gain": tap, "ParamDataTypeStr": param}) for k, tap in enumerate(taps)),
        part("Sum", "sum", {"Inputs": "+" * len(taps), **{name: said[name] for name in OF_SUM}}),
        part("Outport", "out", {}),
    ]


def ways_of(count: int) -> list[tuple[str, str, int]]:
    """The lines of a filter of so many coefficients: from a block, to another, into its port."""
    held = ["in", *(f"d{k}" for k in range(1, count))]
    return [
        *((before, behind, 1) for before, behind in zip(held, held[1:])),
        *((name, f"c{k}", 1) for k, name in enumerate(held)),
        *((f"c{k}", "sum", k + 1) for k in range(count)),
        ("sum", "out", 1),
    ]


def unfolded(block: Section, defaults: Defaults) -> Section:
    """The subsystem in place of a filter; one that doesn't read stays as it is."""
    said = {name: (defaults.of(block, name) or (default,))[0] for name, default in DEFAULT.items()}
    count = taps_of(said["Coefficients"])
    if count is None or not are_states(said["InitialStates"], said["Coefficients"]):
        return block
    system = section("System", block.line, {})
    system.sections = [section("Block", block.line, it) for it in parts_of(said)] + [
        section("Line", block.line, {"SrcBlock": source, "SrcPort": "1", "DstBlock": to, "DstPort": str(port)}) for source, to, port in ways_of(count)
    ]
    made = section("Block", block.line, {**block.parameters, "BlockType": "SubSystem"})
    made.lines = {**block.lines, **{it: block.lines.get(it, block.line) for it in made.parameters}}
    made.sections = [system]
    return made


def unfold(root: Section) -> Section:
    """The model, in which each filter is now a subsystem."""
    defaults = Defaults(root)
    for system, _ in list(systems(root)):
        system.sections = [unfolded(it, defaults) if it.name == "Block" and it.get("BlockType") == KIND else it for it in system.sections]
    return root
