"""Which blocks the lines of a generated text are of: of a net that shows an element of a block its name or
place tells it, and any other net is of the blocks whose nets read it, not past such a net.
"""

import re
from collections import defaultdict

from checked import Checked
from subset import Module, names_in
from estimate import reads_of

# A net, multiplier or register of an element: the number of the block among a check's, and the element's.
OF_BLOCK = re.compile(r"fx_[a-z](\d+)_(\d+)(?:_\w+)?")
OF_ELEMENT = re.compile(r"fx_e\d+_\d+\w*")
# Ports that carry no numbers.
CONTROLS = ("clk", "reset", "clk_enable", "ce_out")
# What more blocks share is of none of them.
MOST = 8
DEFINES = re.compile(r"assign (\w+) =|if \(reset\) (\w+) <=|(?:wire|reg)(?: signed)?(?: \[\d+:0\])? (\w+)[;,]?$")


def elements(found: Checked, outports: dict[str, int]) -> list[int]:
    """The blocks of all elements, in order; root outputs have the widths that are given."""
    blocks = enumerate(found.blocks.values())
    return [at for at, block in blocks for _ in range(sum(width for _, width in block.outputs) or outports.get(block.path, 0))]


def named(module: Module, found: Checked, outports: dict[str, int]) -> dict[str, int]:
    """The nets that show an element of a block, each with the number of the block."""
    whole = {name: int(it[1]) for name in module.nets if (it := OF_BLOCK.fullmatch(name)) and int(it[1]) < len(found.blocks)}
    if any(map(OF_ELEMENT.fullmatch, module.nets)):
        return whole
    numbered = {f"fx_n{at}": block for at, block in enumerate(elements(found, outports))}
    return whole | {name: block for name, block in numbered.items() if name in module.nets}


def blocks_of_nets(module: Module, of: dict[str, int]) -> dict[str, set[int]]:
    """The blocks of every net."""
    readers = defaultdict(set)
    for name, value in module.assigns.items():
        for read in names_in(value):
            readers[read].add(name)
    for name, taken in module.registers.items():
        for read in reads_of(taken):
            readers[read].add(name)
    found = {name: {block} for name, block in of.items()}
    for name in module.nets:
        if name in found:
            continue
        blocks, seen, left = set(), {name}, list(readers[name])
        while left and len(blocks) <= MOST:
            reader = left.pop()
            if reader in seen:
                continue
            seen.add(reader)
            if reader in of:
                blocks.add(of[reader])
            else:
                left += readers[reader]
        found[name] = blocks if len(blocks) <= MOST else set()
    return found


def blocks_of_lines(text: str, module: Module, found: Checked, outports: dict[str, int]) -> list[set[int]]:
    """The blocks of each line of a text as `generate` writes it."""
    nets = blocks_of_nets(module, named(module, found, outports))
    for port in module.ports("output"):
        readers = () if port.name in CONTROLS else names_in(module.assigns.get(port.name))
        nets[port.name] = {block for name in readers for block in nets.get(name, set())}
    for port in module.ports("input"):
        readers = [] if port.name in CONTROLS else [name for name, value in module.assigns.items() if port.name in names_in(value)]
        nets[port.name] = {block for name in readers[:MOST] for block in nets[name]}
    lines = []
    for line in text.splitlines():
        defined = DEFINES.search(line)
        lines.append(nets.get(defined[1] or defined[2] or defined[3], set()) if defined else set())
    return lines
