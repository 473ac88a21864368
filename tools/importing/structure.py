"""Steps that need no types: blocks that are commented out, displays, From and Goto, masks."""

import re
from collections.abc import Iterator

from . import variables
from .model import Block, Edge, Model, System
from .report import Place, Refusal, Report
from .sections import Section
from .settings import Settings, short
from .values import Value

DISPLAYS = {
    "Scope", "FloatingScope", "Display", "ToWorkspace", "ToFile", "XYGraph", "TimeScope", "WebTimeScopeBlock", "SpectrumAnalyzer",
    "ArrayPlot", "Record", "Assertion", "Stop", "SignalViewerScope", "DisplayBlock", "DashboardScope",
}  # fmt: skip
NOTES = {"DocBlock", "CMBlock", "ModelInfo", "GotoTagVisibility"}
SINKS = re.compile(r"(simulink/Sinks|dspsnks\w*|simulink_extras/Additional\s+Sinks)/")
GLOBAL = "global"
OF_MASK = "Simulink.MaskParameter"


def library_name(block: Block) -> str:
    """The name in its library of the block that a link stands for."""
    source = re.sub(r"\s+", " ", block.given.get("SourceBlock", ""))
    return re.split(r"(?<!/)/(?!/)", source)[-1].strip()


def is_display(block: Block) -> bool:
    return block.kind in DISPLAYS or (block.kind in ("Reference", "SubSystem") and SINKS.match(re.sub(r"\s+", " ", block.given.get("SourceBlock", ""))) is not None)


def is_note(block: Block) -> bool:
    return block.kind in NOTES or (block.kind == "Reference" and library_name(block) in ("DocBlock", "Model Info"))


def comment_out(model: Model, report: Report) -> None:
    """Drops blocks that are commented out, and passes by those that are commented through."""
    for system in model.systems():
        for block in list(system.blocks):
            said = block.given.get("Commented", "off")
            if said == "on":
                drop_commented(system, block, report)
            elif said == "through":
                join(system, block)
                report.tell(block.place("Commented"), "commented through: its input goes on to its readers")


def drop_commented(system: System, block: Block, report: Report) -> None:
    for edge in system.readers(block):
        report.refuse(edge.target.place(), Refusal(f"its input {edge.target_port} comes from {block.path}, which is commented out", "put a Ground there, or comment the block through"))
    system.drop(block)
    report.tell(block.place("Commented"), "commented out: dropped")


def join(system: System, block: Block) -> None:
    """Takes a block with one input and one output out of its line."""
    source = system.driver(block, 1)
    readers = system.readers(block)
    system.drop(block)
    if source:
        system.edges += [Edge(*source, edge.target, edge.target_port) for edge in readers]


def drop_displays(model: Model, report: Report) -> None:
    """Drops displays and notes; where a line then would lead nowhere, a Terminator ends it."""
    for system in model.systems():
        for block in list(system.blocks):
            if is_note(block) and block.kind != "GotoTagVisibility":
                system.drop(block)
                report.tell(block.place(), "a note: dropped")
            elif is_display(block):
                drop_display(system, block, report)


def drop_display(system: System, block: Block, report: Report) -> None:
    said = "dropped, as it shows numbers and gives none"
    sources = list(system.drivers(block).values())
    system.drop(block)
    for source, port in dict.fromkeys(sources):
        if not system.readers(source, port):
            end = Block("Terminator", system.free(block.name), {"Position": block.given.get("Position", "")}, line=block.line, part=block.part, above=system, settled=True)
            system.blocks.append(end)
            system.edges.append(Edge(source, port, end, 1))
            said += f"; the Terminator {end.name} ends its line"
    report.tell(block.place(), said)


class Tags:
    """From and Goto become lines, which go through ports of subsystems where they must."""

    def __init__(self, model: Model, report: Report):
        self.model, self.report = model, report
        self.gotos = [block for block in model.blocks() if block.kind == "Goto"]

    def join(self) -> None:
        froms = [block for block in self.model.blocks() if block.kind == "From"]
        done = [block for block in froms if self.join_from(block)]
        for block in done:
            block.above.drop(block)
        for block in self.gotos:
            self.end_goto(block)
        for block in [it for it in self.model.blocks() if it.kind == "GotoTagVisibility"]:
            block.above.drop(block)
            self.report.tell(block.place(), "dropped: the lines that it speaks of are drawn")

    def end_goto(self, block: Block) -> None:
        source = block.above.driver(block, 1)
        tag = block.given.get("GotoTag", "A")
        block.above.drop(block)
        if source and not block.above.readers(*source):
            drop = Block("Terminator", block.above.free(block.name), {"Position": block.given.get("Position", "")}, line=block.line, part=block.part, above=block.above, settled=True)
            block.above.blocks.append(drop)
            block.above.edges.append(Edge(*source, drop, 1))
        self.report.tell(block.place(), f"Goto {tag}: its line goes to each From")

    def sees(self, reader: Block, goto: Block) -> bool:
        scope = goto.given.get("TagVisibility", "local")
        if scope == "local":
            return goto.above is reader.above
        if scope == GLOBAL:
            return True
        # scoped: where the block that says so stands, or deeper
        tag = goto.given.get("GotoTag", "A")
        homes = [it.above for it in self.model.blocks() if it.kind == "GotoTagVisibility" and it.given.get("GotoTag", "A") == tag]
        return any(home in list(above(reader.above)) and home in list(above(goto.above)) for home in homes)

    def join_from(self, block: Block) -> bool:
        tag = block.given.get("GotoTag", "A")
        found = [it for it in self.gotos if it.given.get("GotoTag", "A") == tag and self.sees(block, it)]
        local = [it for it in found if it.above is block.above]
        found = local or found
        if len(found) != 1:
            why = f"{len(found)} Gotos of this tag are seen from it"
            self.report.refuse(block.place("GotoTag"), Refusal(why, "one Goto for each tag", "GotoTag", tag))
            return False
        source = found[0].above.driver(found[0], 1)
        if source is None:
            self.report.refuse(found[0].place(), Refusal("its input has no driver", "draw a line to it"))
            return False
        try:
            here = self.carry(found[0], source, block.above, tag)
        except Refusal as refusal:
            self.report.refuse(block.place(), refusal)
            return False
        block.above.edges += [Edge(*here, edge.target, edge.target_port) for edge in block.above.readers(block)]
        self.report.tell(block.place(), f"From {tag}: a line from {source[0].path}")
        return True

    def carry(self, goto: Block, source: tuple[Block, int | str], to: System, tag: str) -> tuple[Block, int | str]:
        """The end in the system `to` at which the tag's signal stands."""
        shared = next(it for it in above(goto.above) if it in list(above(to)))
        system = goto.above
        while system is not shared:
            source, system = out_of(system, source, tag), system.block.above
        for deeper in reversed(list(above(to))[: list(above(to)).index(shared)]):
            source = into(deeper, source, tag)
        return source


def above(system: System) -> Iterator[System]:
    """The system and those that hold it, from the inside out."""
    yield system
    while system.block:
        system = system.block.above
        yield system


def port_block(kind: str, tag: str, number: int, system: System) -> Block:
    given = {"Port": str(number)}
    block = Block(kind, system.free(tag), given, line=system.block.line, part=system.block.part, above=system)
    system.blocks.append(block)
    return block


def out_of(system: System, source: tuple[Block, int | str], tag: str) -> tuple[Block, int]:
    """Leads a signal out of a subsystem by a port of its own."""
    if any(it.kind == "EnablePort" for it in system.blocks):
        raise Refusal(f"the tag {tag} leads out of the enabled subsystem {system.block.path}", "draw an Outport, and say what it shows while it isn't enabled")
    ports = system.block.inner("Outport")
    for number, port in enumerate(ports, 1):
        if system.driver(port, 1) == source:
            return system.block, number
    end = port_block("Outport", tag, len(ports) + 1, system)
    system.edges.append(Edge(*source, end, 1))
    return system.block, len(ports) + 1


def into(system: System, source: tuple[Block, int | str], tag: str) -> tuple[Block, int]:
    """Leads a signal into a subsystem by a port of its own."""
    ports = system.block.inner("Inport")
    outside = system.block.above
    for number, port in enumerate(ports, 1):
        if outside.driver(system.block, number) == source:
            return port, 1
    begin = port_block("Inport", tag, len(ports) + 1, system)
    outside.edges.append(Edge(*source, system.block, len(ports) + 1))
    return begin, 1


class Masks:
    """The variables of masks, evaluated where the subsystem stands."""

    def __init__(self, settings: Settings, report: Report):
        self.settings, self.report = settings, report

    def take(self, model: Model) -> None:
        for system in model.systems():
            if system.block:
                self.of(system.block, system)

    def of(self, block: Block, system: System) -> None:
        said = dict(self.pairs(block))
        if not said and not self.code(block):
            return
        found: dict[str, Value] = {}
        for name, text in said.items():
            system.hides.add(name)
            try:
                found[name] = self.settings.evaluate(block, name, text)
                self.report.tell(block.place("MaskValueString"), f"mask parameter {name} is {short(text)}")
            except Refusal as refusal:
                self.report.tell(block.place("MaskValueString"), f"mask parameter {name} has no value: {refusal.told()}")
        outside = {name: value for name, value in self.settings.names(block).items() if name not in system.hides}
        inside = {**outside, **found}
        for _, statement, why in variables.assign(self.code(block), inside):
            self.report.tell(block.place("MaskInitialization"), f"the mask's {short(statement)} is not run: {why}")
        system.names = {name: value for name, value in inside.items() if outside.get(name) is not value}
        self.settings.cache.clear()

    @staticmethod
    def code(block: Block) -> str:
        inner = [it.get("Initialization") for it in block.masks if it.get("Initialization")]
        return block.given.get("MaskInitialization", "") or "\n".join(inner + [it.get("#text") for mask in block.masks for it in mask.all("Initialization")])

    @staticmethod
    def pairs(block: Block) -> Iterator[tuple[str, str]]:
        """The names and values of a mask, in the way of any release."""
        numbered = re.findall(r"(\w+)\s*=\s*[@&](\d+)", block.given.get("MaskVariables", ""))
        values = block.given.get("MaskValueString", "").split("|")
        for name, number in numbered:
            if 0 < int(number) <= len(values):
                yield name, values[int(number) - 1]
        for parameter in (it for mask in block.masks for it in mask_parameters(mask)):
            name = parameter.get("Name")
            values = [parameter.get("Value")] + [it.get("#text") for it in parameter.all("Value")]
            yield name, block.given.get(name) or next((it for it in values if it), "")


def mask_parameters(mask: Section) -> Iterator[Section]:
    """The parameters of a mask: elements of their name, objects of their class, or those of an array of it."""
    for section in mask.inside():
        if section.name == "MaskParameter" or OF_MASK in (section.get("$ClassName"), section.get("ClassName")):
            yield section
        elif section.name == "Array" and section.get("Type") == OF_MASK:
            yield from (it for it in section.all("Object") if not it.get("$ClassName") and not it.get("ClassName"))


def take_callbacks(model: Model, names: dict[str, Value], report: Report) -> None:
    """Takes the assignments of the model's own callbacks."""
    for call in ("PreLoadFcn", "PostLoadFcn", "InitFcn"):
        code = model.section.get(call)
        before = set(names)
        for _, statement, why in variables.assign(code, names) if code else []:
            report.tell(Place(model.section.lines[call]), f"{call}: {short(statement)} is not run: {why}")
        for name in sorted(set(names) - before):
            report.tell(Place(model.section.lines[call]), f"{call} gives {name} its value")
