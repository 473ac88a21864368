"""Readers of the packaged forms: `.slx`, and MDL text that is a package. Their parts become sections.

An element becomes a section of its name. Its attributes become parameters, and so does each `P` in it.
Lines are written by numbers of blocks, and become the lines of MDL text.
"""

import io
import re
import zipfile
from xml.parsers import expat

from .report import NotText
from .sections import Section

HEAD = "# MathWorks OPC Text Package"
PART = re.compile(r"^__MWOPC_PART_BEGIN__ (\S+)(?: (\S+))?$", re.M)
DIAGRAM = "simulink/blockdiagram.xml"
DEFAULTS = "simulink/bddefaults.xml"
# The most bytes of a part, and the deepest element.
LARGEST, DEEPEST = 1 << 28, 600
END = re.compile(r"([\d:]+)#([A-Za-z]+)(?::(\d+))?")

Parts = dict[str, str]


def parts_of_archive(data: bytes) -> Parts:
    """The parts of a `.slx` that are XML, by their names."""
    parts = {}
    try:
        with zipfile.ZipFile(io.BytesIO(data)) as archive:
            for entry in archive.infolist():
                if entry.filename.endswith(".xml") and entry.filename.startswith("simulink/"):
                    if entry.file_size > LARGEST:
                        raise NotText(f"{entry.filename}: {entry.file_size} bytes, at most {LARGEST}")
                    parts[entry.filename] = archive.read(entry).decode("utf-8")
    except (zipfile.BadZipFile, RuntimeError, NotImplementedError, OSError, EOFError, ValueError) as fault:
        raise NotText(f"not an archive that can be read: {fault}") from fault
    return parts


def parts_of_package(text: str) -> Parts:
    """The parts of packaged MDL text; those that are no text are left out."""
    pieces = PART.split(text)
    named = zip(pieces[1::3], pieces[2::3], pieces[3::3])
    return {name.lstrip("/"): piece.strip("\n") for name, coding, piece in named if coding is None}


class Elements:
    """Builds sections from the elements of a part."""

    def __init__(self, part: str):
        self.part, self.root = part, Section("", 0, part)
        self.open: list[Section] = [self.root]
        self.named: tuple[str, int] | None = None
        self.text: list[str] = []
        self.parser = expat.ParserCreate()
        self.parser.StartElementHandler, self.parser.EndElementHandler = self.start, self.end
        self.parser.CharacterDataHandler = self.text.append
        self.parser.EntityDeclHandler = self.refuse_entity

    def refuse_entity(self, *_: object) -> None:
        raise NotText(f"{self.part}: declares an entity")

    def start(self, name: str, attributes: dict[str, str]) -> None:
        line = self.parser.CurrentLineNumber
        if self.named:
            raise NotText(f"{self.part}: line {line}: an element in a parameter")
        self.text.clear()
        if name == "P":
            if "Name" not in attributes:
                raise NotText(f"{self.part}: line {line}: a parameter without a name")
            self.named = attributes["Name"], line
            if "Ref" in attributes:
                self.open[-1].put(self.named[0] + ".Ref", attributes["Ref"], line)
            return
        section = Section(name, line, self.part)
        for key, value in attributes.items():
            section.put(key, value, line)
        self.open[-1].sections.append(section)
        self.open.append(section)
        if len(self.open) > DEEPEST:
            raise NotText(f"{self.part}: line {line}: elements nest more than {DEEPEST} deep")

    def end(self, name: str) -> None:
        said = "".join(self.text)
        self.text.clear()
        if name == "P" and self.named:
            self.open[-1].put(self.named[0], said, self.named[1])
            self.named = None
            return
        section = self.open.pop()
        if said.strip():
            section.put("#text", said, section.line)

    def read(self, text: str) -> Section:
        try:
            self.parser.Parse(re.sub(r"^(<\?xml[^>]*?) encoding=\"[^\"]*\"", r"\1", text), True)
        except expat.ExpatError as fault:
            raise NotText(f"{self.part}: not XML: {fault}") from fault
        return self.root


class Package:
    """The parts of a model, put together as the sections of a classic text."""

    def __init__(self, parts: Parts):
        self.parts = parts
        if DIAGRAM not in parts:
            raise NotText(f"no part {DIAGRAM}")

    def part(self, name: str) -> Section:
        return Elements(name).read(self.parts[name])

    def put_in(self, section: Section, above: tuple[str, ...] = ()) -> None:
        """Puts the system that each `Ref` names into its place."""
        for number, inner in enumerate(section.sections):
            name, here = inner.get("Ref"), above
            if inner.name == "System" and name:
                path = f"simulink/systems/{name}.xml"
                if path not in self.parts or path in above:
                    raise NotText(f"{inner.part}: line {inner.line}: no part {path}")
                inner, here = only(self.part(path), "System"), (*above, path)
                section.sections[number] = inner
            self.put_in(inner, here)

    def read(self) -> Section:
        whole = self.part(DIAGRAM)
        root = only(whole, "ModelInformation") if whole.all("ModelInformation") else whole
        model = only(root, "Model")
        self.put_in(model)
        if not model.all("BlockParameterDefaults") and DEFAULTS in self.parts:
            for section in self.part(DEFAULTS).inside():
                if section.name == "BlockParameterDefaults":
                    model.sections.append(section)
        for section in list(model.inside()):
            if section.name == "System":
                spell_lines(section)
        return root


def only(section: Section, name: str) -> Section:
    found = section.all(name)
    if len(found) != 1:
        raise NotText(f"{section.part}: {len(found)} elements {name}, not one")
    return found[0]


def spell_end(section: Section, side: str, names: dict[str, str]) -> None:
    """Writes an end, such as `3#out:1` or `4#enable`, by a block's name and a port."""
    if side not in section.parameters:
        return
    end, line = section.get(side), section.lines[side]
    found = END.fullmatch(end)
    if not found or found[1] not in names:
        raise NotText(f"{section.part}: line {line}: {side} {end} names no block")
    port = found[3] or "1" if found[2] in ("in", "out") else found[2]
    section.put(f"{side}Block", names[found[1]], line)
    section.put(f"{side}Port", port, line)


def spell_lines(system: Section) -> None:
    """Writes the ends of a system's lines by the names of blocks."""
    names = {block.get("SID"): block.get("Name") for block in system.all("Block")}
    for line in system.all("Line"):
        for section in (it for it in line.inside() if it.name in ("Line", "Branch")):
            spell_end(section, "Src", names)
            spell_end(section, "Dst", names)
