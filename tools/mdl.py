"""A small reader of MDL text for the tools, and what the profile passes over in a file.

It checks next to nothing and is no part of what is proved: that the program reads the same is not said
here.
"""

import re
from collections import deque
from typing import Iterator, Optional

NAME = r"[A-Za-z0-9_.$]+"
BLANKS = " \t\r"
# one that isn't closed takes the rest of its line
STRING = re.compile(r'"((?:[^"\\]|\\.)*)(?:"|\\?\Z)')
# The longest file that the program reads.
MOST_BYTES = 16777216
ESCAPES = {r"\n": "\n", r"\t": "\t", r"\"": '"', r"\\": "\\"}


class Section:
    """A section with its first parameter of each name, and the line of each."""

    def __init__(self, name: str, line: int) -> None:
        self.name, self.line = name, line
        self.parameters: dict[str, str] = {}
        self.lines: dict[str, int] = {}
        self.sections: list["Section"] = []

    def get(self, name: str, default: str = "") -> str:
        return self.parameters.get(name, default)

    def all(self, name: str) -> list["Section"]:
        return [section for section in self.sections if section.name == name]


def strings(text: str) -> str:
    """The strings of a line, joined."""
    return "".join(re.sub(r"\\.", lambda it: ESCAPES.get(it[0], it[0]), string) for string in STRING.findall(text))


def depth_change(line: str) -> int:
    """By how many brackets more a line of a list opens than it closes, outside of strings."""
    bare = STRING.sub("", line)
    return bare.count("[") - bare.count("]")


def value_of(value: str, lines: Iterator[tuple[int, str]]) -> str:
    """The whole value that begins on a line, with those after it that are still of it."""
    parts, depth = [value], depth_change(value) if value.startswith("[") else 0
    while depth > 0:
        _, further = next(lines, (0, None))
        if further is None:
            break
        parts.append(further.strip(BLANKS))
        depth += depth_change(parts[-1])
    return "\n".join(parts)


class Further:
    """The strings that stand on the lines behind a parameter's, joined to its value once it ends."""

    def __init__(self) -> None:
        self.section, self.name, self.parts = None, None, []

    def begin(self, section: Section, name: str) -> None:
        self.section, self.name, self.parts = section, name, []

    def end(self) -> None:
        if self.parts:
            self.section.parameters[self.name] += "".join(self.parts)
        self.section, self.parts = None, []


def read(text: str) -> Section:
    """The sections of a text, in a section of their own; a line that has no form is passed over."""
    root = Section("", 0)
    open_sections, further = [root], Further()
    lines = enumerate(text.split("\n"), 1)
    for number, line in lines:
        line = line.strip(BLANKS)
        here = open_sections[-1]
        if line.startswith('"') and further.section is not None:
            further.parts.append(strings(line))
            continue
        further.end()
        begins = re.fullmatch(rf"({NAME})[{BLANKS}]*{{", line)
        parameter = re.fullmatch(rf"({NAME})(?:[{BLANKS}]+(.*))?", line, re.S)
        if begins:
            here.sections.append(Section(begins[1], number))
            open_sections.append(here.sections[-1])
        elif line == "}" and len(open_sections) > 1:
            open_sections.pop()
        elif parameter:
            name, value = parameter[1], value_of(parameter[2] or "", lines)
            is_first = name not in here.parameters
            if value.startswith('"'):
                value = strings(value)
                if is_first:
                    further.begin(here, name)
            here.lines.setdefault(name, number)
            here.parameters.setdefault(name, value)
    further.end()
    return root


class TooLong(OSError):
    """A file of more bytes than the program reads."""


def read_file(path: str) -> tuple[str, Section]:
    """The text of a file, and its sections; where it is not UTF-8, every byte is a character."""
    with open(path, "rb") as file:
        found = file.read(MOST_BYTES + 1)
    if len(found) > MOST_BYTES:
        raise TooLong(f"{path}: {len(found)} bytes, at most {MOST_BYTES}")
    try:
        text = found.decode()
    except UnicodeDecodeError:
        text = found.decode("latin-1")
    return text, read(text)


def is_number(text: str) -> bool:
    return re.fullmatch("[0-9]{1,9}", text) is not None


def step_of(block: Section) -> str:
    """A block's name as a step of a path."""
    return block.get("Name").replace("/", "//")


def shown(text: str) -> str:
    """A text in quotes, with no byte that a terminal takes for more than a sign."""
    text = text.replace("\\", "\\\\").replace('"', '\\"').replace("\n", "\\n").replace("\t", "\\t")
    return '"' + re.sub(r"[\x00-\x1f\x7f-\x9f]", "?", text) + '"'


def systems_of(block: Section) -> list[Section]:
    return block.all("System") if block.get("BlockType") == "SubSystem" else []


def branches_of(line: Section) -> Iterator[Section]:
    """A line and its branches, at any depth, each before its own."""
    left = [line]
    while left:
        branch = left.pop()
        yield branch
        left += branch.all("Branch")[::-1]


def systems(root: Section) -> Iterator[tuple[Section, list[str]]]:
    """Each system that counts, with the steps above it: those of the models, and of their subsystems."""
    left = deque((system, []) for model in root.all("Model") for system in model.all("System"))
    while left:
        system, above = left.popleft()
        yield system, above
        for block in system.all("Block"):
            left += [(inner, above + [step_of(block)]) for inner in systems_of(block)]


class Defaults:
    """The parameters of a block, its own and those that the file gives its type."""

    def __init__(self, root: Section) -> None:
        lists = [it for model in root.all("Model")[:1] for it in model.all("BlockParameterDefaults")[:1]]
        self.by_type: dict[str, Section] = {}
        for section in (block for it in lists for block in it.all("Block")):
            self.by_type.setdefault(section.get("BlockType"), section)

    def sections_of(self, block: Section) -> list[Section]:
        """The sections that say something of a block, in the order in which they count."""
        return [it for it in (block, self.by_type.get(block.get("BlockType"))) if it is not None]

    def of(self, block: Section, name: str) -> Optional[tuple[str, int]]:
        """The value and the line of a parameter, or None."""
        for section in self.sections_of(block):
            if name in section.parameters:
                return section.parameters[name], section.lines[name]
        return None


# What stands in a text and is not read as the usual tool means it, by a form of its first place.
OF_TEXT = (
    (r"\A(\ufeff|\xff\xfe|\xfe\xff)", "a byte-order mark stands before the text"),
    (r"\APK", "this is an archive, and no text"),
    (r"^__MWOPC_PACKAGE_BEGIN__", "this is a package, and no classic .mdl"),
    (r"^[ \t]*SavedCharacterEncoding\s+\"(?!UTF-8|US-ASCII|ISO-8859|windows-125)", "a character may have two bytes, the second that of a backslash"),
)
# Parameters that the profile passes over, by the values that change nothing: types of blocks (none:
# any), the parameter, those values, and what the response then is.
PASSED_OVER = (
    ((), "Commented", ("off",), "the block counts as if it weren't commented out"),
    (("SubSystem",), "Variant", ("off",), "all choices stand as blocks, and none is chosen"),
    (("SubSystem",), "PropExecContextOutsideSubsystem", ("off",), "blocks behind the subsystem run at each of their hits"),
    (("SubSystem",), "DataTypeOverride", ("UseLocalSettings", "Off"), "the types are those of the blocks"),
    (("Inport", "Constant"), "SignalType", ("auto", "real"), "the signal is read as real"),
    (("Inport", "Constant"), "SamplingMode", ("auto", "Sample based"), "the signal is read sample by sample"),
    (("UnitDelay", "Delay", "DiscreteFir"), "InputProcessing", ("Elements as channels (sample based)",), "each element is delayed by samples"),
    (("Inport",), "LatchByDelayingOutsideSignal", ("off",), "the input is not delayed"),
    (("Inport",), "LatchInputForFeedbackSignals", ("off",), "the input is not latched"),
    (("Inport",), "LatchByCopyingInsideSignal", ("off",), "the input is not latched"),
    (("Inport",), "LatchInput", ("off",), "the input is not latched"),
    (("Inport",), "OutputFunctionCall", ("off",), "the signal is read as a number"),
    (("Inport", "Outport"), "UseBusObject", ("off",), "the signal is read as no bus"),
    (("Inport", "Outport"), "BusOutputAsStruct", ("off",), "the signal is read as no bus"),
    (("Inport", "Outport"), "VarSizeSig", ("Inherit", "No"), "the signal has one size"),
    (("Outport",), "SourceOfInitialOutputValue", ("Dialog",), "the initial output is InitialOutput"),
    (("Constant",), "VectorParams1D", ("on",), "the value is read as a vector"),
    (("Switch",), "AllowDiffInputSizes", ("off",), "the inputs must have one size"),
    (("RateTransition",), "Integrity", ("on",), "the data is read as kept whole"),
    (("Sum", "Product"), "CollapseMode", ("All dimensions",), "elements are taken one by one"),
)
# Types as they were written before OutDataTypeStr, which stand for nothing here.
OLD_TYPES = ("OutDataTypeMode", "OutDataType", "OutScaling", "ParameterDataTypeMode", "ParameterDataType", "ParameterScaling", "DataType")
MASKS = ("MaskType", "MaskVariables", "MaskInitialization", "MaskPromptString")
LINKS = ("SourceBlock", "LinkStatus", "AncestorBlock", "LibrarySourceProduct")
# Parameters of the model, with the values that change nothing.
OF_MODEL = (
    ("DataTypeOverride", ("UseLocalSettings", "Off"), "the types are those of the blocks"),
    ("BooleanDataType", ("on",), "what a comparison or a gate gives is boolean"),
    ("LoadInitialState", ("off",), "the initial values are those of the blocks"),
    ("LoadExternalInput", ("off",), "the inputs are those of the stimulus"),
)
CALLS = ("PreLoadFcn", "PostLoadFcn", "InitFcn", "StartFcn")


def of_block(block: Section, defaults: Defaults) -> Iterator[tuple[int, str, str]]:
    """What the profile passes over in a block: lines, what is said there, and what holds."""
    kind = block.get("BlockType")
    for kinds, name, harmless, holds in PASSED_OVER:
        found = defaults.of(block, name)
        if (not kinds or kind in kinds) and found and found[0] not in harmless:
            yield found[1], f"{name} {shown(found[0])}", holds
    old = [name for name in OLD_TYPES if defaults.of(block, name) and defaults.of(block, name)[0] != "auto"]
    if old and not defaults.of(block, "OutDataTypeStr"):
        value, line = defaults.of(block, old[0])
        yield line, f"{old[0]} {shown(value)}", "the block has its type's default"
    masks = [name for name in MASKS if block.get(name)]
    if masks:
        yield block.lines[masks[0]], "a mask", "its code is not run, and its variables have no value"
    elif any(it.get("$ClassName") == "Simulink.Mask" for it in block.all("Object")):
        yield block.line, "a mask", "its code is not run, and its variables have no value"
    links = [name for name in LINKS if block.get(name)]
    if links and kind == "SubSystem":
        yield block.lines[links[0]], "a link to a library", "the blocks that stand in the file count"
    calls = [name for name in CALLS if block.get(name)]
    if calls:
        yield block.lines[calls[0]], f"{calls[0]}", "its code is not run"


def of_model(model: Section) -> Iterator[tuple[int, str, str]]:
    """The same of the model's own parameters, and of those of its configuration."""
    inside = [model] + [it for array in model.all("Array") for it in array.sections]
    for section in inside + [deeper for it in inside[1:] for array in it.all("Array") for deeper in array.sections]:
        for name, harmless, holds in OF_MODEL:
            if section.get(name) and section.get(name) not in harmless:
                yield section.lines[name], f"{name} {shown(section.get(name))}", holds
    for name in CALLS:
        if model.get(name):
            yield model.lines[name], name, "its code is not run"


def passed_over(text: str, root: Section) -> list[tuple[int, str]]:
    """What a file says and the profile passes over, as lines and what is told of them."""
    found = []
    for form, told in OF_TEXT:
        place = re.search(form, text, re.M)
        if place:
            found.append((text.count("\n", 0, place.start(0)) + 1, told))
    for model in root.all("Model"):
        found += [(line, f"model: {said} is passed over: {holds}") for line, said, holds in of_model(model)]
    defaults = Defaults(root)
    for system, above in systems(root):
        for block in system.all("Block"):
            path = shown("/".join(above + [step_of(block)]))
            found += [(line, f"{path}: {said} is passed over: {holds}") for line, said, holds in of_block(block, defaults)]
    return sorted(found)
