"""Parameters of blocks: evaluated, and spelled as the profile reads them."""

import re
from dataclasses import dataclass, field
from fractions import Fraction

from . import fixed
from .expressions import Unknown, evaluate
from .fixed import FixType
from .functions import Fault
from .model import Block, System
from .report import Refusal, Report
from .values import Matrix, Value

INTERNAL = "Inherit: Inherit via internal rule"
BACK = "Inherit: Inherit via back propagation"
AUTO = "Inherit: auto"
ROUNDINGS = ("Floor", "Ceiling", "Zero", "Nearest", "Round", "Convergent")
CODES = re.compile(r"([su])fix(\d+)(?:_(En?)(\d+))?")
FLOATING = ("double", "single", "half", "float('double')", "float('single')", 'float("double")')
INFINITE = "inf"
DIGITS = 18


def names_of(system: System) -> dict[str, Value]:
    """All names that a system's blocks see: those of masks, from the innermost out."""
    chain, here = [], system
    while here is not None:
        chain.append(here)
        here = here.block.above if here.block else None
    found: dict[str, Value] = {}
    for it in reversed(chain):
        found = {key: value for key, value in found.items() if key not in it.hides}
        found.update(it.names)
    return found


def decimal(value: Fraction) -> tuple[str, bool]:
    """The decimal of at most 18 digits nearest to a value, and whether it is the value."""
    sign, size = ("-", -value) if value < 0 else ("", value)
    for places in range(DIGITS + 1):
        scaled = size * 10**places
        if scaled.denominator == 1 and scaled < 10**DIGITS:
            return sign + spelled(int(scaled), places), True
    exponent = len(str(int(size))) if size >= 1 else 0
    places = max(DIGITS - exponent, 0)
    rounded = round(size * 10**places)
    if rounded >= 10**DIGITS or exponent > DIGITS:
        raise Refusal("more than 18 digits", "write a number of fewer digits")
    return sign + spelled(rounded, places), False


def told(value: Fraction) -> str:
    """A number for the log: a decimal where it is one, else a fraction."""
    return decimal(value)[0] if decimal(value)[1] else str(value)


def spelled(digits: int, places: int) -> str:
    text = str(digits).rjust(places + 1, "0")
    return (text[:-places] + "." + text[-places:]).rstrip("0").rstrip(".") if places else text


def listed(values: list[Fraction]) -> str:
    texts = [decimal(value)[0] for value in values]
    return texts[0] if len(texts) == 1 else "[" + " ".join(texts) + "]"


@dataclass
class Settings:
    """Reads parameters of blocks, and tells what became of each."""

    report: Report
    cache: dict[int, dict[str, Value]] = field(default_factory=dict)

    def names(self, block: Block) -> dict[str, Value]:
        key = id(block.above)
        if key not in self.cache:
            self.cache[key] = names_of(block.above)
        return self.cache[key]

    def evaluate(self, block: Block, name: str, text: str) -> Value:
        try:
            return evaluate(text, self.names(block))
        except Unknown as fault:
            raise Refusal(str(fault), "give it a value in a file of --variables", name, text) from fault
        except Fault as fault:
            raise Refusal(f"no value: {fault}", "write a number", name, text) from fault

    def matrix(self, block: Block, name: str, default: str = "") -> Matrix:
        """The numbers of a parameter, exact; doubles are taken for the fractions that they are."""
        text = block.given.get(name, default).strip()
        value = self.evaluate(block, name, text)
        if not isinstance(value, Matrix):
            raise Refusal("no numbers", "write numbers", name, text)
        if not value.is_exact:
            self.report.tell(block.place(name), f"{name} {text} is reckoned in doubles")
        return Matrix(tuple(tuple(Fraction(it) for it in line) for line in value.rows), value.kind)

    def numbers(self, block: Block, name: str, default: str = "") -> list[Fraction]:
        found = self.matrix(block, name, default)
        text = block.given.get(name, default)
        if not found.numbers or not found.is_vector:
            raise Refusal("no vector", "write a vector: matrices are no signals here", name, text)
        if len(found.numbers) > 1024:
            raise Refusal(f"{len(found.numbers)} elements", "at most 1024", name, text)
        return found.numbers

    def number(self, block: Block, name: str, default: str = "") -> Fraction:
        found = self.numbers(block, name, default)
        if len(found) != 1:
            raise Refusal(f"{len(found)} numbers", "write one", name, block.given.get(name, default))
        return found[0]

    def whole(self, block: Block, name: str, default: str, low: int, high: int) -> int:
        found = self.number(block, name, default)
        if found.denominator != 1 or not low <= found <= high:
            raise Refusal("out of range", f"a whole number from {low} to {high}", name, block.given.get(name, default))
        return int(found)

    def list(self, block: Block, name: str, default: str) -> str:
        """A list of decimals, as the profile reads it."""
        values, said = self.numbers(block, name, default), block.given.get(name, default)
        text = listed(values)
        if not all(decimal(value)[1] for value in values):
            self.report.tell(block.place(name), f"{name} {short(said)} is {short(text)}, rounded to 18 digits")
        elif text != said:
            self.report.tell(block.place(name), f"{name} {short(said)} is {short(text)}")
        return text

    def choice(self, block: Block, name: str, allowed: tuple[str, ...], default: str, remedy: str = "") -> str:
        found = block.given.get(name, default)
        if found not in allowed:
            raise Refusal("not covered", remedy or "covered are " + ", ".join(allowed), name, found)
        return found

    def flag(self, block: Block, name: str, default: str = "off") -> str:
        return self.choice(block, name, ("on", "off"), default)

    def period(self, block: Block, name: str = "SampleTime", default: str = "-1") -> Fraction | str:
        """A period in the file's unit, `-1`, or `inf`."""
        text = block.given.get(name, default).strip()
        if text.lower() in ("inf", "[inf 0]", "[inf, 0]", "[inf,0]"):
            return INFINITE
        values = self.numbers(block, name, default)
        if len(values) > 2 or (len(values) == 2 and values[1] != 0):
            raise Refusal("a sample time with an offset", "take the offset away, or put a Delay there", name, text)
        if values[0] == 0:
            raise Refusal("continuous time", "give a discrete sample time, or -1", name, text)
        if values[0] < 0:
            if values != [Fraction(-1)] and values[0] != -1:
                raise Refusal("a sample time that has no meaning here", "give a period, or -1", name, text)
            return "-1"
        return values[0]

    def type(self, block: Block, name: str, default: str) -> FixType | str:
        """A type, or the words of an inheriting choice."""
        text = self.type_text(block, name, default)
        if text.startswith("Inherit"):
            return text
        return self.type_of(block, name, text)

    def type_text(self, block: Block, name: str, default: str) -> str:
        return (block.given.get(name) or old_type(block.given, name) or default).strip()

    def type_of(self, block: Block, name: str, text: str) -> FixType:
        if text in FLOATING or text.startswith(("Enum:", "Bus:", "ValueType:", "?")):
            raise Refusal("not a fixed-point type", "declare int8 .. uint32, boolean or fixdt(S,W,F)", name, text)
        found = CODES.fullmatch(re.sub(r"^fixdt\(['\"](\w+)['\"]\)$", r"\1", text))
        if found:
            places = int(found[4] or 0)
            return checked(FixType(found[1] == "s", int(found[2]), -places if found[3] == "E" else places), name, text)
        value = self.evaluate(block, name, text)
        if not isinstance(value, FixType):
            raise Refusal("no type", "declare int8 .. uint32, boolean or fixdt(S,W,F)", name, text)
        if value.frac is None:
            return value
        if str(value) != text.replace(" ", "") and fixed.read(text) != value:
            self.report.tell(block.place(name), f"{name} {text} is {value}")
        return checked(value, name, text)


def checked(kind: FixType, name: str, text: str) -> FixType:
    if not kind.is_valid:
        raise Refusal("a type that the profile has not", "2 to 128 bits with a sign, 1 to 127 without, -64 to 128 of them behind the point", name, text)
    return kind


def short(text: str, most: int = 60) -> str:
    text = " ".join(text.split())
    return text if len(text) <= most else text[: most - 3] + "..."


# Of releases before OutDataTypeStr: the parameters of mode, type and scaling that it came from.
OLD = {
    "OutDataTypeStr": (("OutDataTypeMode", "DataType", "OutputDataTypeScalingMode", "LogicDataType"), "OutDataType", "OutScaling"),
    "ParamDataTypeStr": (("ParameterDataTypeMode",), "ParameterDataType", "ParameterScaling"),
}
OLD_WORDS = {
    "Inherit via internal rule": INTERNAL, "Inherit via back propagation": BACK, "auto": AUTO,
    "Same as first input": "Inherit: Same as first input", "Same as input": "Inherit: Same as input",
    "Inherit from input": "Inherit: Same as input", "Inherit from 'Constant value'": "Inherit: Inherit from 'Constant value'",
    "Inherit from table data": "Inherit: Inherit from table data", "Boolean": "boolean", "All ports same datatype": INTERNAL,
    "Logical (see Configuration Parameters: Optimization)": "Inherit: Logical (see Configuration Parameters: Optimization)",
    "Logical (see Advanced Sim. Parameters)": "Inherit: Logical (see Configuration Parameters: Optimization)",
}  # fmt: skip
OLD_FORM = re.compile(r"([su])(fix|int|frac)\((.+)\)")


def old_type(given: dict[str, str], name: str) -> str:
    """The text of a type as releases before OutDataTypeStr wrote it, or nothing."""
    if name not in OLD:
        return ""
    modes, kind, scaling = OLD[name]
    mode = next((given[it] for it in modes if it in given), "")
    if mode in OLD_WORDS:
        return OLD_WORDS[mode]
    if mode and mode not in ("Specify via dialog", "Fixed-point"):
        return mode
    found = OLD_FORM.fullmatch(given.get(kind, "").replace(" ", "")) if mode else None
    if not found:
        return given.get(kind, "") if mode else ""
    sign, width = int(found[1] == "s"), found[3]
    if found[2] == "int":
        return f"fixdt({sign},{width},0)"
    if found[2] == "frac":
        return f"fixdt({sign},{width},{width}-{sign})"
    if "Best" in given.get(scaling + "Mode", "") or "Best" in given.get("ConRadixGroup", ""):
        return f"fixdt({sign},{width})"
    return f"fixdt({sign},{width},{given.get(scaling, '1')},0)"
