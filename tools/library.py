"""The block types and parameters that docs/FORMATS.md lists, and how the value of each is read, for the tools.

It restates the tables there, and is no part of what is proved.
"""

import re
from typing import Callable, NamedTuple

BLANKS = " \t\r"
INTERNAL = "Inherit: Inherit via internal rule"
WORD_LENGTH = "Inherit: Same word length as input"
TYPE_NAMES = ("int8", "int16", "int32", "uint8", "uint16", "uint32", "boolean")
SAID_TYPE = ", ".join(TYPE_NAMES) + ", or fixdt(S,W,F) of 2 to 128 bits with a sign and 1 to 127 without, F from -64 to 128"
SAID_LIST = "a decimal of at most 18 digits, or 1 to 1024 of them in brackets"
SAID_PERIOD = "a decimal above 0, or such a one and a zero in brackets"


class FixedType(NamedTuple):
    """A type: the stored integer n stands for n / 2^fraction."""

    is_signed: bool
    bits: int
    fraction: int

    def range(self) -> tuple[int, int]:
        """The least and the greatest stored integer."""
        return (-(1 << self.bits - 1), (1 << self.bits - 1) - 1) if self.is_signed else (0, (1 << self.bits) - 1)


class Reader(NamedTuple):
    """How a value is read: whether a text is one, and what is said to be allowed."""

    reads: Callable[[str], bool]
    allowed: str


class Parameter(NamedTuple):
    """A parameter with its value where the model gives none."""

    name: str
    default: str
    reader: Reader


def number(text: str, low: int, high: int) -> int | None:
    """A whole number without a sign, in a range of at most nine digits."""
    digits = text.lstrip("0")
    if not re.fullmatch("[0-9]+", text) or len(digits) > 9:
        return None
    found = int(digits or "0")
    return found if low <= found <= high else None


def is_decimal(text: str) -> bool:
    found = re.fullmatch(r"[+-]?([0-9]*)(?:\.([0-9]*))?(?:[eE]([+-]?[0-9]{1,2}))?", text)
    if text in ("true", "false"):
        return True
    if found is None:
        return False
    whole, behind = found[1], found[2] or ""
    return bool(whole + behind) and len((whole + behind).lstrip("0")) <= 18 and len(behind) <= 18 and abs(int(found[3] or 0)) <= 18


def is_zero(text: str) -> bool:
    """Whether a decimal is 0."""
    return text != "true" and is_decimal(text) and not re.search("[1-9]", re.split("[eE]", text)[0])


def is_above_zero(text: str) -> bool:
    return is_decimal(text) and not text.startswith("-") and not is_zero(text)


def words_of(text: str) -> list[str]:
    return [word for word in re.split(f"[{BLANKS}]+", text) if word]


def bracketed(text: str) -> list[str] | None:
    """The elements in the brackets that a text is; between semicolons stands one, between commas one or more."""
    if len(text) < 2 or text[0] != "[" or text.count("]") != 1 or text[-1] != "]":
        return None
    separator = ";" if ";" in text else ","
    pieces = [words_of(piece) for piece in text[1:-1].split(separator)]
    if not all(len(words) == 1 if separator == ";" else words for words in pieces):
        return None
    return [word for words in pieces for word in words]


def elements_of(text: str) -> list[str] | None:
    """The elements of a list: those in its brackets, or the one that it is."""
    text = text.strip(BLANKS)
    if text.startswith("["):
        return bracketed(text)
    words = words_of(text)
    return words if len(words) == 1 else None


def is_list(text: str) -> bool:
    elements = elements_of(text)
    return elements is not None and 1 <= len(elements) <= 1024 and all(map(is_decimal, elements))


def taps_of(text: str) -> int | None:
    """How many coefficients of a filter a text has, where it has 2 to 32."""
    count = len(elements_of(text) or []) if is_list(text) else 0
    return count if 2 <= count <= 32 else None


def are_states(text: str, coefficients: str) -> bool:
    """Whether a text is one decimal, or one less than a filter has coefficients."""
    taps = taps_of(coefficients)
    return is_list(text) and (taps is None or len(elements_of(text) or []) in (1, taps - 1))


def is_period(text: str) -> bool:
    if not text.startswith("["):
        return is_above_zero(text)
    elements = bracketed(text)
    return elements is not None and len(elements) == 2 and is_above_zero(elements[0]) and is_zero(elements[1])


def is_width(text: str) -> bool:
    elements = bracketed(text) or []
    return text == "-1" or number(text, 1, 1024) is not None or len(elements) == 1 and number(elements[0], 1, 1024) is not None


def is_parts(text: str) -> bool:
    sizes = bracketed(text) or []
    return number(text, 1, 1024) is not None or 1 <= len(sizes) <= 1024 and all(number(it, 1, 1024) is not None for it in sizes)


def is_signs(text: str) -> bool:
    signs = re.sub(rf"[|{BLANKS}]", "", text)
    return number(text, 2, 32) is not None or re.fullmatch(r"[+-]{2,32}", signs) is not None


def type_of(text: str) -> FixedType | None:
    """The type that a text names; boolean is one bit without a sign."""
    if text == "boolean":
        return FixedType(False, 1, 0)
    if text in TYPE_NAMES:
        return FixedType(text[0] == "i", int(text.lstrip("uint")), 0)
    found = re.fullmatch(r"fixdt\(([^(),]*),([^(),]*),([^(),]*)\)", text)
    parts = [words_of(part) for part in found.groups()] if found else []
    if [len(words) for words in parts] != [1, 1, 1]:
        return None
    [sign], [width], [fraction] = parts
    bits, size = number(width, 1, 128), number(fraction.removeprefix("-"), 0, 128)
    if sign not in ("0", "1", "true", "false") or bits is None or size is None:
        return None
    made = FixedType(sign in ("1", "true"), bits, -size if fraction.startswith("-") else size)
    is_valid = (bits >= 2 if made.is_signed else bits <= 127) and made.fraction >= -64
    return made if is_valid else None


def is_type(text: str) -> bool:
    return type_of(text) is not None


def words(*allowed: str) -> Reader:
    """One of these texts."""
    return Reader(lambda text: text in allowed, " or ".join(f'"{it}"' for it in allowed))


def numbers(low: int, high: int) -> Reader:
    return Reader(lambda text: number(text, low, high) is not None, f"a whole number from {low} to {high}")


def type_or(*also: str) -> Reader:
    """A type, or one of these texts."""
    return Reader(lambda text: text in also or is_type(text), "; ".join([f'"{it}"' for it in also] + [SAID_TYPE]))


def period_or(*also: str) -> Reader:
    return Reader(lambda text: text in also or is_period(text), ", ".join(also) + f", or {SAID_PERIOD}")


LIST = Reader(is_list, SAID_LIST)
TAPS = Reader(lambda text: taps_of(text) is not None, "2 to 32 decimals of at most 18 digits in brackets")
STATES = Reader(is_list, "a decimal of at most 18 digits, or one less than there are coefficients in brackets")
SIGNS = Reader(is_signs, "2 to 32 signs + and -, or a whole number from 2 to 32")
PARTS = Reader(is_parts, "a whole number from 1 to 1024, or 1 to 1024 of them in brackets")
WIDTH = Reader(is_width, "-1, or a whole number from 1 to 1024, which may stand in brackets")
TRUTH = Reader(lambda text: text == "boolean" or text.startswith("Inherit: Logical"), '"boolean", or a text that begins with "Inherit: Logical"')
ON_OR_OFF, HELD_OR_RESET = words("on", "off"), words("held", "reset")
PORT = numbers(1, 20000)
GATES = ("AND", "OR", "NAND", "NOR", "XOR", "NXOR", "NOT")
ROUNDINGS = ("Floor", "Ceiling", "Zero", "Nearest", "Round", "Convergent")


def only(name: str, default: str) -> Parameter:
    """A parameter that has its default alone."""
    return Parameter(name, default, words(default))


AUTO = Parameter("OutDataTypeStr", "Inherit: auto", type_or("Inherit: auto"))
BOOLEAN = Parameter("OutDataTypeStr", "boolean", TRUTH)
TIME = Parameter("SampleTime", "-1", period_or("-1"))
CONDITION = Parameter("InitialCondition", "0", LIST)
ROUNDED = (Parameter("RndMeth", "Floor", words(*ROUNDINGS)), Parameter("SaturateOnIntegerOverflow", "off", ON_OR_OFF), TIME)
COMMON = (Parameter("OutDataTypeStr", INTERNAL, type_or(INTERNAL, "Inherit: Same as first input")), *ROUNDED)
LIBRARY: dict[str, tuple[Parameter, ...]] = {
    "Inport": (Parameter("Port", "1", PORT), AUTO, TIME, Parameter("PortDimensions", "-1", WIDTH)),
    "Outport": (
        Parameter("Port", "1", PORT), AUTO, TIME, Parameter("OutputWhenDisabled", "held", HELD_OR_RESET),
        Parameter("InitialOutput", "[]", Reader(lambda text: text == "[]" or is_list(text), f"[], or {SAID_LIST}")),
    ),
    "Constant": (
        Parameter("Value", "1", LIST),
        Parameter("OutDataTypeStr", "Inherit: Inherit from 'Constant value'", type_or("Inherit: Inherit from 'Constant value'")),
        Parameter("SampleTime", "inf", period_or("inf", "-1")),
    ),
    "Ground": (),
    "Terminator": (),
    "Sum": (
        Parameter("Inputs", "++", SIGNS), Parameter("AccumDataTypeStr", INTERNAL, type_or(INTERNAL, "Inherit: Same as first input")), *COMMON,
    ),
    "Gain": (
        Parameter("Gain", "1", LIST), Parameter("ParamDataTypeStr", INTERNAL, type_or(INTERNAL, "Inherit: Same as input")),
        only("Multiplication", "Element-wise(K.*u)"),
        Parameter("OutDataTypeStr", INTERNAL, type_or(INTERNAL, "Inherit: Same as input")), *ROUNDED,
    ),
    "Product": (Parameter("Inputs", "2", words("2", "**")), only("Multiplication", "Element-wise(.*)"), *COMMON),
    "UnitDelay": (CONDITION, TIME),
    "Delay": (
        Parameter("DelayLength", "2", numbers(1, 1024)), CONDITION, TIME, only("DelayLengthSource", "Dialog"),
        only("InitialConditionSource", "Dialog"), only("ExternalReset", "None"), only("ShowEnablePort", "off"),
    ),
    "Switch": (Parameter("Criteria", "u2 >= Threshold", words("u2 >= Threshold", "u2 > Threshold", "u2 ~= 0")), Parameter("Threshold", "0", LIST), *COMMON),
    "RelationalOperator": (Parameter("Operator", "<=", words("==", "~=", "<", "<=", ">=", ">")), BOOLEAN, TIME),
    "Logic": (Parameter("Operator", "AND", words(*GATES)), Parameter("Inputs", "2", numbers(2, 32)), BOOLEAN, TIME),
    "DataTypeConversion": (
        Parameter("OutDataTypeStr", "Inherit: Inherit via back propagation", Reader(is_type, SAID_TYPE)),
        Parameter("ConvertRealWorld", "Real World Value (RWV)", words("Real World Value (RWV)", "Stored Integer (SI)")), *ROUNDED,
    ),
    "Mux": (Parameter("Inputs", "4", PARTS),),
    "Demux": (Parameter("Outputs", "4", PARTS), only("BusSelectionMode", "off")),
    "RateTransition": (
        Parameter("OutPortSampleTime", "-1", Reader(is_period, SAID_PERIOD)), only("OutPortSampleTimeOpt", "Specify"),
        only("Deterministic", "on"), CONDITION,
    ),
    "DiscreteFir": (
        Parameter("Coefficients", "[0.5 0.5]", TAPS), only("CoefSource", "Dialog parameters"), only("FilterStructure", "Direct form"),
        Parameter("InitialStates", "0", STATES), Parameter("CoefDataTypeStr", WORD_LENGTH, type_or(WORD_LENGTH)),
        only("ProductDataTypeStr", INTERNAL), only("AccumDataTypeStr", INTERNAL), Parameter("OutDataTypeStr", INTERNAL, type_or(INTERNAL)), *ROUNDED,
    ),
    "SubSystem": (only("SystemSampleTime", "-1"),),
    "EnablePort": (Parameter("StatesWhenEnabling", "held", HELD_OR_RESET), only("ShowOutputPort", "off")),
}  # fmt: skip
