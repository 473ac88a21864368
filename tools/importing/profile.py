"""The parameters of the profile's blocks: how each is read, and its default."""

import re
from collections.abc import Callable
from fractions import Fraction

from . import fixed
from .fixed import FixType
from .model import Block
from .report import Refusal
from .settings import AUTO, BACK, INTERNAL, ROUNDINGS, Settings

Spelled = str | Fraction
Reader = Callable[[Settings, Block, str, str], Spelled]
FIRST = "Inherit: Same as first input"
INPUT = "Inherit: Same as input"
FROM_VALUE = "Inherit: Inherit from 'Constant value'"
ELEMENTS = "Element-wise(K.*u)"
EACH = "Elements as channels (sample based)"


def whole(low: int, high: int) -> Reader:
    return lambda settings, block, name, default: str(settings.whole(block, name, default, low, high))


def choice(*allowed: str, remedy: str = "") -> Reader:
    return lambda settings, block, name, default: settings.choice(block, name, allowed, default, remedy)


def numbers(settings: Settings, block: Block, name: str, default: str) -> Spelled:
    return settings.list(block, name, default)


def coefficients(settings: Settings, block: Block, name: str, default: str) -> Spelled:
    """A list of decimals; a matrix is looked at by the step that multiplies by it."""
    if block.given.get("Multiplication", ELEMENTS) == ELEMENTS:
        return numbers(settings, block, name, default)
    settings.matrix(block, name, default)
    return "1"


def period(settings: Settings, block: Block, name: str, default: str) -> Spelled:
    found = settings.period(block, name, default)
    if found == "inf" and block.kind != "Constant":
        raise Refusal("a sample time that has no meaning here", "give a period, or -1", name, "inf")
    return found


def result(*words: str) -> Reader:
    """A type, or one of the inheriting choices; back propagation is found later."""
    def of(settings: Settings, block: Block, name: str, default: str) -> Spelled:
        found = settings.type(block, name, default)
        if isinstance(found, str):
            if found == "Inherit: Same as accumulator" and INTERNAL in words:
                return INTERNAL
            if found not in (*words, BACK):
                raise Refusal("an inheriting choice that isn't covered", "declare a type", name, found)
        elif found.frac is None:
            raise Refusal("a type without a fraction", "declare fixdt(S,W,F)", name, settings.type_text(block, name, default))
        return str(found)
    return of


def known(block: Block, found: FixType | str, values: list[Fraction], settings: Settings, name: str) -> str:
    """A type, with the best precision where its fraction is left out."""
    if isinstance(found, str) or found.frac is not None:
        return str(found)
    kind = fixed.best(values, found.signed, found.width)
    if kind is None:
        raise Refusal("no fraction holds the value", "declare fixdt(S,W,F)", name, block.given.get(name, ""))
    settings.report.tell(block.place(name), f"{name} {settings.type_text(block, name, '')} is {kind}, of the best precision for its value")
    return str(kind)


def coefficient_type(settings: Settings, block: Block, name: str, default: str) -> Spelled:
    found = settings.type(block, name, default)
    if isinstance(found, str) and found not in (INTERNAL, INPUT):
        raise Refusal("an inheriting choice that isn't covered", "declare a type", name, found)
    matrix = settings.matrix(block, "Gain", "1")
    return known(block, found, matrix.numbers, settings, name)


def constant_type(settings: Settings, block: Block, name: str, default: str) -> Spelled:
    found, value = settings.type(block, name, default), settings.matrix(block, "Value", "1")
    if found == FROM_VALUE:
        if value.kind is None:
            raise Refusal("a value of type double", "declare a type, or write the value with one, as int8(3)", name, found)
        return str(value.kind)
    if isinstance(found, str) and found != BACK:
        raise Refusal("an inheriting choice that isn't covered", "declare a type", name, found)
    return known(block, found, value.numbers, settings, name)


def signs(settings: Settings, block: Block, name: str, default: str) -> Spelled:
    text = re.sub(r"[|\s]", "", block.given.get(name, default))
    if re.fullmatch(r"[+-]+", text):
        if not 1 <= len(text) <= 32:
            raise Refusal(f"{len(text)} inputs", "at most 32: add in two steps", name, text)
        return text
    return "+" * settings.whole(block, name, default, 1, 32)


def sizes(settings: Settings, block: Block, name: str, default: str) -> Spelled:
    """A number of parts, or the size of each; a size of -1 is left to what comes."""
    found = settings.numbers(block, name, default)
    if any(it.denominator != 1 or not 1 <= it <= 1024 for it in found):
        if len(found) > 1 and all(it == -1 for it in found):
            return str(len(found))
        raise Refusal("sizes that can't be read", "write whole numbers from 1 to 1024", name, block.given.get(name, default))
    return str(found[0]) if len(found) == 1 and "[" not in block.given.get(name, default) else "[" + " ".join(map(str, found)) + "]"


def dimensions(settings: Settings, block: Block, name: str, default: str) -> Spelled:
    found, said = settings.numbers(block, name, default), block.given.get(name, default)
    if len(found) == 2 and 1 in found:
        settings.report.tell(block.place(name), f"{name} {said} is taken as a vector")
        found = [max(found)]
    if len(found) != 1 or found[0].denominator != 1 or not (found[0] == -1 or 1 <= found[0] <= 1024):
        raise Refusal("no vector", "matrices are no signals here: -1, or 1 to 1024", name, said)
    return str(found[0])


def logical(settings: Settings, block: Block, name: str, default: str) -> Spelled:
    found = settings.type(block, name, default)
    if found == fixed.BOOLEAN or (isinstance(found, str) and found.startswith("Inherit: Logical")):
        return "boolean"
    raise Refusal("a result other than boolean", "declare boolean, and a DataTypeConversion behind it", name, str(found))


def initial_output(settings: Settings, block: Block, name: str, default: str) -> Spelled:
    text = block.given.get(name, default).strip()
    return "[]" if text in ("[]", "") else settings.list(block, name, default)


def transition_period(settings: Settings, block: Block, name: str, default: str) -> Spelled:
    """The period of a RateTransition's output, or the words by which it is found later."""
    option = settings.choice(block, "OutPortSampleTimeOpt", ("Specify", "Inherit", "Multiple of input port sample time"), "Specify")
    if option == "Multiple of input port sample time":
        settings.number(block, "OutPortSampleTimeMultiple", "1")
        return option
    return "Inherit" if option == "Inherit" or settings.period(block, name, default) == "-1" else period(settings, block, name, default)


ROUNDING = ("RndMeth", "Floor", choice(*ROUNDINGS, remedy="choose Floor, Ceiling, Zero, Nearest, Round or Convergent"))
SATURATES = ("SaturateOnIntegerOverflow", "off", choice("on", "off"))
SAMPLE = ("SampleTime", "-1", period)


def common(*words: str) -> tuple[tuple[str, str, Reader], ...]:
    return ("OutDataTypeStr", INTERNAL, result(INTERNAL, *words)), ROUNDING, SATURATES, SAMPLE


TABLE: dict[str, tuple[tuple[str, str, Reader], ...]] = {
    "Inport": (("Port", "1", whole(1, 20000)), ("OutDataTypeStr", AUTO, result(AUTO)), SAMPLE, ("PortDimensions", "-1", dimensions)),
    "Outport": (("Port", "1", whole(1, 20000)), ("OutDataTypeStr", AUTO, result(AUTO)), SAMPLE, ("OutputWhenDisabled", "held", choice("held", "reset")), ("InitialOutput", "[]", initial_output)),
    "Constant": (("Value", "1", numbers), ("OutDataTypeStr", FROM_VALUE, constant_type), ("SampleTime", "inf", period)),
    "Ground": (),
    "Terminator": (),
    "Sum": (("Inputs", "++", signs), *common(FIRST)),
    "Gain": (("Gain", "1", coefficients), ("ParamDataTypeStr", INTERNAL, coefficient_type), *common(INPUT)),
    "Product": (("Inputs", "2", choice("2", "**", remedy="two factors: several Products one behind the other, and no division")), ("Multiplication", "Element-wise(.*)", choice("Element-wise(.*)")), *common(FIRST)),
    "UnitDelay": (("InitialCondition", "0", numbers), SAMPLE),
    "Delay": (("DelayLength", "2", whole(0, 1024)), ("InitialCondition", "0", numbers), SAMPLE, ("DelayLengthSource", "Dialog", choice("Dialog")), ("InitialConditionSource", "Dialog", choice("Dialog")), ("ExternalReset", "None", choice("None")), ("ShowEnablePort", "off", choice("off"))),
    "Switch": (("Criteria", "u2 >= Threshold", choice("u2 >= Threshold", "u2 > Threshold", "u2 ~= 0")), ("Threshold", "0", numbers), *common(FIRST)),
    "RelationalOperator": (("Operator", "<=", choice("==", "~=", "<", "<=", ">=", ">")), ("OutDataTypeStr", "boolean", logical), SAMPLE),
    "Logic": (("Operator", "AND", choice("AND", "OR", "NAND", "NOR", "XOR", "NXOR", "NOT")), ("Inputs", "2", whole(1, 32)), ("OutDataTypeStr", "boolean", logical), SAMPLE),
    "DataTypeConversion": (("OutDataTypeStr", BACK, result()), ("ConvertRealWorld", "Real World Value (RWV)", choice("Real World Value (RWV)", "Stored Integer (SI)")), ROUNDING, SATURATES, SAMPLE),
    "Mux": (("Inputs", "4", sizes),),
    "Demux": (("Outputs", "4", sizes), ("BusSelectionMode", "off", choice("off"))),
    "RateTransition": (("OutPortSampleTime", "-1", transition_period), ("Deterministic", "on", choice("on")), ("InitialCondition", "0", numbers)),
    "SubSystem": (("SystemSampleTime", "-1", choice("-1", remedy="-1, and the sample time at the blocks in it")),),
    "EnablePort": (("StatesWhenEnabling", "held", choice("held", "reset")), ("ShowOutputPort", "off", choice("off"))),
}  # fmt: skip


def settle(settings: Settings, block: Block) -> bool:
    """Reads the parameters of a block of the profile; whether all could be."""
    whole_block = True
    for name, default, read in TABLE[block.kind]:
        try:
            block.parameters[name] = read(settings, block, name, default)
        except Refusal as refusal:
            settings.report.refuse(block.place(refusal.parameter), refusal)
            whole_block = False
    block.settled = whole_block
    return whole_block


def is_default(kind: str, name: str, value: Spelled) -> bool:
    return any(row[:2] == (name, value) for row in TABLE[kind])
