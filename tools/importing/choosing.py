"""Rebuilds of blocks that compare and choose: limits, extremes, signs, comparisons, tables."""

from fractions import Fraction

from . import fixed
from .fixed import FixType
from .group import Group, Rebuild, Source
from .profile import FIRST, INPUT
from .report import Refusal
from .settings import INTERNAL, listed

AT_LEAST, ABOVE, NOT_ZERO = "u2 >= Threshold", "u2 > Threshold", "u2 ~= 0"
LAST = "Last data port"
LARGEST = 1024


def represented(values: list[Fraction], kind: FixType) -> list[Fraction]:
    """The values of a type that are nearest to such values."""
    return [fixed.stored(value, kind) * kind.step for value in values]


def limited(group: Group, source: Source, low: list[Fraction], high: list[Fraction], kind: FixType, prefix: str = "") -> Source:
    """A signal of a type between two limits, which take the type's nearest values."""
    low, high = represented(low, kind), represented(high, kind)
    if len(low) == len(high) and any(a > b for a, b in zip(low, high)):
        raise Refusal("the lower limit is above the upper one", "exchange them")
    lowest = group.constant(prefix + "lower", low, kind)
    held = group.put("Switch", prefix + "at least", source, source, lowest, Threshold=listed(low), OutDataTypeStr=kind)
    highest = group.constant(prefix + "upper", high, kind)
    return group.put("Switch", prefix + "at most", highest, held, held, Criteria=ABOVE, Threshold=listed(high), OutDataTypeStr=kind)


def saturate(it: Rebuild) -> None:
    kind = it.result(INPUT)
    if kind != it.input_type():
        raise Refusal("a result of another type than the input", "inherit the input's type, and put a DataTypeConversion behind it", "OutDataTypeStr", str(kind))
    low, high = it.numbers("LowerLimit", "-0.5"), it.numbers("UpperLimit", "0.5")
    group = it.group()
    group.close(limited(group, group.inputs[0], low, high, kind))
    it.tell(f"Saturate: two Switches of {kind}, with the limits {listed(represented(low, kind))} and {listed(represented(high, kind))}")


def absolute(it: Rebuild) -> None:
    kind = it.result(INPUT)
    group = it.group()
    zero = group.put("Ground", "zero")
    negated = group.put("Sum", "negated", zero, group.inputs[0], Inputs="+-")
    group.close(group.put("Switch", "chosen", group.inputs[0], group.inputs[0], negated, Criteria=AT_LEAST, Threshold="0", OutDataTypeStr=kind, **it.rounding()))
    it.tell(f"Abs: a Switch between the input and its negative, of {kind}")


def extreme(it: Rebuild) -> None:
    operator = {"min": "<=", "max": ">="}[it.choice("Function", ("min", "max"), "min")]
    count = it.whole("Inputs", "1", 1, 32)
    kind, rounding = it.result_or_internal(INTERNAL), it.rounding()
    group = it.group(count)
    items = group.inputs
    if count == 1:
        width = it.width()
        parted = group.put("Demux", "parts", items[0], Outputs=width)
        items = [(parted[0], number) for number in range(1, width + 1)]
    kept = items[0]
    for number, item in enumerate(items[1:], 2):
        test = group.put("RelationalOperator", f"first {number}", kept, item, Operator=operator)
        last = number == len(items)
        kept = group.put("Switch", f"of {number}", kept, test, item, Criteria=NOT_ZERO, OutDataTypeStr=kind if last else INTERNAL, **(rounding if last else {}))
    group.close(kept)
    it.tell(f"MinMax: {len(items) - 1} comparisons and Switches" + ("; its type is by the profile's internal rule" if kind == INTERNAL else f", of {kind}"))


def signum(it: Rebuild) -> None:
    kind = it.input_type()
    if represented([Fraction(1)], kind) != [1] or (kind.signed and represented([Fraction(-1)], kind) != [-1]):
        raise Refusal(f"{kind} doesn't hold 1 and -1", "convert the input to a type that does")
    group = it.group()
    source = group.inputs[0]
    one, zero = group.constant("one", [Fraction(1)], kind), group.constant("zero", [Fraction(0)], kind)
    rest = zero
    if kind.signed:
        minus = group.constant("minus one", [Fraction(-1)], kind)
        rest = group.put("Switch", "not above", zero, source, minus, Criteria=AT_LEAST, Threshold="0", OutDataTypeStr=kind)
    group.close(group.put("Switch", "sign", one, source, rest, Criteria=ABOVE, Threshold="0", OutDataTypeStr=kind))
    it.tell(f"Signum: Switches between 1, 0 and -1 of {kind}")


def compared(it: Rebuild, values: list[Fraction], default: str) -> None:
    operator = it.choice("relop", ("==", "~=", "<", "<=", ">=", ">"), default)
    kind = it.input_type()
    said = it.settings.type_text(it.block, "OutDataTypeStr", it.block.given.get("LogicOutDataTypeMode", "boolean"))
    group = it.group(1, "-1")
    taken = represented(values, kind)
    test = group.put("RelationalOperator", "test", group.inputs[0], group.constant("limit", taken, kind), Operator=operator)
    if said not in ("boolean", "uint8"):
        raise Refusal("a result other than boolean and uint8", "choose boolean", "OutDataTypeStr", said)
    group.close(test if said == "boolean" else group.put("DataTypeConversion", "as uint8", test, OutDataTypeStr="uint8"))
    it.tell(f"a comparison {operator} with {listed(taken)} of the input's type {kind}, as {said}")


def compare_to_constant(it: Rebuild) -> None:
    compared(it, it.numbers("const", "3.0"), "<=")


def compare_to_zero(it: Rebuild) -> None:
    compared(it, [Fraction(0)], "<=")


def port_indices(it: Rebuild, count: int) -> list[int]:
    order = it.choice("DataPortOrder", ("Zero-based contiguous", "One-based contiguous", "Specify indices"), "One-based contiguous")
    if "zeroidx" in it.block.given and "DataPortOrder" not in it.block.given:
        order = "Zero-based contiguous" if it.block.given["zeroidx"] == "on" else "One-based contiguous"
    if order != "Specify indices":
        return [number + (order == "One-based contiguous") for number in range(count)]
    text = it.block.given.get("DataPortIndices", "")
    found = it.settings.evaluate(it.block, "DataPortIndices", text.replace("{", "[").replace("}", "]"))
    numbers = getattr(found, "numbers", [])
    if len(numbers) != count or any(number != int(number) for number in numbers) or len(set(numbers)) != count:
        raise Refusal("not one whole index for each port", "one index for each port, each once", "DataPortIndices", text)
    return [int(number) for number in numbers]


def multiport_switch(it: Rebuild) -> None:
    count = it.whole("Inputs", "3", 1, 1000)
    if count == 1:
        raise Refusal("elements of one input chosen by an index", "a Demux, and a port for each element", "Inputs", "1")
    if it.input_type().frac > 0:
        raise Refusal("a choice by a number with a fraction", "convert it to a whole type", "Inputs", str(count))
    indices, default = port_indices(it, count), it.choice("DataPortForDefault", (LAST, "Additional data port"), LAST)
    said = it.settings.type(it.block, "OutDataTypeStr", INTERNAL)
    kind, rounding = INTERNAL if said == INTERNAL else str(it.result(INTERNAL, 2)), it.rounding()
    group = it.group(1 + count + (default != LAST))
    control, items = group.inputs[0], group.inputs[1 : count + 1]
    kept, tested = (items[-1], list(zip(indices, items))[:-1]) if default == LAST else (group.inputs[-1], list(zip(indices, items)))
    for index, item in reversed(tested):
        number = fixed.narrowest(min(index, 0), max(index, 0), 0)
        test = group.put("RelationalOperator", f"is {index}", control, group.constant(f"index {index}", [Fraction(index)], number), Operator="==")
        kept = group.put("Switch", f"at {index}", item, test, kept, Criteria=NOT_ZERO, OutDataTypeStr=kind, **rounding)
    group.close(kept)
    others = "the last data port" if default == LAST else "the additional data port"
    it.tell(f"MultiPortSwitch: {len(tested)} comparisons and Switches; any other index gives {others}" + ("; its type is by the profile's internal rule" if kind == INTERNAL else ""))


def table(group: Group, source: Source, points: list[Fraction], values: list[Fraction], kind: FixType) -> Source:
    """A tree of Switches that gives the value of the last point that the source has reached."""
    constants: dict[Fraction, Source] = {}

    def leaf(value: Fraction) -> Source:
        if value not in constants:
            constants[value] = group.constant(f"value {len(constants)}", [value], kind)
        return constants[value]

    def part(low: int, high: int) -> Source:
        if len(set(values[low : high + 1])) == 1:
            return leaf(values[low])
        middle = (low + high + 1) // 2
        upper, lower = part(middle, high), part(low, middle - 1)
        return group.put("Switch", f"from {middle}", upper, source, lower, Criteria=AT_LEAST, Threshold=listed([points[middle]]), OutDataTypeStr=kind)

    return part(0, len(values) - 1)


def table_type(it: Rebuild, default: str) -> FixType:
    """The type of a table's result."""
    said = it.settings.type(it.block, "OutDataTypeStr", default)
    if said == "Inherit: Inherit from table data":
        return it.result(said, name="TableDataTypeStr")
    return it.result(default)


def breakpoints(it: Rebuild, name: str, count: int, kind: FixType) -> list[Fraction]:
    if it.block.given.get("BreakpointsSpecification", "Explicit values") == "Even spacing":
        first, by = it.number(name + "FirstPoint", "1"), it.number(name + "Spacing", "1")
        found = [first + by * number for number in range(count)]
    else:
        it.choice("BreakpointsSpecification", ("Explicit values",), "Explicit values", "give the breakpoints in the block")
        found = it.numbers(name, "[10,22,31]")
    taken = represented(found, kind)
    if len(taken) != count or any(a >= b for a, b in zip(taken, taken[1:])):
        raise Refusal(f"breakpoints that don't rise, one for each of {count} values, in the input's type {kind}", "as many breakpoints as values, rising also as rounded", name, it.block.given.get(name, ""))
    return taken


def lookup(it: Rebuild) -> None:
    """A table of one dimension with breakpoints, without interpolation, clipped at its ends."""
    it.choice("NumberOfTableDimensions", ("1",), "1", "one dimension: choose among several tables by a MultiPortSwitch")
    it.choice("InterpMethod", ("Flat", "None - Flat"), "Linear point-slope", "Flat, with more breakpoints, or the interpolation drawn of Sum, Product and Gain")
    it.choice("ExtrapMethod", ("Clip", "None - Clip"), "Linear", "Clip")
    it.choice("BreakpointsForDimension1DataTypeStr", ("Inherit: Same as corresponding input",), "Inherit: Same as corresponding input")
    flat(it, "Table", "BreakpointsForDimension1")


def old_lookup(it: Rebuild) -> None:
    it.choice("LookUpMeth", ("Use Input Below",), "Interpolation-Extrapolation", "Use Input Below, with more breakpoints")
    flat(it, "OutputValues" if "OutputValues" in it.block.given else "Table", "InputValues")


def flat(it: Rebuild, name: str, points: str) -> None:
    kind, values = table_type(it, FIRST), it.numbers(name, "tanh([-5:5])")
    said = it.settings.type(it.block, "TableDataTypeStr", "Inherit: Same as output")
    if isinstance(said, FixType) and said != kind:
        raise Refusal("table data of another type than the output", "Inherit: Same as output", "TableDataTypeStr", str(said))
    build_table(it, breakpoints(it, points, len(values), it.input_type()), values, kind)


def build_table(it: Rebuild, points: list[Fraction], values: list[Fraction], kind: FixType) -> None:
    if not 1 <= len(values) <= LARGEST:
        raise Refusal(f"a table of {len(values)} values", f"at most {LARGEST}")
    group = it.group()
    group.close(table(group, group.inputs[0], points, represented(values, kind), kind))
    it.tell(f"a table: a tree of Switches over {len(values)} values of {kind}, the first and the last beyond its ends")


def direct_lookup(it: Rebuild) -> None:
    """A table whose index counts from 0; an index beyond its ends takes the end."""
    it.choice("NumberOfTableDimensions", ("1",), "2", "one dimension")
    it.choice("InputsSelectThisObjectFromTable", ("Element",), "Element")
    it.choice("TableIsInput", ("off",), "off")
    index = it.input_type()
    if index.frac > 0:
        raise Refusal("an index with a fraction", "convert it to a whole type")
    values = it.numbers("Table", "[4 5 6]")
    kind = it.result("Inherit: Inherit from 'Table data'", name="TableDataTypeStr")
    group = it.group()
    top = min(len(values) - 1, index.highest << -index.frac)
    group.close(table(group, group.inputs[0], [Fraction(number) for number in range(top + 1)], represented(values, kind)[: top + 1], kind))
    it.tell(f"a table by an index from 0: a tree of Switches over {top + 1} values of {kind}")
