"""Rebuilds of blocks that reckon: sums of elements, accumulators, matrices, filters, integrators, bits."""

from collections.abc import Callable
from fractions import Fraction

from . import fixed
from .choosing import limited, represented
from .fixed import FixType
from .group import Group, Rebuild, Source
from .profile import EACH, FIRST, INPUT
from .report import NotYet, Refusal
from .settings import INTERNAL, listed

# Whether a filter is rebuilt, or written as a block that the program takes itself.
FIR_IS_REBUILT = True
SAME_WORD = "Inherit: Same word length as input"
SAME_AS_ACCUMULATOR = "Inherit: Same as accumulator"
MOST_TERMS = 32


def holds(wide: FixType, kind: FixType) -> bool:
    """Whether a type holds each value of another."""
    return wide.frac >= kind.frac and wide.lowest * wide.step <= kind.lowest * kind.step and wide.highest * wide.step >= kind.highest * kind.step


def added(group: Group, terms: list[tuple[bool, Source]], kind: str, options: dict[str, object], name: str = "sum") -> Source:
    """The exact sum of terms, a true one subtracted, converted once; of many terms in steps."""
    step = 0
    while len(terms) > MOST_TERMS:
        step += 1
        some, terms = terms[:MOST_TERMS], terms[MOST_TERMS:]
        part = group.put("Sum", f"part {step}", *(source for _, source in some), Inputs="".join("-" if negative else "+" for negative, _ in some))
        terms.append((False, part))
    if len(terms) == 1:
        terms.append((False, group.put("Ground", "zero")))
    return group.put("Sum", name, *(source for _, source in terms), Inputs="".join("-" if negative else "+" for negative, _ in terms), OutDataTypeStr=kind, **options)


def accumulated(group: Group, terms: list[tuple[bool, Source, FixType]], kind: FixType, options: dict[str, object]) -> Source:
    """The sum of terms in an accumulator of a type: each is converted to it, and added in its turn."""
    kept: Source | None = None
    for number, (negative, source, own) in enumerate(terms, 1):
        if not holds(kind, own) or (kept is None and own != kind):
            source = group.put("DataTypeConversion", f"term {number}", source, OutDataTypeStr=kind, **options)
        if kept is None and not negative:
            kept = source
        else:
            first = kept or group.put("Ground", "zero")
            kept = group.put("Sum", f"sum {number}", first, source, Inputs="+-" if negative else "++", OutDataTypeStr=kind, **options)
    return kept


def total(it: Rebuild) -> None:
    """A Sum of the elements of one input, or one with an accumulator of a type of its own."""
    signs = str(it.block.parameters["Inputs"])
    options = {name: it.block.parameters[name] for name in ("RndMeth", "SaturateOnIntegerOverflow")}
    period = it.block.parameters["SampleTime"]
    said = it.settings.type(it.block, "AccumDataTypeStr", INTERNAL)
    kinds = [it.input_type(number) for number in range(1, len(signs) + 1)]
    width = it.width() if len(signs) == 1 else 0
    group = it.group(len(signs), period)
    sources = group.inputs
    if width > 1:
        it.choice("CollapseMode", ("All dimensions",), "All dimensions")
        parted = group.put("Demux", "elements", sources[0], Outputs=width)
        sources, kinds, signs = [(parted[0], number) for number in range(1, width + 1)], kinds * width, signs * width
    accumulator = kinds[0] if said in (FIRST, INPUT) else said
    kind = str(it.block.parameters["OutDataTypeStr"])
    exact = fixed.full_sum([(sign == "-", own) for sign, own in zip(signs, kinds)])
    if isinstance(accumulator, FixType) and not (exact and holds(accumulator, exact)):
        terms = [(sign == "-", source, own) for sign, source, own in zip(signs, sources, kinds)]
        kept = accumulated(group, terms, accumulator, options)
        wanted = str(accumulator) if kind == INTERNAL else str(kinds[0]) if kind == FIRST else kind
        group.close(kept if wanted == str(accumulator) else group.put("DataTypeConversion", "result", kept, OutDataTypeStr=wanted, **options))
        it.tell(f"Sum: {len(signs)} terms are added one by one in an accumulator of {accumulator}")
        return
    if not isinstance(accumulator, FixType) and accumulator != INTERNAL:
        raise Refusal("an inheriting choice that isn't covered", "declare a type", "AccumDataTypeStr", str(said))
    group.close(added(group, [(sign == "-", source) for sign, source in zip(signs, sources)], str(kinds[0]) if kind == FIRST else kind, options))
    it.tell(f"Sum: the exact sum of {len(signs)} terms, converted once")


def matrix_gain(it: Rebuild) -> None:
    """`K*u` or `u*K` with a matrix K: a Gain for each element that isn't 0, and a Sum for each row."""
    words = it.choice("Multiplication", ("Matrix(K*u)", "Matrix(u*K)", "Matrix(K*u) (u vector)"), "")
    found = it.settings.matrix(it.block, "Gain", "1")
    matrix = found.transposed() if words == "Matrix(u*K)" else found
    high, wide = matrix.shape
    driver, width = it.input_type(), it.width()
    if (high, wide) == (1, 1) or (width == 1 and wide == 1):
        it.block.parameters["Gain"] = listed(matrix.numbers)
        it.block.settled = True
        it.tell("Gain: of one column, so that it goes element by element")
        return
    if wide != width:
        raise Refusal(f"a matrix of {wide} columns for {width} elements", "a matrix that fits", "Gain", it.block.given.get("Gain", ""))
    parameter = fixed.read(str(it.block.parameters["ParamDataTypeStr"])) or fixed.parameter_type(matrix.numbers, driver)
    product = fixed.full_product(driver, parameter) if parameter else None
    exact = fixed.full_sum([(False, product)] * wide) if product else None
    said = str(it.block.parameters["OutDataTypeStr"])
    kind = str(exact) if said == INTERNAL else str(driver) if said == INPUT else said
    if exact is None:
        raise Refusal("more than 128 bits", "declare ParamDataTypeStr with fewer", "Gain", it.block.given.get("Gain", ""))
    options = {name: it.block.parameters[name] for name in ("RndMeth", "SaturateOnIntegerOverflow")}
    group = it.group(1, it.block.parameters["SampleTime"])
    parted = group.put("Demux", "elements", group.inputs[0], Outputs=wide)
    rows = []
    for i, line in enumerate(matrix.rows, 1):
        terms = [(False, group.put("Gain", f"k{i},{j}", (parted[0], j), Gain=listed([value]), ParamDataTypeStr=parameter)) for j, value in enumerate(line, 1) if value]
        rows.append(added(group, terms, kind, options, f"row {i}") if terms else group.constant(f"row {i}", [Fraction(0)], fixed.read(kind)))
    group.close(rows[0] if high == 1 else group.put("Mux", "rows", *rows, Inputs=high))
    it.tell(f"Gain: {high} rows of Gains with coefficients of {parameter}, and a Sum for each, converted once to {kind}")


def coefficient_type(it: Rebuild, values: list[Fraction], driver: FixType) -> FixType:
    said = it.settings.type(it.block, "CoefDataTypeStr", SAME_WORD)
    if isinstance(said, FixType) and said.frac is not None:
        return said
    if isinstance(said, str) and said != SAME_WORD:
        raise Refusal("an inheriting choice that isn't covered", "declare a type", "CoefDataTypeStr", said)
    kind = fixed.parameter_type(values, driver) if isinstance(said, str) else fixed.best(values, said.signed, said.width)
    if kind is None:
        raise Refusal("no fraction holds the coefficients", "declare a type", "CoefDataTypeStr", str(said))
    return kind


def inner_type(it: Rebuild, name: str) -> FixType | None:
    """The declared type of products or of the accumulator, or none where they are exact."""
    said = it.settings.type(it.block, name, INTERNAL)
    if isinstance(said, FixType):
        return said
    if said != INTERNAL:
        raise Refusal("an inheriting choice that isn't covered", "declare a type, or the internal rule", name, said)
    return None


def filtered(it: Rebuild) -> None:
    """A discrete FIR filter: delays in a chain, a Gain for each coefficient, and their sum."""
    it.choice("CoefSource", ("Dialog parameters",), "Dialog parameters")
    structure = it.choice("FilterStructure", ("Direct form", "Direct form symmetric", "Direct form antisymmetric", "Direct form transposed"), "Direct form")
    it.choice("InputProcessing", (EACH, "Inherited (this choice will be removed - see release notes)"), EACH)
    values, initial = it.numbers("Coefficients", "[0.5 0.5]"), it.numbers("InitialStates", "0")
    if len(initial) not in (1, len(values) - 1):
        raise Refusal("as many states as none of the delays have", "one, or one less than the coefficients", "InitialStates", listed(initial))
    product, accumulator = inner_type(it, "ProductDataTypeStr"), inner_type(it, "AccumDataTypeStr")
    if structure != "Direct form" and (product or accumulator or any(initial)):
        raise Refusal("covered with exact products and sums and no initial states alone", "Direct form", "FilterStructure", structure)
    driver = it.input_type()
    kind = coefficient_type(it, values, driver)
    said = it.settings.type(it.block, "OutDataTypeStr", INTERNAL)
    result = INTERNAL if said in (INTERNAL, SAME_AS_ACCUMULATOR) else str(it.result(INTERNAL))
    options = {**it.rounding(), "SampleTime": it.period()}
    it.tell(f"DiscreteFir: {len(values)} coefficients, all of {kind}" + (f"; {structure} gives the numbers of Direct form, as all is exact up to the result" if structure != "Direct form" else ""))
    if not FIR_IS_REBUILT and not product and not accumulator and 2 <= len(values) <= MOST_TERMS:
        whole = fixed.full_sum([(False, fixed.full_product(driver, kind) or kind)] * len(values)) if result == INTERNAL else result
        it.block.parameters = {"Coefficients": listed(values), "InitialStates": listed(initial), "CoefDataTypeStr": str(kind), "OutDataTypeStr": str(whole), **options}
        it.block.settled = True
        return
    build_filter(it, values, initial * (len(values) - 1) if len(initial) == 1 else initial, (driver, kind, product, accumulator, result), options)


def build_filter(it: Rebuild, values: list[Fraction], initial: list[Fraction], kinds: tuple, options: dict[str, object]) -> None:
    driver, kind, product, accumulator, result = kinds
    rounding = {name: options[name] for name in ("RndMeth", "SaturateOnIntegerOverflow")}
    group = it.group(1, "-1")
    taps = [group.inputs[0]]
    for number, state in enumerate(initial, 1):
        taps.append(group.put("Delay", f"d{number}", taps[-1], DelayLength="1", InitialCondition=listed([state])))
    typed = {"OutDataTypeStr": product, **rounding} if product else {}
    terms = [(False, group.put("Gain", f"c{number}", tap, Gain=listed([value]), ParamDataTypeStr=kind, **typed)) for number, (tap, value) in enumerate(zip(taps, values))]
    if accumulator:
        own = product or fixed.full_product(driver, kind)
        if own is None:
            raise Refusal("a product of more than 128 bits", "declare CoefDataTypeStr with fewer", "CoefDataTypeStr", str(kind))
        kept = accumulated(group, [(negative, source, own) for negative, source in terms], accumulator, rounding)
        group.close(kept if result in (INTERNAL, str(accumulator)) else group.put("DataTypeConversion", "result", kept, OutDataTypeStr=result, **options))
    else:
        group.close(added(group, terms, result, options))


def integrated(it: Rebuild) -> None:
    """A discrete integrator by forward Euler: what it shows is the state before this sample's input."""
    method = it.choice("IntegratorMethod", ("Integration: Forward Euler", "Accumulation: Forward Euler", "ForwardEuler"), "Integration: Forward Euler", "forward Euler")
    it.choice("ExternalReset", ("none",), "none", "none: a Switch before the state resets it")
    it.choice("InitialConditionSource", ("internal",), "internal")
    for name in ("ShowStatePort", "ShowSaturationPort"):
        it.choice(name, ("off",), "off")
    kind, driver, period = it.result(INTERNAL), it.input_type(), it.period()
    factor = it.number("gainval", "1.0")
    if not method.startswith("Accumulation"):
        taken = period if isinstance(period, Fraction) else it.signals.period_in(it.block)
        if not isinstance(taken, Fraction):
            raise NotYet("its sample time isn't known")
        factor *= taken
    initial = it.numbers("InitialCondition", "0")
    limits = it.settings.flag(it.block, "LimitOutput") == "on"
    low, high = (it.numbers("LowerSaturationLimit", "-inf"), it.numbers("UpperSaturationLimit", "inf")) if limits else ([], [])
    if limits:
        initial = [min(max(value, *represented(low, kind)), *represented(high, kind)) for value in initial]
    group = it.group()
    state = group.put("UnitDelay", "state", InitialCondition=listed(initial))
    step = group.inputs[0] if factor == 1 else group.put("Gain", "step", group.inputs[0], Gain=listed([factor]))
    new = group.put("Sum", "next", state, step, OutDataTypeStr=kind, **it.rounding())
    group.join(limited(group, new, low, high, kind) if limits else new, state)
    group.close(state)
    coefficient = fixed.parameter_type([factor], driver)
    it.tell(f"DiscreteIntegrator: a UnitDelay of {kind} that adds " + ("the input" if factor == 1 else f"{listed([factor])} (of {coefficient}) times the input") + ", converted once")


def biased(it: Rebuild) -> None:
    kind = it.input_type()
    offset(it, represented(it.numbers("Bias", "0.0"), kind), kind, it.settings.flag(it.block, "SaturateOnIntegerOverflow"))


def offset(it: Rebuild, values: list[Fraction], kind: FixType, saturates: str) -> None:
    group = it.group(1, "-1")
    constant = group.constant("offset", values, kind)
    group.close(group.put("Sum", "sum", group.inputs[0], constant, OutDataTypeStr=kind, SaturateOnIntegerOverflow=saturates))
    it.tell(f"adds {listed(values)} in the input's type {kind}")


def stepped(of_stored: bool, up: bool) -> Callable[[Rebuild], None]:
    """Increments and decrements, by 1 or by a step of the type; they wrap."""
    def rebuild(it: Rebuild) -> None:
        kind = it.input_type()
        size = kind.step if of_stored else Fraction(1)
        value = size if up else -size
        exact = fixed.exact([value])
        group = it.group(1, "-1")
        if (not of_stored and kind.frac < 0) or exact is None:
            raise Refusal(f"{kind} doesn't hold 1", "a type with a fraction that does")
        group.close(group.put("Sum", "sum", group.inputs[0], group.constant("step", [value], exact), OutDataTypeStr=kind))
        it.tell(f"adds {listed([value])} in the input's type {kind}, and wraps")
    return rebuild


def cut(it: Rebuild, high: int, low: int, kind: FixType, said: str) -> None:
    """The bits from `high` down to `low` of the stored integer, as a number of a type."""
    if high + 1 > 127:
        raise Refusal("bits above bit 126", "convert the input to fewer bits")
    group = it.group(1, "-1")
    bits = group.put("DataTypeConversion", "bits below", group.inputs[0], OutDataTypeStr=FixType(False, high + 1, low), ConvertRealWorld="Stored Integer (SI)")
    whole = group.put("DataTypeConversion", "bits", bits, OutDataTypeStr=FixType(False, high - low + 1))
    group.close(whole if kind.frac == 0 and kind == FixType(False, high - low + 1) else group.put("DataTypeConversion", "scaled", whole, OutDataTypeStr=kind, ConvertRealWorld="Stored Integer (SI)"))
    it.tell(f"{said}: bits {high} to {low} of the stored integer, as {kind}")


def bit_slice(it: Rebuild) -> None:
    width = it.input_type().width
    high, low = it.whole("lidx", "7", 0, width - 1), it.whole("ridx", "0", 0, width - 1)
    if high < low:
        raise Refusal("the left bit is below the right one", "exchange them", "lidx", str(high))
    cut(it, high, low, FixType(False, high - low + 1), "Bit Slice")


def extract_bits(it: Rebuild) -> None:
    kind = it.input_type()
    words = ("Upper half", "Lower half", "Range starting with most significant bit", "Range ending with least significant bit", "Range of bits")
    said = it.choice("bitsToExtract", words, "Upper half")
    half, width = -(-kind.width // 2), kind.width
    if said == "Range of bits":
        low, high = (int(value) for value in it.numbers("bitIdxRange", "[0 7]"))
    elif said.endswith("half"):
        low, high = (width - half, width - 1) if said == "Upper half" else (0, half - 1)
    else:
        count = it.whole("numBits", "8", 1, width)
        low, high = (width - count, width - 1) if "most" in said else (0, count - 1)
    if not 0 <= low <= high < width:
        raise Refusal("bits that the input hasn't", f"bits 0 to {width - 1}", "bitIdxRange", it.block.given.get("bitIdxRange", ""))
    keeps = it.choice("outScalingMode", ("Preserve fixed-point scaling", "Treat bit field as an integer"), "Preserve fixed-point scaling").startswith("Preserve")
    cut(it, high, low, FixType(False, high - low + 1, kind.frac - low if keeps else 0), "Extract Bits, without a sign")
