"""The model's own Verilog: each equation once a base sample, on words as wide as its exact result needs."""

from fractions import Fraction
from typing import Optional

from equality.diagram import Block, inputs_of, outputs_of, signs
from equality.schedule import Schedule
from equality.signals import Signals, list_of
from equality.values import Type, decimals, full_product, full_sum, stored

CRITERIA = {"u2 >= Threshold": ">=", "u2 > Threshold": ">", "u2 ~= 0": "!="}
RELATIONS = {"==": "==", "~=": "!=", "<": "<", "<=": "<=", ">=": ">=", ">": ">"}
GATES = {"AND": "&", "NAND": "&", "OR": "|", "NOR": "|", "XOR": "^", "NXOR": "^", "NOT": "|"}


def number(value: int, width: int, signed: bool = True) -> str:
    return f"{width}'{'s' if signed else ''}h{value % (1 << width):x}"


def word(of: Type) -> str:
    return f"{'signed ' if of.signed else ''}[{of.width - 1}:0]"


class Ideal:
    """Lines of Verilog by which each element of a block's output stands in a net `b<block>_<output>_<element>`."""

    def __init__(self, signals: Signals, schedule: Schedule) -> None:
        self.signals, self.schedule, self.types, self.periods = signals, schedule, signals.types, signals.periods
        self.places = {block: at for at, block in enumerate(signals.blocks)}
        self.nets: list[str] = []
        self.lines: list[str] = []
        # what a module may remember: each net, with its width
        self.remembered: dict[str, int] = {}
        self.count = 0
        for block in signals.blocks:
            for port in range(outputs_of(block)):
                for element in range(signals.widths[block][port]):
                    self.define(block, port, element)

    # ---- nets

    def name(self, block: Block, port: int, element: int) -> str:
        return f"b{self.places[block]}_{port}_{element}"

    def operand(self, block: Block, at: int, element: int) -> tuple[str, Type]:
        """What stands at an input, of which one element is repeated."""
        source, port = block.drivers[at]
        last = self.signals.widths[source][port] - 1
        return self.name(source, port, min(element, last)), self.types[source]

    def wire(self, width: int, value: str, signed: bool = True) -> str:
        """A new net that shows a value."""
        self.count += 1
        self.lines.append(f"  wire {'signed ' if signed else ''}[{width - 1}:0] t{self.count} = {value};")
        return f"t{self.count}"

    def wide(self, net: str, width: int) -> str:
        """The same number in a wider word with a sign."""
        return self.wire(width, net)

    def signed(self, net: str, of: Type) -> str:
        return net if of.signed else f"$signed({{1'b0, {net}}})"

    def parameter(self, block: Block, element: int, of: Type) -> int:
        told = list_of(block)
        return stored(told[min(element, len(told) - 1)], of)

    # ---- conversion

    def rounded(self, net: str, width: int, shift: int, mode: str) -> str:
        """A number without its last bits."""
        half, negative = 1 << (shift - 1), f"{net}[{width - 1}]"
        floor, up = f"({net} >>> {shift})", f"(({net} + {number(2 * half - 1, width)}) >>> {shift})"
        below, nearest = (f"(({net} + {number(of, width)}) >>> {shift})" for of in (half - 1, half))
        even = f"(({net} + {number(half - 1, width)} + $signed({{1'b0, {net}[{shift}]}})) >>> {shift})"
        return {
            "Floor": floor, "Ceiling": up, "Zero": f"({negative} ? {up} : {floor})", "Nearest": nearest,
            "Round": f"({negative} ? {below} : {nearest})", "Convergent": even,
        }[mode]  # fmt: skip

    def converted(self, net: str, width: int, frac: int, into: Type, block: Block) -> str:
        """A value that is a signed net of this width, in the type of the block's result."""
        if into.boolean:
            return f"({net} != {number(0, width)})"
        shift = frac - into.frac
        reach = width + max(shift, -shift) + 2
        net = self.wide(net, reach)
        if shift > 0:
            net = self.wire(reach, self.rounded(net, reach, shift, block.get("RndMeth")))
        elif shift < 0:
            net = self.wire(reach, f"({net} <<< {-shift})")
        if block.get("SaturateOnIntegerOverflow") != "on":
            return net
        reach = max(reach, into.width + 2)
        net, low, high = self.wide(net, reach), number(into.low, reach), number(into.high, reach)
        return f"({net} < {low} ? {low} : {net} > {high} ? {high} : {net})"

    # ---- equations

    def define(self, block: Block, port: int, element: int) -> None:
        of, net = self.types[block], self.name(block, port, element)
        self.nets.append(f"  wire {word(of)} {net};")
        self.remembered[net] = of.width
        value = getattr(self, f"of_{block.kind}")(block, port, element)
        self.lines.append(f"  assign {net} = {value};")

    def port(self, letter: str, block: Block, element: int) -> str:
        return f"{letter}{block.get('Port')}_{element}"

    def of_Inport(self, block: Block, port: int, element: int) -> str:
        return self.port("i", block, element)

    def of_Constant(self, block: Block, port: int, element: int) -> str:
        of = self.types[block]
        return number(self.parameter(block, element, of), of.width, of.signed)

    def of_Ground(self, block: Block, port: int, element: int) -> str:
        return "1'b0"

    def of_Sum(self, block: Block, port: int, element: int) -> str:
        terms = [(negative, *self.operand(block, at, element)) for at, negative in enumerate(signs(block))]
        accumulator = self.signals.accumulator(block)
        if accumulator is None:
            return self.added(terms, self.types[block], block)
        total = self.wire(accumulator.width, number(0, accumulator.width), accumulator.signed)
        for term in terms:
            step = self.added([(False, total, accumulator), term], accumulator, block)
            total = self.wire(accumulator.width, step, accumulator.signed)
        wide = accumulator.width + 1
        return self.converted(self.wide(total, wide), wide, accumulator.frac, self.types[block], block)

    def added(self, terms: list[tuple[bool, str, Type]], into: Type, block: Block) -> str:
        """The exact sum of nets, of which those marked are subtracted, in a type of the block's."""
        full = full_sum((negative, of) for negative, _, of in terms)
        width = full.width + 2
        parts = [f"{'-' if negative else '+'} ({self.wide(net, width)} <<< {full.frac - of.frac})" for negative, net, of in terms]
        return self.converted(self.wire(width, f"{number(0, width)} {' '.join(parts)}"), width, full.frac, into, block)

    def of_Product(self, block: Block, port: int, element: int) -> str:
        (left, of_left), (right, of_right) = self.operand(block, 0, element), self.operand(block, 1, element)
        return self.product(block, (self.signed(left, of_left), of_left), (self.signed(right, of_right), of_right))

    def of_Gain(self, block: Block, port: int, element: int) -> str:
        net, of = self.operand(block, 0, element)
        factor = self.signals.factor(block)
        told = Type(factor.signed, factor.width, factor.frac)
        coefficient = self.parameter(block, element, factor)
        return self.product(block, (self.signed(net, of), of), (number(coefficient, told.width + (not told.signed)), told))

    def product(self, block: Block, left: tuple[str, Type], right: tuple[str, Type]) -> str:
        full = full_product(left[1], right[1])
        width = full.width + 2
        exact = self.wire(width, f"{left[0]} * {right[0]}")
        return self.converted(exact, width, full.frac, self.types[block], block)

    def of_Switch(self, block: Block, port: int, element: int) -> str:
        control, of = self.operand(block, 1, element)
        told = block.get("Criteria")
        threshold = 0 if told == "u2 ~= 0" else stored(self.threshold(block, element), of)
        width = of.width + 2
        meets = f"({self.wide(control, width)} {CRITERIA[told]} {number(threshold, width)})"
        chosen = []
        for at in (0, 2):
            net, comes = self.operand(block, at, element)
            value = self.converted(self.wide(net, comes.width + 1), comes.width + 1, comes.frac, self.types[block], block)
            chosen.append(self.wire(self.types[block].width, value, self.types[block].signed))
        return f"({meets} ? {chosen[0]} : {chosen[1]})"

    def threshold(self, block: Block, element: int) -> Fraction:
        told = decimals(block.get("Threshold"))
        return told[min(element, len(told) - 1)]

    def of_RelationalOperator(self, block: Block, port: int, element: int) -> str:
        sides = [self.operand(block, at, element) for at in range(2)]
        frac = max(of.frac for _, of in sides)
        width = max(of.width + frac - of.frac for _, of in sides) + 2
        left, right = (self.wire(width, f"{self.wide(net, width)} <<< {frac - of.frac}") for net, of in sides)
        return f"({left} {RELATIONS[block.get('Operator')]} {right})"

    def of_Logic(self, block: Block, port: int, element: int) -> str:
        bits = [f"(|{self.operand(block, at, element)[0]})" for at in range(inputs_of(block))]
        gate = block.get("Operator")
        value = f" {GATES[gate]} ".join(bits)
        return f"!({value})" if gate.startswith("N") else f"({value})"

    def of_DataTypeConversion(self, block: Block, port: int, element: int) -> str:
        net, of = self.operand(block, 0, element)
        into = self.types[block]
        by_bits = block.get("ConvertRealWorld") == "Stored Integer (SI)"
        return self.converted(self.wide(net, of.width + 1), of.width + 1, into.frac if by_bits else of.frac, into, block)

    def of_Mux(self, block: Block, port: int, element: int) -> str:
        for source, of in (block.drivers[at] for at in range(inputs_of(block))):
            if element < self.signals.widths[source][of]:
                return self.name(source, of, element)
            element -= self.signals.widths[source][of]
        raise AssertionError("an element behind the inputs")

    def of_Demux(self, block: Block, port: int, element: int) -> str:
        source, of = block.drivers[0]
        return self.name(source, of, sum(self.signals.widths[block][:port]) + element)

    def of_Pass(self, block: Block, port: int, element: int) -> str:
        return self.operand(block, 0, element)[0]

    of_Outport = of_Terminator = of_Pass

    def of_EnableTest(self, block: Block, port: int, element: int) -> str:
        source, of = block.drivers[0]
        zero = number(0, self.types[source].width, self.types[source].signed)
        return " | ".join(f"({self.name(source, of, at)} > {zero})" for at in range(self.signals.widths[source][of]))

    # ---- what remembers

    def register(self, of: Type, first: int, condition: str, value: str, again: Optional[str] = None) -> str:
        """A register that takes a value at the end of the samples where the condition holds, and its first value
        again where that is asked for."""
        self.count += 1
        name, start = f"s{self.count}", number(first, of.width, of.signed)
        self.lines.append(f"  (* init = {start} *) reg {word(of)} {name};")
        taken = f"{again} ? {start} : {value}" if again else value
        self.lines.append(f"  always @(posedge clk) if (step && {condition}) {name} <= {taken};")
        return name

    def hit(self, period: Optional[int]) -> str:
        return "1'b1" if period in (None, 1) else f"hit_{period}"

    def last(self, period: Optional[int]) -> str:
        """Whether the sample is the last before a hit of this period."""
        return "1'b1" if period in (None, 1) else f"last_{period}"

    def delay(self, block: Block, port: int, element: int) -> str:
        net, of = self.operand(block, 0, element)
        first, condition, again = self.parameter(block, element, of), self.last(self.periods[block]), None
        if block.enable is not None:
            enabled = self.name(block.enable, 0, 0)
            again = f"!{enabled}" if block.resets else None
            condition = condition if block.resets else f"{condition} && {enabled}"
        for _ in range(block.length):
            net = self.register(of, first, condition, net, again)
        return net

    of_UnitDelay = of_Delay = delay

    def of_EnOut(self, block: Block, port: int, element: int) -> str:
        net, of = self.operand(block, 0, element)
        enabled, first = self.name(block.enable, 0, 0), self.parameter(block, element, of)
        if block.resets:
            return f"({enabled} ? {net} : {number(first, of.width, of.signed)})"
        held = self.register(of, first, enabled, net)
        return f"({enabled} ? {net} : {held})"

    def of_RateTransition(self, block: Block, port: int, element: int) -> str:
        net, of = self.operand(block, 0, element)
        own, comes = self.periods[block], self.periods[block.sources[0]]
        if comes is None or comes == own:
            return net
        if comes > own:
            return self.register(of, self.parameter(block, element, of), self.last(comes), net)
        held = self.register(of, 0, self.hit(own), net)
        return f"({self.hit(own)} ? {net} : {held})"
