"""Runs the module of a text of the Verilog subset clock by clock, in Python (IEEE 1364-2005, 4 and 5.4 to 5.5).

It is an independent reader: nothing here is of the program, and no other tool is needed.
"""

from typing import Callable, Dict, List, Optional, Sequence, Set, Tuple

from subset import Binary, Cast, Choice, Concat, Expression, Module, Name, Number, Part, Repeat, Unary, names_in
from written import Failed

# Of what registers hold and inputs show: what nets show, which registers take, and what they would take.
Step = Callable[[Dict[str, int], Dict[str, int]], Tuple[Dict[str, int], Dict[str, bool], Dict[str, int]]]
RELATIONS = ("==", "!=", "<", "<=", ">", ">=")


class Shapes:
    """Widths and signs of expressions by themselves."""

    def __init__(self, module: Module) -> None:
        self.nets = module.nets

    def width(self, one: Expression) -> int:
        if isinstance(one, Name):
            return self.nets[one.name].width
        if isinstance(one, Part):
            return one.high - one.low + 1
        if isinstance(one, Number):
            return one.width
        if isinstance(one, Concat):
            return sum(map(self.width, one.parts))
        if isinstance(one, Repeat):
            return one.count * self.width(one.part)
        if isinstance(one, Unary):
            return 1 if one.operator == "!" else self.width(one.part)
        if isinstance(one, Binary):
            if one.operator in RELATIONS + ("&&", "||"):
                return 1
            return self.width(one.left) if one.operator in ("<<", ">>", ">>>") else max(self.width(one.left), self.width(one.right))
        if isinstance(one, Choice):
            return max(self.width(one.yes), self.width(one.no))
        return self.width(one.part)

    def signed(self, one: Expression) -> bool:
        if isinstance(one, Name):
            return self.nets[one.name].signed
        if isinstance(one, (Number, Cast)):
            return one.signed
        if isinstance(one, Unary):
            return one.operator != "!" and self.signed(one.part)
        if isinstance(one, Binary):
            if one.operator in RELATIONS + ("&&", "||"):
                return False
            return self.signed(one.left) and (one.operator in ("<<", ">>", ">>>") or self.signed(one.right))
        if isinstance(one, Choice):
            return self.signed(one.yes) and self.signed(one.no)
        return False


class Compiler:
    """Python expressions whose value is the bits of an expression of the subset, as a number without sign."""

    def __init__(self, module: Module, variables: Dict[str, str]) -> None:
        self.shapes, self.variables, self.nets = Shapes(module), variables, module.nets

    def alone(self, one: Expression) -> str:
        """An expression that stands where nothing widens it."""
        return self.within(one, self.shapes.width(one), self.shapes.signed(one))

    def assigned(self, one: Expression, width: int) -> str:
        """An expression that is assigned to a net."""
        wide = max(width, self.shapes.width(one))
        code = self.within(one, wide, self.shapes.signed(one))
        return code if wide == width else f"({code} & {(1 << width) - 1})"

    def extended(self, code: str, own: int, width: int, signed: bool) -> str:
        if own == width or not signed:
            return code
        return f"(((({code}) ^ {1 << own - 1}) - {1 << own - 1}) & {(1 << width) - 1})"

    def number(self, code: str, width: int, signed: bool) -> str:
        """The number that bits stand for."""
        return f"((({code}) ^ {1 << width - 1}) - {1 << width - 1})" if signed else code

    def within(self, one: Expression, width: int, signed: bool) -> str:
        """An expression in a context of a width and a sign."""
        mask = (1 << width) - 1
        if isinstance(one, Unary) and one.operator != "!":
            return f"({one.operator}{self.within(one.part, width, signed)} & {mask})"
        if isinstance(one, Choice):
            yes, no = (self.within(part, width, signed) for part in (one.yes, one.no))
            return f"({yes} if {self.alone(one.condition)} else {no})"
        if isinstance(one, Binary) and one.operator in ("<<", ">>", ">>>"):
            return self.shifted(one, width, signed)
        if isinstance(one, Binary) and one.operator not in RELATIONS + ("&&", "||"):
            left, right = (self.within(part, width, signed) for part in (one.left, one.right))
            return f"({left} {one.operator} {right})" if one.operator in "&|^" else f"(({left} {one.operator} {right}) & {mask})"
        return self.extended(self.closed(one), self.shapes.width(one), width, signed)

    def shifted(self, one: Binary, width: int, signed: bool) -> str:
        left, mask = self.within(one.left, width, signed), (1 << width) - 1
        amount = min(one.right.value, width)
        if one.operator == "<<":
            return f"(({left} << {amount}) & {mask})"
        if one.operator == ">>" or not signed:
            return f"({left} >> {amount})"
        return f"(({self.number(left, width, True)} >> {amount}) & {mask})"

    def closed(self, one: Expression) -> str:
        """An expression whose parts no context reaches."""
        if isinstance(one, Name):
            return self.variables[one.name]
        if isinstance(one, Part):
            return f"(({self.variables[one.name]} >> {one.low}) & {(1 << one.high - one.low + 1) - 1})"
        if isinstance(one, Number):
            return str(one.value)
        if isinstance(one, Cast):
            return self.alone(one.part)
        if isinstance(one, Repeat):
            width = self.shapes.width(one.part)
            return f"({self.alone(one.part)} * {sum(1 << width * k for k in range(one.count))})"
        if isinstance(one, Concat):
            low, codes = 0, []
            for part in reversed(one.parts):
                codes.append(f"({self.alone(part)} << {low})")
                low += self.shapes.width(part)
            return "(" + " | ".join(codes) + ")"
        if isinstance(one, Unary):
            return f"(0 if {self.alone(one.part)} else 1)"
        return self.related(one)

    def related(self, one: Binary) -> str:
        if one.operator in ("&&", "||"):
            word = "and" if one.operator == "&&" else "or"
            return f"(1 if {self.alone(one.left)} {word} {self.alone(one.right)} else 0)"
        width = max(self.shapes.width(one.left), self.shapes.width(one.right))
        signed = self.shapes.signed(one.left) and self.shapes.signed(one.right)
        left, right = (self.number(self.within(part, width, signed), width, signed) for part in (one.left, one.right))
        return f"(1 if {left} {one.operator} {right} else 0)"


def in_order(module: Module) -> List[str]:
    """The assigned nets, each behind those that it reads."""
    order: List[str] = []
    done: Set[str] = set()
    for name in module.assigns:
        left: List[Tuple[str, bool]] = [(name, False)]
        while left:
            net, is_ready = left.pop()
            if is_ready:
                order.append(net)
            elif net in module.assigns and net not in done:
                done.add(net)
                left += [(net, True)] + [(read, False) for read in names_in(module.assigns[net])]
    return order


def source_of(one: Expression, register: str, module: Module) -> Expression:
    """What a value is a copy of, up to a register's own name."""
    while isinstance(one, Name) and one.name != register and one.name in module.assigns:
        one = module.assigns[one.name]
    return one


class Running:
    """A module with what its registers hold, which are 0 at first."""

    def __init__(self, module: Module) -> None:
        self.module = module
        self.held = {name: 0 for name in module.registers}
        self.inputs = [net.name for net in module.ports("input")]
        variables = {name: f"v{place}" for place, name in enumerate(module.nets)}
        compiler = Compiler(module, variables)
        lines = ["def step(held, given):"]
        lines += [f"    {variables[name]} = held['{name}']" for name in module.registers]
        lines += [f"    {variables[name]} = given['{name}']" for name in self.inputs if name != "clk"]
        lines += [f"    {variables[name]} = {compiler.assigned(module.assigns[name], module.nets[name].width)}" for name in in_order(module)]
        nets = ", ".join(f"'{name}': {variables[name]}" for name in module.nets if name != "clk")
        takes, nexts = [], []
        for name, register in module.registers.items():
            takes.append(f"'{name}': {self.taking(compiler, register.enable, register.value, name)}")
            nexts.append(f"'{name}': {compiler.assigned(register.value, module.nets[name].width)}")
        lines += [f"    return {{{nets}}}, {{{', '.join(takes)}}}, {{{', '.join(nexts)}}}"]
        made: Dict[str, Step] = {}
        exec("\n".join(lines), made)  # of numbers and of names that the reader took as such
        self.step = made["step"]

    def taking(self, compiler: Compiler, enable: Optional[Expression], value: Expression, name: str) -> str:
        """Whether a register takes something: it is enabled, and no choice gives it what it holds."""
        enabled = "True" if enable is None else f"bool({compiler.alone(enable)})"
        return f"{enabled} and {self.new(compiler, value, name)}"

    def new(self, compiler: Compiler, value: Expression, name: str) -> str:
        seen = source_of(value, name, self.module)
        if seen == Name(name):
            return "False"
        if isinstance(seen, Choice):
            yes, no = self.new(compiler, seen.yes, name), self.new(compiler, seen.no, name)
            return "True" if yes == no == "True" else f"({yes} if {compiler.alone(seen.condition)} else {no})"
        return "True"

    def shows(self, given: Dict[str, int]) -> Dict[str, int]:
        """What every net shows in a row with these inputs; `clk_enable` is 1 where nothing is said of it."""
        return self.step(self.held, {"clk_enable": 1, **given})[0]

    def clock(self, given: Dict[str, int]) -> Tuple[Dict[str, int], Set[str]]:
        """The same, and the registers that take at the row's end; then they do."""
        shown, takes, nexts = self.step(self.held, {"clk_enable": 1, **given})
        if given["reset"]:
            taken = set(self.module.registers)
            self.held = {name: register.reset.value & (1 << self.module.nets[name].width) - 1 for name, register in self.module.registers.items()}
        else:
            taken = {name for name, is_so in takes.items() if is_so}
            self.held = {name: nexts[name] if name in taken else number for name, number in self.held.items()}
        return shown, taken


def rows_driven(module: Module, cycles: int, rows: Sequence[Sequence[str]], clocks: int) -> List[Dict[str, int]]:
    """The inputs of so many clocks by a stimulus, as `replay` drives them; behind it they are 0."""
    ports = [net for net in module.ports("input") if net.attribute("fx_period")]
    held, found = {net.name: 0 for net in ports}, []
    for clock in range(clocks):
        sample, within = divmod(clock, cycles)
        for place, net in enumerate(ports):
            if within == 0 and sample % (net.attribute("fx_period") or 1) == 0:
                held[net.name] = int(rows[sample][place]) % (1 << net.width) if sample < len(rows) else 0
        found.append({"reset": 0, **held})
    return found


def responds(module: Module, rows: Sequence[Sequence[str]]) -> List[List[str]]:
    """The response of a module to a stimulus."""
    cycles = module.attributes.get("fx_cycles")
    if not cycles:
        raise Failed("its header lacks an attribute")
    outputs = [net for net in module.ports("output") if net.attribute("fx_period")]
    latest = max((net.attribute("fx_latency") or 0 for net in outputs), default=0)
    run, found = Running(module), [["-"] * len(outputs) for _ in rows]
    run.clock({"reset": 1, **{name: 0 for name in run.inputs if name not in ("clk", "reset")}})
    for clock, given in enumerate(rows_driven(module, cycles, rows, len(rows) * cycles + latest)):
        shown, _ = run.clock(given)
        for place, net in enumerate(outputs):
            sample, within = divmod(clock - (net.attribute("fx_latency") or 0), cycles)
            if within == 0 and 0 <= sample < len(rows) and sample % (net.attribute("fx_period") or 1) == 0:
                bits = shown[net.name]
                found[sample][place] = str(bits - (1 << net.width) if net.signed and bits >> net.width - 1 else bits)
    return found
