"""One module of a text, the model's own Verilog, and a net that shows where they differ in an output's window."""

import re
from dataclasses import dataclass
from enum import Enum

from equality.diagram import Block
from equality.ideal import Ideal, number, word
from equality.schedule import Schedule
from written import MODULE, Failed, Port, header

NUMBER = r"(\d+)\s*'\s*(s?)([bdh])\s*([0-9a-zA-Z]+)"
ALWAYS = re.compile(r"always\s*@\s*\(\s*posedge\s+clk\s*\)\s*begin\s*if\s*\(\s*reset\s*\)\s*(\w+)\s*<=\s*" + NUMBER + r"\s*;\s*else")


class Stalls(Enum):
    """Whether a run may stand still between its clocks."""

    FREE = "free"
    NONE = "none"


class Window(Enum):
    """When an output is compared: from its latency to the end of its frame, or at its latency alone."""

    WHOLE = "whole"
    FIRST = "first"


@dataclass
class Column:
    """An element of a root port, and the port of the text that carries it."""

    block: Block
    element: int
    port: Port


def without_comments(text: str) -> str:
    return re.sub(r"//[^\n]*|/\*.*?\*/", " ", text, flags=re.S)


def begun(text: str) -> str:
    """The text whose registers begin as a row of reset leaves them, whatever they held: each is set by
    `if (reset)` to a number, before all else."""
    text = without_comments(text)
    first = {name: f"{width}'{sign}{base}{digits}" for name, width, sign, base, digits in ALWAYS.findall(text)}
    registers = re.findall(r"\breg\b\s*(?:signed\b)?\s*(?:\[[^\]]*\])?\s*(\w+)\s*;", text)
    lacking = [name for name in registers if name not in first]
    if lacking or len(re.findall(r"\balways\b", text)) != len(registers):
        raise Failed(f"{(lacking or ['a register'])[0]}: not reset as the Verilog subset has it")
    return re.sub(r"\breg\b(\s*(?:signed\b)?\s*(?:\[[^\]]*\])?\s*(\w+)\s*;)", lambda it: f"(* init = {first[it[2]]} *) reg{it[1]}", text)


class Miter:
    """The text of the comparison, and what its outputs are late by the equations and by the text."""

    def __init__(self, ideal: Ideal, schedule: Schedule, text: str) -> None:
        self.ideal, self.schedule, self.signals, self.text = ideal, schedule, ideal.signals, text
        self.cycles, self.controls, ports = header(text)
        if self.cycles != schedule.plan.cycles:
            raise Failed(f"the module has {self.cycles} clocks a base sample, and the plan {schedule.plan.cycles}")
        self.inputs = self.columns("Inport", [port for port in ports if port.is_input])
        self.outputs = self.columns("Outport", [port for port in ports if not port.is_input])

    def columns(self, kind: str, ports: list[Port]) -> list[Column]:
        blocks = sorted((it for it in self.signals.blocks if it.kind == kind), key=lambda it: int(it.get("Port")))
        found = [(block, element) for block in blocks for element in range(self.signals.widths[block][0])]
        if len(found) != len(ports):
            raise Failed(f"the module has {len(ports)} ports for {len(found)} elements of the model's root {kind}s")
        for (block, _), port in zip(found, ports):
            of, period = self.signals.types[block], self.signals.periods[block]
            if (port.signed, port.width, port.period) != (of.signed, of.width, period):
                raise Failed(f"{port.name}: the type or the period is not that of the model")
        return [Column(block, element, port) for (block, element), port in zip(found, ports)]

    def due(self, column: Column) -> int:
        """By how many clocks an output is late by the equations and the plan."""
        return self.schedule.latencies[column.block] * self.cycles + self.schedule.ready(column.block)

    def misdeclared(self) -> list[str]:
        """What is said of the outputs whose text declares another latency than the least."""
        late = [(it.port.name, it.port.latency, self.due(it)) for it in self.outputs]
        return [f"{name}: latency {told} is declared, and {due} is the least" for name, told, due in late if told != due]

    def late(self, column: Column) -> int:
        """By how many base samples the frames of an output are late: by the least, where its latency is in such a frame."""
        late, told = self.schedule.latencies[column.block], column.port.latency
        return late if 0 <= told - late * self.cycles < column.port.period * self.cycles else told // self.cycles

    # ---- the text

    def verilog(self, stalls: Stalls, window: Window) -> str:
        return "\n".join([self.model(), begun(self.text), self.bench(stalls, window)])

    def model(self) -> str:
        """The model's own module: the outputs of the present base sample, which ends where `step` is 1."""
        ideal = self.ideal
        ports = [f"input {word(self.signals.types[it.block])} {ideal.port('i', it.block, it.element)}" for it in self.inputs]
        ports += [f"output {word(self.signals.types[it.block])} {ideal.port('o', it.block, it.element)}" for it in self.outputs]
        ports += [f"input hit_{period}, input last_{period}" for period in self.periods()]
        ports.append(f"output [{self.wide() - 1}:0] remembered")
        lines = [f"module fx_ideal (input clk, input step{''.join(f', {port}' for port in ports)});", *ideal.nets, *ideal.lines]
        lines.append(f"  assign remembered = {{{', '.join(ideal.remembered) or chr(49) + chr(39) + 'b0'}}};")
        lines += [f"  assign {ideal.port('o', it.block, it.element)} = {ideal.name(it.block, 0, it.element)};" for it in self.outputs]
        return "\n".join([*lines, "endmodule", ""])

    def wide(self) -> int:
        """How many bits of a model's nets may be remembered by a module; they only help a proof along."""
        return max(sum(self.ideal.remembered.values()), 1)

    def stages(self) -> list[int]:
        """By how many base samples models are late that run beside the module, each on inputs as late: what the
        module holds of a sample before is what one of them shows."""
        return sorted({*range(self.schedule.depth + 1), *map(self.late, self.outputs)})

    def periods(self) -> list[int]:
        return sorted({period for period in self.signals.periods.values() if period and period > 1})

    def counted(self) -> list[str]:
        """The clock in the base sample, and the base sample in each period."""
        cycles = self.cycles
        lines = [f"  wire step = go && {'1' if cycles == 1 else f'phase == {cycles - 1}'};"]
        if cycles > 1:
            lines += [register("phase", cycles.bit_length(), "go", f"phase == {cycles - 1} ? {number(0, cycles.bit_length(), False)} : phase + 1'd1")]
        for period in self.periods():
            at, bits = f"at_{period}", period.bit_length()
            lines += [register(at, bits, "step", f"{at} == {period - 1} ? {number(0, bits, False)} : {at} + 1'd1")]
            lines += [f"  wire hit_{period} = {at} == 0;"]
        return lines + self.counted_late()

    def counted_late(self) -> list[str]:
        """How many base samples have gone by, up to the latest stage, and the same counts for each stage."""
        last = self.stages()[-1]
        lines = [register("age", last.bit_length() + 1, f"step && age < {last}", "age + 1'd1")] if last else []
        for stage in self.stages():
            goes = "step" if stage == 0 else f"step && age >= {stage}"
            lines.append(f"  wire step_s{stage} = {goes};")
            for period in self.periods():
                at, bits = f"at_{period}_s{stage}", period.bit_length()
                lines += [register(at, bits, f"step_s{stage}", f"{at} == {period - 1} ? {number(0, bits, False)} : {at} + 1'd1")]
                lines += [f"  wire hit_{period}_s{stage} = {at} == 0;", f"  wire last_{period}_s{stage} = {at} == {period - 1};"]
        return lines

    def driven(self, column: Column) -> list[str]:
        """An input: free where its hit begins and in rows that are no clocks, and held between."""
        of, name, period = self.signals.types[column.block], f"u{self.inputs.index(column)}", column.port.period
        first = " && ".join((["phase == 0"] if self.cycles > 1 else []) + ([f"hit_{period}"] if period > 1 else []))
        if not first:
            return [f"  wire {word(of)} {name} = free_{name};"]
        return [
            register(f"held_{name}", of.width, f"go && {first}", f"free_{name}", of.signed),
            f"  wire {word(of)} {name} = !go || {first} ? free_{name} : held_{name};",
        ]

    def compared(self, place: int, column: Column, window: Window) -> list[str]:
        """An output in its window, beside what the model showed so many base samples ago."""
        late, cycles, period = self.late(column), self.cycles, column.port.period
        ready = column.port.latency - late * cycles
        at = ["phase" if cycles > 1 else "0"]
        if period > 1:
            back = late % period
            at.append(f"(at_{period} >= {back} ? at_{period} - {back} : at_{period} + {period - back}) * {cycles}")
        lines = [f"  wire [31:0] since{place} = {' + '.join(at)};"]
        due = f"since{place} {'>=' if window is Window.WHOLE else '=='} {ready}"
        due += f" && age >= {late}" if late else ""
        return lines + [f"  wire differs{place} = go && {due} && o{place} != e{place}_s{late};"]

    def beside(self, stage: int) -> list[str]:
        """The model that is so many base samples late."""
        lines, joined = [], [f".clk(clk), .step(step_s{stage}), .remembered(remembered_s{stage})"]
        for at, it in enumerate(self.inputs):
            joined.append(f".{self.ideal.port('i', it.block, it.element)}({self.delayed(at, stage)})")
        for at, it in enumerate(self.outputs):
            lines.append(f"  wire {word(self.signals.types[it.block])} e{at}_s{stage};")
            joined.append(f".{self.ideal.port('o', it.block, it.element)}(e{at}_s{stage})")
        for period in self.periods():
            joined.append(f".hit_{period}(hit_{period}_s{stage}), .last_{period}(last_{period}_s{stage})")
        lines.append(f"  wire [{self.wide() - 1}:0] remembered_s{stage};")
        return lines + [f"  fx_ideal ideal_s{stage} ({', '.join(joined)});"]

    @staticmethod
    def delayed(at: int, late: int) -> str:
        return f"u{at}_s{late}" if late else f"u{at}"

    def bench(self, stalls: Stalls, window: Window) -> str:
        free = [f"input {word(self.signals.types[it.block])} free_u{at}" for at, it in enumerate(self.inputs)]
        # two inputs that stay 0 keep `bad` from being a constant
        going = ["input never, input never_too"] + ([] if stalls is Stalls.NONE else ["input go"])
        stages = self.stages()
        wide = f"output [{self.wide() * len(stages) - 1}:0] remembered"
        lines = [f"module fx_miter ({', '.join(['input clk', *going, *free, 'output bad', wide])});"]
        lines += ["  wire go = 1'b1;"] if stalls is Stalls.NONE else []
        lines += self.counted()
        for at, column in enumerate(self.inputs):
            of = self.signals.types[column.block]
            lines += self.driven(column)
            lines += [register(self.delayed(at, late), of.width, "step", self.delayed(at, late - 1), of.signed) for late in range(1, stages[-1] + 1)]
        joined = [f".{it.port.name}(u{at})" for at, it in enumerate(self.inputs)]
        for at, it in enumerate(self.outputs):
            lines.append(f"  wire {word(self.signals.types[it.block])} o{at};")
            joined.append(f".{it.port.name}(o{at})")
        for stage in stages:
            lines += self.beside(stage)
        lines += ["  wire ce_out;", f"  assign remembered = {{{', '.join(f'remembered_s{stage}' for stage in stages)}}};"]
        held = [".clk_enable(go), .ce_out(ce_out)"] if self.controls else []
        lines += [f"  {MODULE} tested ({', '.join(['.clk(clk), .reset(1' + chr(39) + 'b0)', *held, *joined])});"]
        for at, it in enumerate(self.outputs):
            lines += self.compared(at, it, window)
        bad = [f"differs{at}" for at in range(len(self.outputs))] + (["(ce_out != go)"] if self.controls else [])
        return "\n".join([*lines, f"  assign bad = never && never_too || ({' || '.join(bad)});", "endmodule", ""])


def register(name: str, width: int, condition: str, value: str, signed: bool = False) -> str:
    sign = "signed " if signed else ""
    return f"  (* init = {width}'h0 *) reg {sign}[{width - 1}:0] {name}; always @(posedge clk) if ({condition}) {name} <= {value};"
