"""Self-checking Verilog-2005 benches of a written module, and the files that they read.

A row is the time from one rising edge of `clk` to the next. A bench drives and compares at rising edges
alone, so that a clock from anywhere will do. Its own names begin with `fx_`, as no port's does.
"""

from dataclasses import dataclass
from typing import List, Sequence

from benches import words_of
from written import Case, Port, bits, declaration, last_clock

# What the files of a bench are called.
CHECK, BENCH, MAIN, STIMULUS, EXPECTED, STALLS = "fx_check.v", "fx_bench.v", "fx_main.cpp", "fx_stimulus.hex", "fx_expected.hex", "fx_stalls.hex"
# The ports of a module with valid and ready that carry none of the model's numbers.
HANDSHAKE = ("in_valid", "in_ready", "out_valid", "out_ready")
# How many wrong numbers are told one by one.
TOLD = 20

CLOCK = """// The clock of fx_check: 10 ns from one rising edge to the next.
`timescale 1ns/1ps
module fx_bench;
  reg clk;
  fx_check fx_checked (.clk(clk));
  initial clk = 0;
  always #5 clk = ~clk;
endmodule
"""

CPP = """// The clock of fx_check, for releases of Verilator without --binary.
#include "Vfx_check.h"
#include "verilated.h"

double sc_time_stamp() { return 0; }

int main(int argc, char** argv) {
    Verilated::commandArgs(argc, argv);
    Vfx_check top;
    top.clk = 0;
    while (!Verilated::gotFinish()) {
        top.eval();
        top.clk = !top.clk;
    }
    top.final();
    return 0;
}
"""

STALLING = """// Drives {module} clock by clock and compares its numbers. In a stall the inputs' bits are turned round.
`timescale 1ns/1ps
module fx_check (input wire clk);
{nets}
{memories}
  integer fx_clock, fx_row, fx_numbers, fx_wrong;
  reg fx_goes;

  initial begin
    reset = 1; clk_enable = 0; fx_goes = 0; fx_clock = 0; fx_row = 0; fx_numbers = 0; fx_wrong = 0;
  end

  always @ (posedge clk) begin
    reset <= 0;
    if (!reset && clk_enable) begin
{comparisons}
      fx_clock = fx_clock + 1;
    end
    if (fx_clock == {clocks}) begin
{summary}
    end
    fx_goes = fx_stalls[fx_row % {pattern}];
    clk_enable <= fx_goes;
    fx_row = fx_row + 1;
{driven}
  end
endmodule
"""

STREAMING = """// Drives {module} with valid and ready, and compares what it hands over. In a row that isn't valid the
// inputs' bits are turned round. What is valid stays so until it is taken, on both sides.
`timescale 1ns/1ps
module fx_check (input wire clk);
{nets}
{memories}
  reg [{last}:0] fx_held;
  integer fx_sent, fx_taken, fx_row, fx_idle, fx_numbers, fx_wrong;
  reg [1:0] fx_goes;
  reg fx_waits;

  initial begin
    reset = 1; in_valid = 0; out_ready = 0; fx_goes = 0; fx_waits = 0; fx_held = 0;
    fx_sent = 0; fx_taken = 0; fx_row = 0; fx_idle = 0; fx_numbers = 0; fx_wrong = 0;
  end

  always @ (posedge clk) begin
    reset <= 0;
    fx_idle = fx_idle + 1;
    if (!reset) begin
      if (fx_waits && (out_valid !== 1'b1 || {{{outputs}}} !== fx_held)) begin
        if (fx_wrong < {told}) $display("row %0d: what was valid changed before out_ready", fx_row);
        fx_wrong = fx_wrong + 1;
      end
      fx_waits = out_valid && !out_ready;
      fx_held = {{{outputs}}};
      if (out_valid && out_ready && fx_taken < {samples}) begin
{comparisons}
        fx_taken = fx_taken + 1;
        fx_idle = 0;
      end
      if (in_valid && in_ready) fx_sent = fx_sent + 1;
    end
    if (fx_taken == {samples} || fx_idle > {idle}) begin
{summary}
    end
    // what is valid and not taken yet stays
    fx_goes = fx_stalls[fx_row % {pattern}] | {{!reset && in_valid && !in_ready, 1'b0}};
    in_valid <= fx_goes[1];
    out_ready <= fx_goes[0];
    fx_row = fx_row + 1;
{driven}
  end
endmodule
"""


@dataclass(frozen=True)
class Bench:
    """A module, its response, and the pattern of stalls: by row the bits of `clk_enable`, or of `in_valid` and `out_ready`."""

    case: Case
    module: str
    response: Sequence[Sequence[str]]
    pattern: Sequence[str]

    def side(self, is_input: bool) -> List[Port]:
        """The inputs or outputs that carry the model's numbers."""
        return [port for port in self.case.ports if port.is_input == is_input and port.name not in HANDSHAKE]

    @property
    def inputs(self) -> List[Port]:
        return self.side(True)

    @property
    def outputs(self) -> List[Port]:
        return self.side(False)

    def is_stream(self) -> bool:
        return any(port.name in HANDSHAKE for port in self.case.ports)

    def numbers(self) -> int:
        """How many numbers are compared."""
        return sum(-(-len(self.response) // port.period) for port in self.outputs)

    def words(self) -> List[str]:
        """By sample the bits of all inputs, one behind the other."""
        carried = self.case._replace(ports=self.inputs + self.outputs)
        return list(words_of(carried))

    def expected(self) -> List[str]:
        """By sample the bits of all outputs, one behind the other, and 0 where there is no number."""
        numbers = ([0 if field == "-" else bits(port, field) for port, field in zip(self.outputs, row)] for row in self.response)
        return ["".join(f"{number:0{port.width}b}" for port, number in zip(self.outputs, row)) for row in numbers]


def hexadecimal(words: Sequence[str]) -> str:
    """Words of binary digits as lines that `$readmemh` reads."""
    return "".join(f"{int(word, 2):0{(len(word) + 3) // 4}x}\n" for word in words)


def nets(bench: Bench) -> str:
    """The nets of a bench, and the module between them."""
    ports = bench.case.controls + bench.case.ports
    names = ["clk", "reset"] + [port.name for port in ports]
    lines = ["  reg reset;"] + [declaration(port) for port in ports]
    return "\n".join(lines + [f"  {bench.module} fx_tested ({', '.join(f'.{name}({name})' for name in names)});"])


def memory(name: str, words: Sequence[str], file: str) -> List[str]:
    return [f"  reg [{len(words[0]) - 1}:0] {name} [0:{len(words) - 1}];", f'  initial $readmemh("{file}", {name});']


def memories(bench: Bench) -> str:
    """The stimulus, the numbers that are expected and the pattern of stalls, each with a word for the present one."""
    stimulus, expected = bench.words(), bench.expected()
    lines = memory("fx_stimulus", stimulus, STIMULUS) + memory("fx_expected", expected, EXPECTED) + memory("fx_stalls", bench.pattern, STALLS)
    lines += [f"  reg [{len(stimulus[0]) - 1}:0] fx_shown;", f"  reg [{len(expected[0]) - 1}:0] fx_word;"]
    lines += [f"  reg {'signed ' if port.signed else ''}[{port.width - 1}:0] fx_want_{place};" for place, port in enumerate(bench.outputs)]
    return "\n".join(lines)


def comparison(bench: Bench, place: int, sample: str) -> List[str]:
    """Counts the number of an output, and tells it where it is wrong; its word stands in `fx_word`."""
    port = bench.outputs[place]
    low = sum(other.width for other in bench.outputs[place + 1 :])
    return [
        "        fx_numbers = fx_numbers + 1;",
        f"        fx_want_{place} = fx_word[{low + port.width - 1}:{low}];",
        f"        if ({port.name} !== fx_want_{place}) begin",
        f'          if (fx_wrong < {TOLD}) $display("sample %0d: {port.name} is %0d, not %0d", {sample}, {port.name}, fx_want_{place});',
        "          fx_wrong = fx_wrong + 1;",
        "        end",
    ]


def comparisons(bench: Bench) -> str:
    """What is compared at the end of a row."""
    lines: List[str] = []
    if bench.is_stream():
        lines.append("        fx_word = fx_expected[fx_taken];")
        for place in range(len(bench.outputs)):
            lines += comparison(bench, place, "fx_taken")
        return "\n".join(lines)
    cycles = bench.case.cycles
    for place, port in enumerate(bench.outputs):
        since = f"(fx_clock - {port.latency})" if port.latency else "fx_clock"
        begun = f"{since} >= 0 && " if port.latency else ""
        lines.append(f"      if ({begun}{since} % {cycles * port.period} == 0 && {since} / {cycles} < {len(bench.response)}) begin")
        lines.append(f"        fx_word = fx_expected[{since} / {cycles}];")
        lines += comparison(bench, place, f"{since} / {cycles}") + ["      end"]
    return "\n".join(lines)


def driven(bench: Bench) -> str:
    """What the inputs show in the next row."""
    if not bench.inputs:
        return "    fx_shown = 0;"
    samples, cycles = len(bench.response), bench.case.cycles
    sample, is_shown = ("fx_sent", "fx_goes[1]") if bench.is_stream() else (f"fx_clock / {cycles}", "fx_goes")
    names = ", ".join(port.name for port in bench.inputs)
    return f"    if ({sample} < {samples}) fx_shown = fx_stimulus[{sample}];\n    else fx_shown = 0;\n    {{{names}}} <= {is_shown} ? fx_shown : ~fx_shown;"


def summary(bench: Bench) -> str:
    """The last line, and the end: `$finish`, or `$stop` where a number is wrong or wanting."""
    total = bench.numbers()
    return "\n".join(
        [
            f'      if (fx_numbers < {total}) $display("%0d numbers are wanting", {total} - fx_numbers);',
            '      $display("%0d numbers, %0d wrong", fx_numbers, fx_wrong);',
            f"      if (fx_numbers == {total} && fx_wrong == 0) $finish;",
            "      else $stop;",
        ]
    )


def most_idle(bench: Bench, cycles: int, late: int) -> int:
    """How many rows may hand over nothing: in two turns of the pattern one row moves at least."""
    return min((late + 2) * cycles * len(bench.pattern) * 2, 2**31 - 1)


def verilog(bench: Bench, idle: int) -> str:
    """The bench. A stream is stuck where so many rows hand over nothing."""
    return (STREAMING if bench.is_stream() else STALLING).format(
        module=bench.module, nets=nets(bench), memories=memories(bench), comparisons=comparisons(bench), summary=summary(bench), driven=driven(bench),
        clocks=last_clock(bench.case), pattern=len(bench.pattern), samples=len(bench.response), told=TOLD, idle=idle,
        outputs=", ".join(port.name for port in bench.outputs), last=sum(port.width for port in bench.outputs) - 1,
    )  # fmt: skip
