"""The text of a cocotb test that drives a written module as the Verilog bench does, of the same files."""

from written import Port
from testbench import EXPECTED, STALLS, STIMULUS, Bench

HEAD = '''"""Drives {module} by a stimulus and compares what it shows. Written for cocotb 1.6 and later.

    make -f $(cocotb-config --makefiles)/Makefile.sim SIM=icarus TOPLEVEL_LANG=verilog \\\\
        VERILOG_SOURCES=$PWD/{file} \\\\
        TOPLEVEL={module} MODULE=test_{module} COCOTB_TOPLEVEL={module} COCOTB_TEST_MODULES=test_{module}
"""

from pathlib import Path

import cocotb
from cocotb.clock import Clock
from cocotb.triggers import FallingEdge, RisingEdge

CYCLES = {cycles}
# Names and widths in the order of a word's bits; of outputs also whether they have a sign, their period and latency.
INPUTS = {inputs}
OUTPUTS = {outputs}
FOLDER = Path(__file__).resolve().parent


def words(name):
    return [int(line, 16) for line in (FOLDER / name).read_text().split()]


def parts(word, widths):
    """The numbers of a word, the first of which stands in its highest bits."""
    found = []
    for width in reversed(widths):
        found.insert(0, word & ((1 << width) - 1))
        word >>= width
    return found


def drive(dut, word, is_shown):
    """Inputs show a word, or where they may show anything its bits turned round."""
    for (name, width), bits in zip(INPUTS, parts(word, [width for _, width in INPUTS])):
        getattr(dut, name).value = bits if is_shown else bits ^ ((1 << width) - 1)


def number(bits, width, signed):
    return bits - (1 << width) if signed and bits >> (width - 1) else bits


def is_right(dut, place, sample):
    """Whether an output shows the number of a sample; says so where it doesn't."""
    name, width, signed, _, _ = OUTPUTS[place]
    wanted = parts(EXPECTED[sample], [output[1] for output in OUTPUTS])[place]
    try:
        shown = int(getattr(dut, name).value) & ((1 << width) - 1)
    except ValueError:
        shown = None
    if shown != wanted:
        told = "unknown" if shown is None else number(shown, width, signed)
        dut._log.error("sample %d: %s is %s, not %d", sample, name, told, number(wanted, width, signed))
    return shown == wanted


STIMULUS, EXPECTED, STALLS = words("{stimulus}"), words("{expected}"), words("{stalls}")


def word_of(sample):
    return STIMULUS[sample] if sample < len(STIMULUS) else 0


async def begin(dut):
    """One row of reset; what is driven next is of the row behind it."""
    dut.reset.value = 1
    cocotb.start_soon(Clock(dut.clk, 10, "ns").start())
    await RisingEdge(dut.clk)
    dut.reset.value = 0


'''

STALLING = '''@cocotb.test()
async def shows_the_response(dut):
    dut.clk_enable.value = 0
    drive(dut, 0, False)
    await begin(dut)
    clock, row, numbers, wrong = 0, 0, 0, 0
    last = len(EXPECTED) * CYCLES + max(output[4] for output in OUTPUTS)
    while clock < last:
        goes = STALLS[row % len(STALLS)]
        dut.clk_enable.value = goes
        drive(dut, word_of(clock // CYCLES), goes)
        await FallingEdge(dut.clk)
        for place, (_, _, _, period, latency) in enumerate(OUTPUTS):
            sample, within = divmod(clock - latency, CYCLES)
            if goes and within == 0 and 0 <= sample < len(EXPECTED) and sample % period == 0:
                numbers += 1
                wrong += not is_right(dut, place, sample)
        await RisingEdge(dut.clk)
        clock, row = clock + goes, row + 1
    dut._log.info("%d numbers, %d wrong", numbers, wrong)
    assert (numbers, wrong) == ({numbers}, 0)
'''

STREAMING = '''@cocotb.test()
async def hands_over_the_response(dut):
    dut.in_valid.value = 0
    dut.out_ready.value = 0
    drive(dut, 0, False)
    await begin(dut)
    sent, taken, row, idle, numbers, wrong, waits = 0, 0, 0, 0, 0, 0, False
    while taken < len(EXPECTED) and idle <= {idle}:
        valid, ready = waits or STALLS[row % len(STALLS)] >> 1, STALLS[row % len(STALLS)] & 1
        dut.in_valid.value = int(valid)
        dut.out_ready.value = ready
        drive(dut, word_of(sent), valid)
        await FallingEdge(dut.clk)
        idle += 1
        if int(dut.out_valid.value) and ready:
            for place in range(len(OUTPUTS)):
                numbers += 1
                wrong += not is_right(dut, place, taken)
            taken, idle = taken + 1, 0
        is_taken = int(dut.in_ready.value)
        sent, waits = sent + (valid and is_taken), valid and not is_taken
        await RisingEdge(dut.clk)
        row += 1
    dut._log.info("%d numbers, %d wrong", numbers, wrong)
    assert (numbers, wrong) == ({numbers}, 0)
'''


def told(port: Port) -> str:
    return f'("{port.name}", {port.width}, {port.signed}, {port.period}, {port.latency or 0})'


def test_of(bench: Bench, idle: int) -> str:
    """The test of a bench; a stream is stuck where so many rows hand over nothing."""
    inputs = ", ".join(f'("{port.name}", {port.width})' for port in bench.inputs)
    outputs = ", ".join(map(told, bench.outputs))
    head = HEAD.format(
        module=bench.module, file=f"{bench.module}.v", cycles=bench.case.cycles, inputs=f"[{inputs}]", outputs=f"[{outputs}]",
        stimulus=STIMULUS, expected=EXPECTED, stalls=STALLS,
    )  # fmt: skip
    return head + (STREAMING if bench.is_stream() else STALLING).replace("{idle}", str(idle)).replace("{numbers}", str(bench.numbers()))
