"""The second reading of models, and the bugs that are planted in texts."""

import os
import random
import subprocess
import sys
import tempfile
import unittest

from .common import TOOLS, TOP, read, write
from .pages import blocks_of, commands_of, program

sys.path.insert(0, TOOLS)
from equality import solvers
from equality.aig import Machine
from equality.cells import Gates, extended
from equality.plants import RULES, Plant, planted
from subset import module_of

BLOCK = 'Block {\nBlockType %s\nName "%s"\n%s}\n'
LINE = 'Line {\nSrcBlock "%s"\nDstBlock "%s"\nDstPort %d\n}\n'
COEFFICIENTS, STATES = (1, 2, 3), (5, 7)
# A filter as one block, and as the blocks that it stands for.
WHOLE = BLOCK % ("DiscreteFir", "P", 'Coefficients "[1 2 3]"\nInitialStates "[5 7]"\nCoefDataTypeStr "int8"\nOutDataTypeStr "int16"\n')


def parts() -> str:
    said = BLOCK % ("Inport", "in", "")
    said += "".join(BLOCK % ("UnitDelay", f"d{at}", f'InitialCondition "{state}"\n') for at, state in enumerate(STATES, 1))
    said += "".join(BLOCK % ("Gain", f"c{at}", f'Gain "{tap}"\nParamDataTypeStr "int8"\n') for at, tap in enumerate(COEFFICIENTS))
    said += BLOCK % ("Sum", "sum", 'Inputs "+++"\nOutDataTypeStr "int16"\n') + BLOCK % ("Outport", "out", "")
    lines = [("in", "d1", 1), ("d1", "d2", 1), ("in", "c0", 1), ("d1", "c1", 1), ("d2", "c2", 1), ("sum", "out", 1)]
    lines += [(f"c{at}", "sum", at + 1) for at in range(3)]
    return BLOCK % ("SubSystem", "P", f"System {{\n{said}{''.join(LINE % it for it in lines)}}}\n")


def model(*blocks: str) -> str:
    ends = BLOCK % ("Inport", "u", 'OutDataTypeStr "int8"\n') + BLOCK % ("Outport", "y", "")
    return "Model {\nSystem {\n" + ends + "".join(blocks) + LINE % ("u", "P", 1) + LINE % ("P", "y", 1) + "}\n}\n"


@unittest.skipUnless(program() and not solvers.missing(), "there is no proved program, or Yosys or ABC is not installed")
class Readings(unittest.TestCase):
    def asked(self, folder: str, *words: str) -> str:
        done = subprocess.run([sys.executable, os.path.join(TOOLS, "equal"), *words], cwd=folder, env={**os.environ, "TILECATNIP": program()}, capture_output=True, text=True)
        self.assertNotEqual(done.stdout, "", done.stderr)
        return done.stdout

    def test_a_filter_is_the_blocks_that_it_stands_for(self):
        with tempfile.TemporaryDirectory() as folder:
            write(os.path.join(folder, "whole.mdl"), model(WHOLE))
            write(os.path.join(folder, "parts.mdl"), model(parts()))
            made = subprocess.run([program(), "generate", "parts.mdl", "-"], cwd=folder, capture_output=True, text=True)
            write(os.path.join(folder, "parts.v"), made.stdout)
            self.assertEqual(self.asked(folder, "whole.mdl", "-", "parts.v"), "equal\n")

    def test_a_text_that_is_edited_as_BOARD_shows(self):
        [(command, _), (_, shown)] = [it for language, text in blocks_of("docs/BOARD.md") if "tools/equal" in text for it in commands_of(text)]
        with tempfile.TemporaryDirectory() as folder:
            edited = subprocess.run(["sh", "-c", command.replace(">edited.v", "")], cwd=TOP, capture_output=True, text=True).stdout
            write(os.path.join(folder, "edited.v"), edited)
            self.assertEqual(self.asked(folder, os.path.join(TOP, "examples/unit_delay.mdl"), "-", "edited.v"), shown)

    def test_an_accumulator_saturates_step_by_step(self):
        """100 and 100 are 127, and less 100 they are 27; added up whole they are 100."""
        steps = BLOCK % ("Sum", "P", 'Inputs "++-"\nAccumDataTypeStr "int8"\nOutDataTypeStr "int8"\nSaturateOnIntegerOverflow on\n')
        whole = steps.replace('AccumDataTypeStr "int8"\n', "")
        further = LINE % ("u", "P", 2) + LINE % ("u", "P", 3)
        with tempfile.TemporaryDirectory() as folder:
            write(os.path.join(folder, "steps.mdl"), model(steps, further))
            write(os.path.join(folder, "whole.mdl"), model(whole, further))
            made = subprocess.run([program(), "generate", "whole.mdl", "-"], cwd=folder, capture_output=True, text=True)
            write(os.path.join(folder, "whole.v"), made.stdout)
            self.assertEqual(self.asked(folder, "steps.mdl", "-"), "equal\n")
            self.assertRegex(self.asked(folder, "steps.mdl", "-", "whole.v"), r"^differs: in line 1 `simulate` has .*\n-?\d+\n")


class Words(unittest.TestCase):
    """Gates that are made of numbers alone are numbers."""

    def number(self, word: list[int]) -> int:
        self.assertLessEqual(set(word), {0, 1})
        return sum(bit << at for at, bit in enumerate(word))

    def test_products_and_sums(self):
        gates, bits = Gates(Machine(0, 0)), lambda number: [number >> at & 1 for at in range(4)]
        for left in range(-8, 8):
            for right in range(-8, 8):
                one, other = bits(left), bits(right)
                self.assertEqual(self.number(gates.product(one, other, 8)), left * right % 256)
                self.assertEqual(self.number(gates.added(extended(one, 5, True), extended(other, 5, True))[:-1]), (left + right) % 32)
                self.assertEqual(gates.less(one, other, True), left < right)
                self.assertEqual(gates.less(one, other, False), left % 16 < right % 16)
                self.assertEqual(gates.equal(one, other), left == right)


class Plants(unittest.TestCase):
    TEXT = """(* fx_cycles = 2 *)
module fx_model (
  input wire clk,
  input wire reset,
  input wire clk_enable,
  (* fx_period = 1 *)
  input wire signed [3:0] u,
  (* fx_period = 1 *)
  input wire signed [3:0] v,
  output wire ce_out,
  (* fx_period = 1, fx_latency = 3 *)
  output wire signed [7:0] y
);
wire signed [7:0] fx_a;
wire signed [7:0] fx_b;
wire signed [7:0] fx_unread;
reg fx_c;
reg signed [7:0] fx_r;
assign fx_unread = 8'd1;
assign fx_a = (((u * v) < 8'sd3) ? (u - v) : (fx_r >>> 1'd1));
assign fx_b = ((fx_c && (u[2:1] == 2'd1)) ? fx_r : 8'd7);
always @ (posedge clk) begin if (reset) fx_c <= 1'd0; else if (clk_enable) fx_c <= (! fx_c); end
always @ (posedge clk) begin if (reset) fx_r <= 8'd0; else if ((clk_enable && (fx_c == 1'd1))) fx_r <= fx_a; end
assign y = fx_b;
assign ce_out = clk_enable;
endmodule
"""

    def test_each_kind_changes_a_text_to_another_of_the_subset(self):
        for kind in Plant:
            with self.subTest(kind=kind.name):
                changed = planted(kind, self.TEXT, random.Random(1))
                self.assertNotEqual(changed, self.TEXT)
                module_of(changed)

    def test_each_kind_has_a_place_in_the_texts_of_designs(self):
        texts = [read(os.path.join(TOP, f"examples/designs/{name}/model.v")) for name in ("biquad", "pi_controller", "cic_decimator")]
        found = {kind for kind in Plant for text in texts if next(RULES[kind](text), None)}
        self.assertGreaterEqual(len(found), 18, {kind.name for kind in Plant} - {kind.name for kind in found})

    def test_what_no_output_depends_on_stays(self):
        for seed in range(20):
            self.assertIn("assign fx_unread = 8'd1;", planted(Plant.CONSTANT, self.TEXT, random.Random(seed)))


if __name__ == "__main__":
    unittest.main()
