"""Where nets come from: by hand on small texts, and by runs of the designs' modules."""

import json
import os
import re
import shutil
import subprocess
import sys
import tempfile
import unittest

from .common import TOOLS, TOP, read, write
from .lab import DESIGNS, HAS_ICARUS, HAS_PROGRAM, PROGRAM, run, three

sys.path.insert(0, TOOLS)
from nets import Block, Nets, blocks_of
from running import Running, rows_driven
from subset import module_of
from written import Failed, rows_of

# Two clocks a base sample. `in//out` is a block in S of three elements, of which the last two are a port of
# their own; D hits at every second base sample and is one late; K never changes.
CHECK = """accepted cycles 2 multipliers 1
block "u" period 1 latency 0 fixdt(1,8,0) 1
block "S/in//out" period 1 latency 0 fixdt(1,8,0) 1 boolean 2
block "D" period 2 latency 1 fixdt(1,8,0) 1
block "K" period inf latency 0 fixdt(0,8,-3) 1
block "y" period 2 latency 1
output y clocks 2 path "D" "y"
"""
TEXT = """(* fx_cycles = 2 *)
module fx_model (
  input wire clk,
  input wire reset,
  input wire clk_enable,
  (* fx_period = 1 *)
  input wire signed [7:0] u,
  output wire ce_out,
  (* fx_period = 2, fx_latency = 2 *)
  output wire signed [7:0] y
);
reg fx_n0;
reg [1:0] fx_n1;
wire signed [7:0] fx_e1_0_in_out;
reg fx_e1_1_in_out;
wire fx_e1_2_in_out;
wire signed [7:0] fx_m1_0;
wire signed [7:0] fx_e2_0_D;
reg signed [7:0] fx_h2;
reg signed [7:0] fx_p2_0_1;
wire [7:0] fx_e3_0_K;
always @ (posedge clk) begin if (reset) fx_n0 <= 1'd0; else if (clk_enable) fx_n0 <= (! fx_n0); end
always @ (posedge clk) begin if (reset) fx_n1 <= 2'd3; else if (clk_enable) fx_n1 <= ((fx_n1 == 2'd0) ? 2'd3 : (fx_n1 - 2'd1)); end
assign fx_m1_0 = (u * u);
assign fx_e1_0_in_out = (fx_m1_0 + {7'd0, fx_e1_1_in_out});
always @ (posedge clk) begin if (reset) fx_e1_1_in_out <= 1'd0; else if ((clk_enable && (fx_n0 == 1'd0))) fx_e1_1_in_out <= u [0]; end
assign fx_e1_2_in_out = (! fx_e1_1_in_out);
assign fx_e2_0_D = ((fx_n1 == 2'd1) ? u : fx_h2);
always @ (posedge clk) begin if (reset) fx_h2 <= 8'd0; else if (clk_enable) fx_h2 <= fx_e2_0_D; end
always @ (posedge clk) begin if (reset) fx_p2_0_1 <= 8'd0; else if ((clk_enable && (fx_n1 == 2'd2))) fx_p2_0_1 <= fx_e2_0_D; end
assign fx_e3_0_K = 8'd5;
assign y = fx_p2_0_1;
assign ce_out = clk_enable;
endmodule
"""
# The register in `in//out` takes at the end of a base sample's first clock, so that all that reads it shows
# hit 0 in clock 1 alone. D passes `u` in clock 2 of 4 and holds it up to clock 5.
SHOWN = {
    "fx_e1_0_in_out": ("value", "S/in//out", 1, 0, 0, 1, 1, 2),
    "fx_e1_1_in_out": ("value", "S/in//out", 2, 0, 0, 1, 1, 2),
    "fx_e1_2_in_out": ("value", "S/in//out", 2, 1, 0, 1, 1, 2),
    "fx_m1_0": ("product", "S/in//out", 1, 0, 0, 0, 1, 2),
    "fx_e2_0_D": ("value", "D", 1, 0, 1, 2, 5, 4),
    "fx_p2_0_1": ("register 1", "D", 1, 0, 1, 6, 9, 4),
    "fx_e3_0_K": ("value", "K", 1, 0, 0, 0, None, None),
}


class Named(unittest.TestCase):
    def told(self, text=TEXT, check=CHECK):
        found = Nets(module_of(text), check).shown()
        return {it.net: (it.shows, it.path, it.port, it.element, it.latency, it.first, it.last, it.step) for it in found}

    def test_by_hand(self):
        self.assertEqual(self.told(), SHOWN)
        self.assertEqual(Block("S/in//out", 1, 0, ()).steps(), ["S", "in/out"])

    def test_other_texts(self):
        for old, new, told in (
            ("fx_cycles = 2", "fx_cycles = 3", "isn't the module"),
            ("fx_latency = 2", "fx_latency = 4", "isn't the module"),
            ("fx_e3_0_K", "fx_e7_0_K", "no block 7"),
            ("fx_e3_0_K", "fx_e3_1_K", "no such element"),
        ):
            with self.assertRaisesRegex(Failed, told):
                self.told(TEXT.replace(old, new))
        with self.assertRaisesRegex(Failed, "not understood"):
            blocks_of("accepted cycles 2 multipliers 0\n")

    def test_designs(self):
        """In a run a net shows one number from its first clock to its last; of a pipeline, that of the register before it a hit later."""
        for name in DESIGNS:
            at = os.path.join(TOP, "examples/designs", name)
            module = module_of(read(f"{at}/model.v"))
            found, rows = Nets(module, read(f"{at}/model.check")).shown(), rows_of(f"{at}/model.stim")
            clocks = 6 * max((it.step or 1 for it in found), default=1)
            run = Running(module)
            run.clock({"reset": 1, **{net: 0 for net in run.inputs if net not in ("clk", "reset")}})
            seen = [run.clock(given)[0] for given in rows_driven(module, module.attributes["fx_cycles"], rows, clocks)]
            before = {f"{it.net[:-1]}{int(it.net[-1]) + 1}": it for it in found if it.shows.startswith("register")}
            for it in found:
                for begin in range(it.first, clocks - (it.last - it.first), it.step):
                    self.assertEqual(len({seen[clock][it.net] for clock in range(begin, begin + it.last - it.first + 1)}), 1, (name, it))
                    if it.net in before:
                        self.assertEqual(seen[begin][it.net], seen[begin - it.step][before[it.net].net], (name, it))

    def generated(self, model, plan):
        return subprocess.run([PROGRAM, "generate", model, plan], capture_output=True, text=True, check=True).stdout

    @HAS_PROGRAM
    def test_gain(self):
        """Of G, with two registers behind it, each hit of which is one clock (examples/pipelined_gain.plan)."""
        model, plan, _ = three("pipelined_gain")
        with tempfile.TemporaryDirectory() as room:
            text = os.path.join(room, "text.v")
            write(text, self.generated(model, plan))
            done = run("map", text, model, plan)
            told = json.loads(run("map", text, model, plan, "--json").stdout)
            self.assertIn('fx_p1_0_1 "G" port 1 element 0 register 1 latency 0 clocks 1 to 1, step 1\n', done.stdout)
            self.assertIn('fx_p1_0_2 "G" port 1 element 0 register 2 latency 0 clocks 2 to 2, step 1\n', done.stdout)
            self.assertEqual([it["net"] for it in told], [line.split()[0] for line in done.stdout.splitlines()])
            self.assertEqual({it["path"] for it in told if it["net"].startswith("fx_p")}, {"G"})
            self.assertIn("isn't the module", run("map", text, model, "-").stderr)
            self.assertEqual(run("map", text, "/nowhere", "-").returncode, 3)

    @HAS_PROGRAM
    @HAS_ICARUS
    def test_scopes(self):
        model, plan, stimulus = three("pipelined_gain")
        with tempfile.TemporaryDirectory() as room:
            shutil.copy(stimulus, os.path.join(room, "text.stim"))
            text = os.path.join(room, "text.v")
            write(text, self.generated(model, plan))
            waves = run("waves", text, model, plan)
            self.assertEqual(waves.returncode, 0, waves.stderr)
            scope = re.search(r"\$scope module blocks \$end\n\$scope module G \$end\n((?:\$var .*\n)+)\$upscope \$end\n", waves.stdout)
            for line in scope[1].splitlines():
                self.assertEqual(waves.stdout.count(line), 2)
            self.assertEqual({line.split()[4] for line in scope[1].splitlines()} >= {"fx_p1_0_1", "fx_p1_0_2"}, True)
            self.assertNotIn("module blocks", run("waves", text).stdout)
