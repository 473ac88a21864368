"""What a module takes by its text, plans in a picture, and real values."""

import cmath
import math
import os
import re
import shutil
import subprocess
import sys
import tempfile
import unittest
import wave
import xml.dom.minidom
from fractions import Fraction

from .common import TOOLS, TOP, read, tool, write
from .pages import program

sys.path[:0] = [TOOLS, os.path.join(TOP, "bench")]
from cells import longest
from estimate import estimate
from library import FixedType
from quantize import ROUNDINGS, decimal, errors, quantized
from subset import module_of
from synthesis import synthesised
from values import columns_by_name, table_of
from written import Failed

HEAD = "(* fx_cycles = 1 *) module fx_model (input wire clk, input wire reset, (* fx_period = 1 *) input wire signed [7:0] a, (* fx_period = 1 *) input wire [15:0] b, (* fx_period = 1, fx_latency = 0 *) output wire [23:0] y);\n"
# Texts by hand: items, bits of registers, multipliers, adders, comparisons, choices, and levels.
COUNTED = (
    ("assign y = (a * b);", 0, {(16, 8): 1}, {}, {}, {}, 6),
    ("assign y = (a * 8'sd3);", 0, {(8, 8): 1}, {}, {}, {}, 3),
    ("wire [7:0] k; assign k = 8'd3; assign y = ((a * k) + b);", 0, {(8, 8): 1}, {24: 1}, {}, {}, 6),
    ("assign y = {8'd0, (a + 8'd1), (b == 16'd2)};", 0, {}, {8: 1}, {16: 1}, {}, 2),
    ("reg [3:0] n; always @(posedge clk) begin if (reset) n <= 4'd0; else n <= (n - 4'd1); end assign y = ((n < 4'd9) ? a : b);", 4, {}, {4: 1}, {4: 1}, {24: 1}, 3),
    ("wire [63:0] w; assign w = ({64{a[0]}} * {4{b}}); assign y = (-(a >>> 2'd1));", 0, {}, {24: 1}, {}, {}, 3),
    ("reg q; always @(posedge clk) begin if (reset) q <= 1'd0; else if ((a[0] && b[1])) q <= (!q); end assign y = (q ? (~b) : {a, a});", 1, {}, {}, {}, {24: 1}, 1),
)
EXPLORED = """cycles 2 multipliers 1 multiplications 3 latency 1 registers 40 levels 9
cycles 3 multipliers 1 multiplications 3 latency 1 registers 44 levels 9
cycles 4 multipliers 1 multiplications 1 latency 3 registers 60 levels 8
cycles 1 multipliers 1: rule 12 (budget): model: period 1 need 3 have 2
least cycles 4 multipliers 1
"""


class Resources(unittest.TestCase):
    def test_counts(self):
        for items, bits, multipliers, adders, comparisons, choices, levels in COUNTED:
            with self.subTest(items=items):
                found = estimate(module_of(HEAD + items + "\nendmodule\n"))
                self.assertEqual((found.register_bits, found.levels), (bits, levels), found)
                counted = (found.multipliers, found.adders, found.comparisons, found.choices)
                self.assertEqual(counted, (multipliers, adders, comparisons, choices))

    def test_the_way_is_told(self):
        text = HEAD + "wire [23:0] s; wire [23:0] t; assign t = (s + b); assign s = (a * b); assign y = t;\nendmodule\n"
        self.assertEqual(estimate(module_of(text)).path, ["a", "s", "t", "y"])

    def test_texts_that_break_a_condition(self):
        for items, told in (("assign y = z;", "undriven: z"), ("wire s; wire t; assign s = t; assign t = s; assign y = s;", "combinational loop")):
            with self.assertRaisesRegex(Failed, told):
                estimate(module_of(HEAD + items + "\nendmodule\n"))

    def test_designs_have_the_multiplications_of_their_text(self):
        for name in ("biquad", "fir_lowpass", "nco", "qam16"):
            path = os.path.join(TOP, f"examples/designs/{name}/model.v")
            done = tool("resources", path, "--text")
            self.assertEqual(int(re.search(r"^multipliers (\d+)", done.stdout, re.M)[1]), read(path).count(" * "), done.stderr)

    def test_says_what_is_missing(self):
        self.assertEqual(tool("resources", "/nowhere.v", "--text").returncode, 2)
        done = tool("resources", os.path.join(TOP, "examples/unit_delay.v"))
        # the delay of eight bits, and maybe a counter of one that stays 0
        self.assertRegex(done.stdout, r"^registers (1 bits 8|2 bits 9)\n")
        self.assertIn("Yosys is not installed", done.stderr)

    @unittest.skipUnless(shutil.which("yosys"), "Yosys is not installed")
    def test_of_Yosys(self):
        """A register of eight bits, and a counter of one that stays 0, which may go."""
        found = synthesised(read(os.path.join(TOP, "examples/unit_delay.v")), "ice40")
        self.assertIn(found["ffs"], (8, 9))
        self.assertEqual(found["dsps"], 0)


class Plans(unittest.TestCase):
    def drawn(self, text, *words):
        with tempfile.TemporaryDirectory() as room:
            path = os.path.join(room, "plans")
            write(path, text)
            return tool("plot_explore", path, *words)

    def test_each_plan_stands_at_its_place(self):
        drawn = self.drawn(EXPLORED, "levels").stdout
        xml.dom.minidom.parseString(drawn.encode())
        # 506 points of the axis are 4 clocks, 360 of the other 10 levels
        places = [re.search(r'(?:cx="|d="M)([\d.]+)(?:" cy="| )([\d.]+)', part).groups() for part in drawn.split("<g>")[1:]]
        self.assertEqual([(float(x), float(y)) for x, y in places], [(64 + 506 * 1 / 4, 384 - 360 * 9 / 10), (64 + 506 * 3 / 4, 384 - 360 * 8 / 10)])
        self.assertEqual([part.count("<path d=") for part in drawn.split("<g>")[1:]], [2, 0])
        self.assertIn("<title>cycles 2 multipliers 1: multiplications 3, latency 1, registers 40, levels 9\ncycles 3", drawn)
        self.assertIn("1 plan breaks a rule", drawn)
        self.assertIn("levels of logic", drawn)

    def test_a_column_that_is_missing(self):
        self.assertIn("has no column ice40_luts", self.drawn(EXPLORED, "ice40_luts").stderr)
        self.assertNotEqual(self.drawn("what\n").returncode, 0)

    @unittest.skipUnless(program(), "there is no proved program")
    def test_columns_are_those_of_the_text(self):
        model = os.path.join(TOP, "examples/three_products.mdl")
        words = [sys.executable, os.path.join(TOOLS, "explore"), model, "3..4,1..1", "--resources"]
        done = subprocess.run(words, env={**os.environ, "TILECATNIP": program()}, capture_output=True, text=True)
        lines = done.stdout.splitlines()
        self.assertEqual([re.sub(r" registers \d+ adders \d+ choices \d+ levels \d+$", "", line) for line in lines], read(os.path.join(TOP, "examples/three_products.explore")).splitlines()[1::2] + ["least cycles 4 multipliers 1"], done.stderr)

    @unittest.skipUnless(program(), "there is no proved program")
    def test_picture_of_registers(self):
        """Its plans are those that `explore` tells, each at the place of its numbers; the registers are those of the text that was drawn."""
        model, span = re.search(r"^\$ tools/explore (\S+) (\S+) --resources >plans\n\$ tools/plot_explore plans registers ", read(os.path.join(TOP, "examples/README.md")), re.M).groups()
        picture = read(os.path.join(TOP, "examples/pictures/fir_lowpass_registers.svg"))
        found = subprocess.run([program(), "explore", os.path.join(TOP, model), span], capture_output=True, text=True)
        self.assertEqual((found.returncode, found.stderr), (0, ""))
        named = re.findall(r"cycles (\d+) multipliers (\d+): multiplications (\d+), latency (\d+), (registers \d+, adders \d+, choices \d+, levels \d+)", picture)
        told = re.findall(r"^cycles (\d+) multipliers (\d+) multiplications (\d+) latency (\d+)$", found.stdout, re.M)
        self.assertEqual(sorted(row[:4] for row in named), sorted(told))
        rows = [f"cycles {row[0]} multipliers {row[1]} multiplications {row[2]} latency {row[3]} {row[4].replace(',', '')}" for row in named]
        least = found.stdout.splitlines()[-1]
        rows.sort(key=lambda row: told.index(tuple(row.split()[1:8:2])))
        self.assertEqual(re.findall("<circle .*|<path d=.*", self.drawn("\n".join([*rows, least]) + "\n", "registers").stdout), re.findall("<circle .*|<path d=.*", picture))


class Slowest(unittest.TestCase):
    """The slowest path of cells by hand."""

    @staticmethod
    def cell(kind, reads, writes, **parameters):
        ways = {**dict.fromkeys(reads, "input"), **dict.fromkeys(writes, "output")}
        return {"type": kind, "port_directions": ways, "connections": {**reads, **writes}, "parameters": parameters}

    def test_a_path_between_registers(self):
        cells = [self.cell("SB_LUT4", {"I0": [1]}, {"O": [2]}), self.cell("SB_LUT4", {"I0": [2], "I1": [9]}, {"O": [3]}), self.cell("SB_DFF", {"D": [3]}, {"Q": [1]})]
        self.assertEqual(longest(cells), (2, 2.4))

    def test_a_multiplier_with_a_register_behind_it_ends_a_path(self):
        cells = [self.cell("DSP48E1", {"A": [1], "C": [3]}, {"P": [2]}, PREG="1"), self.cell("LUT2", {"I0": [2]}, {"O": [3]})]
        self.assertEqual(longest(cells), (2, 4.9))
        cells[0]["parameters"]["CREG"] = "1"
        self.assertEqual(longest(cells), (1, 4.0))

    def test_a_path_that_comes_round_is_told(self):
        cells = [self.cell("DSP48E1", {"A": [1], "C": [3]}, {"P": [2]}), self.cell("LUT2", {"I0": [2]}, {"O": [3]})]
        self.assertRaisesRegex(ValueError, "comes round", longest, cells)

    def test_a_long_chain(self):
        cells = [self.cell("SB_CARRY", {"CI": [at]}, {"CO": [at + 1]}) for at in range(50_000)]
        self.assertAlmostEqual(longest(cells[::-1])[1], 50_000 * 0.13, places=3)


class Figures(unittest.TestCase):
    """What the pages of designs say in numbers, by the taps of their references."""

    def test_of_the_low_pass(self):
        folder = os.path.join(TOP, "examples/designs/fir_lowpass")
        taps = [int(it) for it in re.findall(r"-?\d+", re.search(r"TAPS = \((.*?)\)", read(os.path.join(folder, "reference.py")), re.S)[1])]
        gain = lambda frequency: abs(sum(tap * cmath.exp(-2j * cmath.pi * frequency * at) for at, tap in enumerate(taps)))
        down = 20 * math.log10(gain(0.02) / gain(0.31))
        self.assertIn(f"the one at 0.31 is {down:.0f} dB down", read(os.path.join(folder, "README.md")))


class Stimulus(unittest.TestCase):
    BYTE = FixedType(True, 8, 4)

    def test_roundings(self):
        # in eighths of the last bit: which whole number each rounding gives
        rows = ((4, (0, 1, 0, 1, 1, 0)), (-4, (-1, 0, 0, 0, -1, 0)), (12, (1, 2, 1, 2, 2, 2)), (-12, (-2, -1, -1, -1, -2, -2)), (5, (0, 1, 0, 1, 1, 1)), (-3, (-1, 0, 0, 0, 0, 0)))
        for eighths, wanted in rows:
            value = Fraction(eighths, 8 * 16)
            self.assertEqual(tuple(quantized(value, self.BYTE, ROUNDINGS[name])[0] for name in ("Floor", "Ceiling", "Zero", "Nearest", "Round", "Convergent")), wanted)

    def test_limits(self):
        self.assertEqual(quantized(Fraction(8), self.BYTE, ROUNDINGS["Nearest"]), (127, True))
        self.assertEqual(quantized(Fraction(-8), self.BYTE, ROUNDINGS["Nearest"]), (-128, False))
        self.assertEqual(quantized(Fraction(-1), FixedType(False, 3, -1), ROUNDINGS["Floor"]), (0, True))

    def test_decimals(self):
        for value, said in ((Fraction(-1, 16), "-0.0625"), (Fraction(10), "10"), (Fraction(-5, 2), "-2.5"), (Fraction(3, 10), "0.3"), (Fraction(1, 3), "0." + "3" * 20), (Fraction(1, 2**40), str(format(2.0**-40, ".40f")))):
            self.assertEqual(decimal(value), said)

    def test_errors(self):
        told = errors([Fraction(1, 16), Fraction(-1, 16), Fraction(0), Fraction(1, 8)], self.BYTE)
        self.assertEqual(told, "4 values, greatest error 0.125 (2 of the last bit), mean 0.03125 (0.5 of the last bit), rms 0.0765466 (1.225 of the last bit)")

    def test_tables(self):
        with tempfile.TemporaryDirectory() as room:
            path = os.path.join(room, "a.csv")
            write(path, "time;u_1;u_0\n0;-.5;2\n1;;1e-2\n")
            table = table_of(path)
            self.assertEqual((columns_by_name(table, ["u_0", "u_1"]), table.rows), ([2, 1], [[0, Fraction(-1, 2), 2], [1, None, Fraction(1, 100)]]))
            with self.assertRaisesRegex(Failed, "no column v"):
                columns_by_name(table, ["v"])
            write(path, "1,x\n2,y\n")
            with self.assertRaisesRegex(Failed, "row 2: 'y' stands"):
                table_of(path)
            with wave.open(os.path.join(room, "a.wav"), "wb") as file:
                file.setnchannels(2)
                file.setsampwidth(2)
                file.setframerate(8000)
                file.writeframes(bytes((0, 128, 0, 64, 255, 127, 1, 0)))
            self.assertEqual(table_of(os.path.join(room, "a.wav")).rows, [[-1, Fraction(1, 2)], [Fraction(32767, 32768), Fraction(1, 32768)]])
            write(os.path.join(room, "b.wav"), "RIFF")
            with self.assertRaises(Failed):
                table_of(os.path.join(room, "b.wav"))

    @unittest.skipUnless(program(), "there is no proved program")
    def test_of_models(self):
        def shown(*words):
            return subprocess.run([sys.executable, os.path.join(TOOLS, "stimulus"), *words], env={**os.environ, "TILECATNIP": program()}, capture_output=True, text=True)

        with tempfile.TemporaryDirectory() as room:
            path = os.path.join(room, "values.txt")
            write(path, "1\n7\n-200\n")
            # an input of int8 that hits at every second base sample
            done = shown(os.path.join(TOP, "examples/slow_to_fast.mdl"), path)
            self.assertEqual((done.stdout, done.stderr), ("1\n-\n-128\n", "tools/stimulus: 1 values are outside of their type, and were limited\n"))
            # an output of a subsystem, and one of fixdt(1,16,15)
            fir = os.path.join(TOP, "examples/designs/fir_lowpass/model")
            write(path, "y\n0\n0.5\n")
            write(os.path.join(room, "response"), "16384\n-32768\n")
            os.rename(path, path[:-3] + "csv")
            done = shown(fir + ".mdl", os.path.join(room, "response"), "--real", "--reference", path[:-3] + "csv")
            self.assertEqual(done.stdout, "y,y_error\n0.5,0.5\n-1,-1.5\n", done.stderr)
            self.assertRegex(done.stderr, "^y: 2 values, greatest error 1.5 ")
