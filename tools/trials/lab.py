"""What stands between a module and a board: benches, waves, and the reader of texts that they are tried with."""

import glob
import importlib
import os
import shutil
import subprocess
import sys
import tempfile
import types
import unittest
import unittest.mock

from .common import TOOLS, TOP, read, write
from .pages import program

sys.path.insert(0, TOOLS)
from running import Running, responds
from subset import module_of
from written import Failed, beside, rows_of

EXAMPLES = os.path.join(TOP, "examples")
DESIGNS = sorted(os.path.basename(os.path.dirname(it)) for it in glob.glob(os.path.join(EXAMPLES, "designs/*/model.mdl")))
HAS_ICARUS = unittest.skipUnless(shutil.which("iverilog"), "Icarus Verilog is not installed")
PROGRAM = program()
HAS_PROGRAM = unittest.skipUnless(PROGRAM, "there is no proved program")


def run(name, *words):
    """A tool with what is installed."""
    env = {**os.environ, **({"TILECATNIP": PROGRAM} if PROGRAM else {})}
    return subprocess.run([sys.executable, os.path.join(TOOLS, name), *words], env=env, capture_output=True, text=True, timeout=120)


def three(name):
    """The model, the plan and the stimulus of a design or of a small model."""
    at = os.path.join(EXAMPLES, "designs", name, "model") if name in DESIGNS else os.path.join(EXAMPLES, name)
    return f"{at}.mdl", f"{at}.plan" if os.path.exists(f"{at}.plan") else "-", f"{at}.stim"


class Reading(unittest.TestCase):
    """The tools' reader of texts shows what the responses say, and takes no text that isn't in the subset."""

    def test_responds(self):
        texts = glob.glob(os.path.join(EXAMPLES, "*.v")) + glob.glob(os.path.join(EXAMPLES, "designs/*/model.v"))
        for path in sorted(texts):
            module, rows = module_of(read(path)), rows_of(beside(path, ".stim"))
            # of a text of many items the first samples
            samples = 40_000 // (len(module.nets) * module.attributes["fx_cycles"]) + 3
            self.assertEqual(responds(module, rows[:samples]), rows_of(beside(path, ".response"))[:samples], path)

    def test_values(self):
        """Each value is worked out by hand from IEEE 1364-2005, 5.4 and 5.5."""
        text = "(* fx_cycles = 1 *) module m (input wire clk, input wire reset, output wire signed [7:0] y);\nassign y = %s;\nendmodule"
        for value, number in (
            ("4'sd9", 0xF9), ("4'd9", 9), ("(4'sd9 + 4'd1)", 10), ("(4'sd9 >>> 2'd1)", 0xFC), ("(4'd9 >>> 2'd1)", 4), ("$signed(4'd9)", 0xF9),
            ("{4'd9, 2'd1}", 0x25), ("{2 {3'd5}}", 0x2D), ("(- 4'd1)", 0xFF), ("(~ 4'sd1)", 0xFE), ("(! 4'd2)", 0), ("(4'sd9 < 4'sd1)", 1),
            ("(4'sd9 < 4'd1)", 0), ("(4'd15 + 4'd1)", 16), ("{(4'd15 + 4'd1)}", 0), ("(1'd1 ? 4'sd9 : 4'd0)", 9), ("(4'sd9 * 4'sd3)", 0xEB),
            ("(4'd9 << 3'd5)", 0x20), ("$unsigned(4'sd9)", 9), ("(4'h3 ^ 4'b101)", 6), ("(2'd2 && 2'd1)", 1), ("(8'd1 == 4'sd1)", 1), ("(4'd1/**/-// \n4'd2)", 0xFF),
        ):  # fmt: skip
            self.assertEqual(Running(module_of(text % value)).shows({"reset": 0})["y"], number, value)
        for odd in ("4'd9 + 1", "(y[0] ** y)", "$fopen(y)", "(4'd9 >> y)", "", "(y ? y)"):
            with self.assertRaisesRegex(Failed, "line 2: not in the Verilog subset", msg=odd):
                module_of(text % odd)


class Edge:
    """An edge that a test awaits."""

    def __init__(self, signal):
        self.signal = signal

    def __await__(self):
        yield self


class Falling(Edge):
    pass


class Pin:
    value = 0


class Device:
    """A module as a cocotb test sees it, run by the tools' own reader of texts."""

    def __init__(self, text):
        self.run = Running(module_of(text))
        self.errors, self._log = [], self
        for name in self.run.module.nets:
            setattr(self, name, Pin())

    def error(self, form, *words):
        self.errors.append(form % words)

    def info(self, form, *words):
        self.summary = form % words

    def goes(self, test):
        """Runs a test to its end, and shows outputs half a row before the edge at which registers take."""
        waiting = test(self)
        try:
            while True:
                edge = waiting.send(None)
                given = {name: int(getattr(self, name).value) for name in self.run.inputs if name != "clk"}
                shown = self.run.shows(given) if isinstance(edge, Falling) else self.run.clock(given)[0]
                for net in self.run.module.ports("output"):
                    getattr(self, net.name).value = shown[net.name]
        except StopIteration:
            return


def cocotb_of(tests):
    """Just so much of cocotb as the tests ask for; they are listed."""
    whole = types.ModuleType("cocotb")
    whole.test = lambda: tests.append
    whole.start_soon = lambda _: None
    clock, triggers = types.ModuleType("cocotb.clock"), types.ModuleType("cocotb.triggers")
    clock.Clock = lambda *_: types.SimpleNamespace(start=lambda: None)
    triggers.RisingEdge, triggers.FallingEdge = Edge, Falling
    return {"cocotb": whole, "cocotb.clock": clock, "cocotb.triggers": triggers}


@HAS_PROGRAM
class Benches(unittest.TestCase):
    """`tools/bench` writes benches that pass, and that fail where a number differs."""

    def setUp(self):
        room = tempfile.TemporaryDirectory()
        self.addCleanup(room.cleanup)
        self.room = room.name

    def made(self, name, *words, samples=None):
        """Makes the bench of a model under the first samples of its stimulus."""
        model, plan, stimulus = three(name)
        write(self.at("stim"), "".join(read(stimulus).splitlines(keepends=True)[:samples]))
        done = run("bench", model, plan, self.at("stim"), "-o", self.room, *words)
        self.assertEqual((done.returncode, done.stdout), (0, ""), done.stderr)

    def at(self, name):
        return os.path.join(self.room, name)

    def call(self, *words):
        return subprocess.run(words, cwd=self.room, capture_output=True, text=True, timeout=600)

    def icarus(self, module):
        built = self.call("iverilog", "-g2005", "-s", "fx_bench", "-o", "fx_bench.vvp", "fx_bench.v", "fx_check.v", f"{module}.v")
        self.assertEqual(built.returncode, 0, built.stderr)
        done = self.call("vvp", "-N", "fx_bench.vvp")
        return done.returncode, [line for line in done.stdout.splitlines() if "wrong" in line or " is " in line or "wanting" in line]

    def cocotb(self, module):
        """What a cocotb test counts, or None where it fails, and what it tells."""
        tests = []
        stubs = cocotb_of(tests)
        with unittest.mock.patch.dict(sys.modules, stubs), unittest.mock.patch.object(sys, "path", [self.room] + sys.path):
            sys.modules.pop(f"test_{module}", None)
            importlib.invalidate_caches()
            importlib.import_module(f"test_{module}")
            del sys.modules[f"test_{module}"]
        [test], device = tests, Device(read(self.at(f"{module}.v")))
        try:
            device.goes(test)
        except AssertionError:
            self.assertTrue(device.errors)
            return None, device.errors
        self.assertEqual(device.errors, [])
        return device.summary, []

    def spoil(self, name, old, new):
        text = read(self.at(name))
        self.assertIn(old, text)
        write(self.at(name), text.replace(old, new, 1))

    @HAS_ICARUS
    def test_designs(self):
        for name, count in (("biquad", 16), ("cic_decimator", 2), ("fir_lowpass", 16), ("moving_average", 16), ("nco", 16), ("pi_controller", 16), ("qam16", 40)):
            self.made(name, "--stalls", "3", samples=16)
            self.assertEqual(self.icarus("fx_model"), (0, [f"{count} numbers, 0 wrong"]), name)

    @HAS_ICARUS
    def test_a_wrong_number_is_told(self):
        """Of the unit delay, whose response is 3, 5, -1 (examples/README.md)."""
        self.made("unit_delay")
        self.assertEqual((self.icarus("fx_model"), self.cocotb("fx_model")), ((0, ["3 numbers, 0 wrong"]), ("3 numbers, 0 wrong", [])))
        for name, old, new, told in (
            ("fx_expected.hex", "ff", "fe", "sample 2: y is -1, not -2"),
            ("fx_model.v", "8'd3", "8'd4", "sample 0: y is 4, not 3"),
        ):
            self.made("unit_delay", "--stalls", "5")
            self.spoil(name, old, new)
            self.assertEqual(self.icarus("fx_model"), (1, [told, "3 numbers, 1 wrong"]))
            self.assertEqual(self.cocotb("fx_model"), (None, [told]))

    @HAS_ICARUS
    def test_a_module_that_takes_in_a_stall_is_wrong(self):
        self.made("unit_delay", "--stalls", "5")
        self.spoil("fx_model.v", "if ((clk_enable && (", "if ((1'd1 && (")
        status, told = self.icarus("fx_model")
        self.assertEqual(status, 1)
        self.assertRegex(told[-1], "3 numbers, [12] wrong")

    @HAS_ICARUS
    def test_stream(self):
        for seed in ("1", "2"):
            self.made("three_products", "--stream", "--stalls", seed)
            self.assertEqual((self.icarus("fx_stream"), self.cocotb("fx_stream")[0]), ((0, ["9 numbers, 0 wrong"]), "9 numbers, 0 wrong"))
        write(self.at("stalls"), "1 0\n0 1\n")
        self.made("pipelined_gain", "--stream", "--stalls", self.at("stalls"))
        numbers = len(rows_of(three("pipelined_gain")[2]))
        self.assertEqual((self.icarus("fx_stream"), self.cocotb("fx_stream")[0]), ((0, [f"{numbers} numbers, 0 wrong"]), f"{numbers} numbers, 0 wrong"))
        # never ready to hand over
        self.spoil("fx_stream.v", "assign out_valid = ", "assign out_valid = 1'd0 && ")
        text = read(self.at("fx_stream.v")).replace("1'd0 && ", "(1'd0 && ").replace("fx_fed);\nalways", "fx_fed));\nalways", 1)
        write(self.at("fx_stream.v"), text)
        self.assertEqual(self.icarus("fx_stream"), (1, [f"{numbers} numbers are wanting", "0 numbers, 0 wrong"]))

    @unittest.skipUnless(shutil.which("verilator"), "Verilator is not installed")
    def test_verilator(self):
        """By --binary, which Verilator has from 5 on, or by the clock in C++."""
        self.made("unit_delay", "--stalls", "2")
        version = self.call("verilator", "--version").stdout.split()[1]
        how, clock = (["--binary", "--timing"], "fx_bench") if int(version.partition(".")[0]) >= 5 else (["--cc", "--exe", "--build"], "fx_check")
        sources = [f"{clock}.v", "fx_check.v", "fx_model.v"] if clock == "fx_bench" else ["fx_main.cpp", "fx_check.v", "fx_model.v"]
        flags = ["-MAKEFLAGS", "OPT_FAST=-O0 OPT_SLOW=-O0 OPT_GLOBAL=-O0"]
        built = self.call("verilator", *how, *flags, "--top-module", clock, *sources)
        self.assertEqual(built.returncode, 0, built.stderr)
        done = self.call(f"./obj_dir/V{clock}")
        self.assertEqual((done.returncode, done.stdout.splitlines()[0]), (0, "3 numbers, 0 wrong"))
        self.spoil("fx_expected.hex", "ff", "fe")
        done = self.call(f"./obj_dir/V{clock}")
        self.assertNotEqual(done.returncode, 0)
        self.assertIn("sample 2: y is -1, not -2\n3 numbers, 1 wrong\n", done.stdout)

    def test_refuses(self):
        """What the program refuses has its line and its status; patterns of stalls have their own."""
        model, plan, stimulus = three("unit_delay")
        write(self.at("fields"), "1 2\n")
        write(self.at("cycles"), "cycles 0\n")
        for words, status, told in (
            ((model, plan, self.at("fields")), 6, f"{self.at('fields')}: line 1: field count"),
            ((model, self.at("cycles"), stimulus), 6, "line 1: plan line"),
            ((self.at("none"), plan, stimulus), 3, "cannot be read"),
            ((three("fast_to_slow")[0], plan, three("fast_to_slow")[2], "--stream"), 7, "rule 14"),
            ((model, plan, stimulus, "--stalls", self.at("fields")), 1, "line 1: not 1 of 0 and 1"),
        ):
            done = run("bench", *words, "-o", self.at("out"))
            self.assertEqual((done.returncode, done.stdout), (status, ""), done.stderr)
            self.assertIn(told, done.stderr)
            self.assertFalse(os.path.exists(self.at("out")))
        write(self.at("never"), "0\n0\n")
        self.assertIn("a column without a 1", run("bench", model, plan, stimulus, "--stalls", self.at("never")).stderr)
        self.assertIn("usage", run("bench", model, plan).stderr)


class Foreign(unittest.TestCase):
    """`tools/waves` runs no text that `replay` doesn't take, and shows no waves without an end."""

    def waves(self, old, new, *words):
        with tempfile.TemporaryDirectory() as room:
            text = read(os.path.join(EXAMPLES, "unit_delay.v"))
            self.assertIn(old, text)
            write(os.path.join(room, "x.v"), text.replace(old, new.replace("ROOM", room), 1))
            shutil.copy(os.path.join(EXAMPLES, "unit_delay.stim"), os.path.join(room, "x.stim"))
            done = run("waves", os.path.join(room, "x.v"), *words)
            self.assertFalse(os.path.exists(os.path.join(room, "made")))
            self.assertEqual((done.returncode, done.stdout), (1, ""), done.stderr)
            return done.stderr

    def test_texts(self):
        for words in ((), ("--svg",)):
            for code in ('integer f; initial f = $fopen("ROOM/made", "w");', "initial while (1) ;", '`include "/etc/passwd"'):
                self.assertIn("not in the Verilog subset", self.waves("endmodule", code + "\nendmodule", *words))
            self.assertIn("16777219 clocks", self.waves("fx_latency = 0", "fx_latency = 16777216", *words))
            self.assertIn("more than 128 bits", self.waves("wire signed [7:0] u", "wire signed [999999999:0] u", *words))

    @HAS_PROGRAM
    @HAS_ICARUS
    def test_conditions(self):
        self.assertIn("x.v: undriven: fx_n0", self.waves("assign fx_n0 = u;\n", ""))
        self.assertIn("x.v: combinational loop: fx_n0", self.waves("assign fx_n0 = u;", "assign fx_n0 = fx_n0;"))
