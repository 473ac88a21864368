"""The ways into a design: the Makefile and the FuseSoC core of the FIR filter, the module's name, and AXI-Stream."""

import os
import re
import shutil
import subprocess
import tempfile
import unittest

from .common import TOP, read, write
from .lab import HAS_ICARUS, HAS_PROGRAM, PROGRAM
from .pages import blocks_of

FIR = os.path.join(TOP, "examples/designs/fir_lowpass")
# Hands three samples to the wrapper, and prints what it hands over.
DRIVER = """module driver;
  reg clk, resetn, valid;
  reg signed [7:0] number;
  wire ready, given;
  wire signed [7:0] shown;
  axis_unit_delay wrapped (
    .aclk(clk), .aresetn(resetn), .s_axis_tvalid(valid), .s_axis_tready(ready), .s_axis_tdata(number),
    .m_axis_tvalid(given), .m_axis_tready(1'b1), .m_axis_tdata(shown)
  );
  always @ (negedge clk) if (given && resetn) $display("%0d", shown);
  initial begin
    resetn = 0; valid = 0; number = 7; clk = 0;
    #5 clk = 1; #1 resetn = 1; #4 clk = 0; #5 clk = 1;
    #1 valid = 1; number = 5; #4 clk = 0; #5 clk = 1; #1 number = 9; #4 clk = 0; #5 clk = 1; #1 number = -1; #4 clk = 0;
    $finish;
  end
endmodule
"""


@unittest.skipUnless(shutil.which("make"), "make is not installed")
class Ways(unittest.TestCase):
    def setUp(self):
        room = tempfile.TemporaryDirectory()
        self.addCleanup(room.cleanup)
        self.room = room.name

    def at(self, name):
        return os.path.join(self.room, name)

    def make(self, *words, **more):
        """Makes targets under the first four samples of the stimulus."""
        env = {**os.environ, "TILECATNIP": PROGRAM, **more}
        words = [shutil.which("make"), "-C", FIR, f"BUILD={self.at('build')}", f"STIM={self.at('stim')}", *words]
        return subprocess.run(words, env=env, capture_output=True, text=True, timeout=300)

    @HAS_PROGRAM
    def test_make(self):
        write(self.at("stim"), "".join(read(os.path.join(FIR, "model.stim")).splitlines(keepends=True)[:4]))
        done = self.make("sources", *(["icarus"] if shutil.which("iverilog") else []))
        self.assertEqual(done.returncode, 0, done.stderr)
        self.assertTrue("4 numbers, 0 wrong" in done.stdout or not shutil.which("iverilog"), done.stdout)
        module, named = read(self.at("build/fx_model.v")), read(self.at("build/fir_lowpass.v"))
        self.assertEqual(named, module.replace("module fx_model (", "module fir_lowpass ("))
        self.assertNotEqual(named, module)
        # each file of the core is one of those that were made
        files = re.findall(r"^      - build/([\w.]+)", read(os.path.join(FIR, "fir_lowpass.core")), re.M)
        self.assertEqual([name for name in files if not os.path.exists(self.at(f"build/{name}"))], [])
        self.assertEqual(set(re.findall(r'"(\w+\.hex)"', read(self.at("build/fx_check.v")))), {name for name in files if name.endswith(".hex")})
        if shutil.which("iverilog"):
            self.spoil("build/fx_expected.hex")
            self.assertNotEqual(self.make("icarus").returncode, 0)
        skipped = self.make("-k", "all", PATH="/nowhere")
        self.assertEqual(skipped.returncode, 0, skipped.stderr)
        for name in ("icarus", "verilator", "yosys", "nextpnr"):
            self.assertIn(f"skipped: {name}, for want of ", skipped.stdout)

    def spoil(self, name):
        first, rest = read(self.at(name)).split("\n", 1)
        write(self.at(name), f"{int(first, 16) ^ 1:0{len(first)}x}\n{rest}")

    def test_name(self):
        """The line for `sed` of README.md, of docs/BOARD.md and of the Makefile is one, and changes the name alone."""
        pages = [read(os.path.join(TOP, page)) for page in ("README.md", "docs/BOARD.md", "examples/designs/fir_lowpass/Makefile")]
        lines = [re.search(r"sed '(.*?)'", page.replace("$$", "$"))[1] for page in pages]
        lines = [re.sub(r"\$\(NAME\)|NAME|unit_delay", "other", line) for line in lines]
        self.assertEqual(len(set(lines)), 1, lines)
        text = read(os.path.join(TOP, "examples/unit_delay.v"))
        done = subprocess.run(["sed", lines[0]], input=text, capture_output=True, text=True)
        self.assertEqual(done.stdout.splitlines()[1], "module other (")
        self.assertEqual([line for line in done.stdout.splitlines() if line not in text.splitlines()], ["module other ("])

    @HAS_ICARUS
    def test_axi_stream(self):
        """By hand: the unit delay hands over its initial value, 3, and then each input one later."""
        [wrapper] = [text for language, text in blocks_of("docs/BOARD.md") if language == "verilog"]
        write(self.at("wrapper.v"), wrapper)
        write(self.at("driver.v"), DRIVER)
        sources = [self.at("wrapper.v"), self.at("driver.v"), os.path.join(TOP, "examples/unit_delay_stream.v")]
        built = subprocess.run(["iverilog", "-g2005", "-s", "driver", "-o", self.at("driver.vvp"), *sources], capture_output=True, text=True)
        self.assertEqual((built.returncode, built.stderr), (0, ""))
        done = subprocess.run(["vvp", "-N", self.at("driver.vvp")], capture_output=True, text=True)
        self.assertEqual(done.stdout.split()[:3], ["3", "5", "9"])
