"""Why outputs are late, and the page of a design."""

import html.parser
import os
import re
import subprocess
import sys
import tempfile
import unittest

from .common import TOOLS, TOP, read, write
from .pages import program

sys.path.insert(0, TOOLS)
import mdl
from belongs import blocks_of_lines
from checked import checked
from filters import unfold
from page import inside
from sharing import Sharing
from subset import module_of


def block(kind: str, name: str, *parameters: str) -> str:
    return "\n".join(["Block {", f"BlockType {kind}", f'Name "{name}"', *parameters, "}"])


def line(source: str, *ends: str) -> str:
    goals = [f'Branch {{\nDstBlock "{end.partition(":")[0]}"\nDstPort {end.partition(":")[2] or "1"}\n}}' for end in ends]
    return "\n".join(["Line {", f'SrcBlock "{source}"', "SrcPort 1", *goals, "}"])


# Two gains and a product behind one of them; the product is of another kind.
CHAIN = "\n".join([
    "Model {", "System {", block("Inport", "u", 'OutDataTypeStr "int8"'), block("Gain", "a", 'Gain "[1 2 3]"', 'ParamDataTypeStr "int8"', 'OutDataTypeStr "int8"'),
    block("Gain", "b", 'Gain "0.75"'), block("Product", "p"), block("Outport", "y"), block("Outport", "z", 'Port "2"'),
    line("u", "a", "b", "p:2"), line("a", "p:1"), line("b", "z"), line("p", "y"), "}", "}", "",
])  # fmt: skip
CHECK = """accepted cycles 16 multipliers 2
block "u" period 1 latency 0 fixdt(1,8,0) 1
block "a" period 1 latency 0 fixdt(1,8,0) 3
block "b" period 1 latency 0 fixdt(1,16,7) 1
block "p" period 1 latency 0 fixdt(1,16,0) 3
block "y" period 1 latency 0
block "z" period 1 latency 0
output y_0 clocks 4 path "y"
"""
TEXT = """(* fx_cycles = 1 *)
module fx_model (
  input wire clk,
  input wire reset,
  (* fx_period = 1 *)
  input wire signed [7:0] u,
  (* fx_period = 1, fx_latency = 0 *)
  output wire signed [7:0] y
);
wire signed [7:0] fx_e0_0_u;
wire signed [7:0] fx_e1_0_D;
reg signed [7:0] fx_n3;
wire signed [7:0] fx_e2_0_y;
assign fx_e0_0_u = u;
assign fx_e1_0_D = fx_n3;
always @ (posedge clk) begin if (reset) fx_n3 <= 8'd0; else fx_n3 <= fx_e0_0_u; end
assign fx_e2_0_y = fx_e1_0_D;
assign y = fx_e2_0_y;
endmodule
"""


class Why(unittest.TestCase):
    """By hand: the four elements of the gains have two kinds of coefficients, and the product a third kind."""

    def test_levels_slots_and_units(self):
        found = Sharing(mdl.read(CHAIN), checked(CHECK)).operations()
        # the coefficient 0.75 of the input's 8 bits has 7 behind the point, so it is of another kind than a's
        rows = [(it.path, it.element, it.level, it.slot, it.unit) for it in found]
        self.assertEqual(rows[:4], [("a", 0, 0, 0, 0), ("a", 1, 0, 0, 1), ("a", 2, 0, 1, 0), ("b", 0, 0, 0, 2)])
        # level 0 takes two slots, for three operations of one kind at two multipliers; level 1 begins behind it
        self.assertEqual(rows[4:], [("p", 0, 1, 2, 0), ("p", 1, 1, 2, 1), ("p", 2, 1, 3, 0)])
        self.assertEqual([it.kind.right for it in found][3:5], [(True, 8, 7), (True, 8, 0)])

    @unittest.skipUnless(program(), "there is no proved program")
    def test_page_shows_what_is_told(self):
        command, shown = re.search(r"^\$ (tools/why .*)\n((?:.*\n)*?)```", read(os.path.join(TOP, "examples/README.md")), re.M).groups()
        done = subprocess.run([sys.executable, *command.split()], cwd=TOP, env={**os.environ, "TILECATNIP": program()}, capture_output=True, text=True)
        self.assertEqual(done.stdout, shown, done.stderr)


class Filters(unittest.TestCase):
    """A filter as the subsystem that it stands for."""

    MODEL = "\n".join(["Model {", "System {", block("DiscreteFir", "P", 'Coefficients "[1 2 3]"', 'InitialStates "[5 7]"', 'CoefDataTypeStr "int8"', 'RndMeth "Zero"'), "}", "}", ""])

    def test_blocks_and_lines(self):
        [(root, _), (inner, above)] = mdl.systems(unfold(mdl.read(self.MODEL)))
        self.assertEqual((above, root.all("Block")[0].get("BlockType")), (["P"], "SubSystem"))
        blocks = inner.all("Block")
        self.assertEqual([it.get("Name") for it in blocks], ["in", "d1", "d2", "c0", "c1", "c2", "sum", "out"])
        self.assertEqual([it.get("InitialCondition") for it in blocks[1:3]], ["5", "7"])
        self.assertEqual([(it.get("Gain"), it.get("ParamDataTypeStr")) for it in blocks[3:6]], [("1", "int8"), ("2", "int8"), ("3", "int8")])
        self.assertEqual((blocks[6].get("Inputs"), blocks[6].get("RndMeth")), ("+++", "Zero"))
        lines = [f'{it.get("SrcBlock")} {it.get("DstBlock")} {it.get("DstPort")}' for it in inner.all("Line")]
        self.assertEqual(lines, ["in d1 1", "d1 d2 1", "in c0 1", "d1 c1 1", "d2 c2 1", "c0 sum 1", "c1 sum 2", "c2 sum 3", "sum out 1"])

    def test_one_that_does_not_read_stays(self):
        [(root, _)] = mdl.systems(unfold(mdl.read(self.MODEL.replace("[5 7]", "[5 7 9]"))))
        self.assertEqual(root.all("Block")[0].get("BlockType"), "DiscreteFir")

    @unittest.skipUnless(program(), "there is no proved program")
    def test_the_check_names_these_blocks(self):
        folder = os.path.join(TOP, "examples/designs/fir_lowpass")
        told = subprocess.run([program(), "check", "one_block.mdl", "model.plan"], cwd=folder, capture_output=True, text=True).stdout
        [_, (inner, _)] = mdl.systems(unfold(mdl.read_file(os.path.join(folder, "one_block.mdl"))[1]))
        self.assertEqual(list(checked(told).blocks), ["u", *(f'h/{it.get("Name")}' for it in inner.all("Block")), "y"])


class Looking(html.parser.HTMLParser):
    """What a page loads, and the texts of its lines and blocks."""

    def __init__(self) -> None:
        super().__init__()
        self.loads, self.scripts, self.marked = [], 0, set()

    def handle_starttag(self, tag: str, attrs: list) -> None:
        given = dict(attrs)
        self.loads += [value for name, value in attrs if name in ("src", "href", "srcset", "action") or name.startswith("on")]
        self.scripts += tag == "script"
        self.marked |= set((given.get("data-blocks") or "").split())


class Report(unittest.TestCase):
    def test_lines_of_blocks(self):
        found = checked('accepted cycles 1 multipliers 0\nblock "u" period 1 latency 0 fixdt(1,8,0) 1\nblock "D" period 1 latency 0 fixdt(1,8,0) 1\nblock "y" period 1 latency 0\n')
        rows = [(text.strip(), of) for text, of in zip(TEXT.splitlines(), blocks_of_lines(TEXT, module_of(TEXT), found, {"y": 1})) if of]
        wanted = [{0}, {2}, {0}, {1}, {1}, {2}, {0}, {1}, {1}, {2}, {2}]
        self.assertEqual([of for _, of in rows], wanted, rows)
        # names by their places, as they stood before they had the block's
        plain = re.sub(r"fx_e(\d)_0_\w", r"fx_n\1", TEXT)
        self.assertEqual([of for of in blocks_of_lines(plain, module_of(plain), found, {"y": 1}) if of], wanted)

    def test_a_picture_keeps_its_style(self):
        made = inside("<svg><style>\ntext { fill: red } .a { b: c }\n</style></svg>", "plot")
        self.assertIn("#plot text { fill: red }\n#plot .a { b: c }", made)

    @unittest.skipUnless(program(), "there is no proved program")
    def test_names_are_escaped_and_nothing_is_loaded(self):
        folder = os.path.join(TOP, "examples/designs/biquad")
        name = '<script>alert(1)</script>\\"&amp;\' onload=x'
        with tempfile.TemporaryDirectory() as room:
            for ending, said in (("mdl", name), ("plan", name.replace("/", "//"))):
                write(os.path.join(room, f"model.{ending}"), read(os.path.join(folder, f"model.{ending}")).replace('"b1"', f'"{said}"'))
            words = [sys.executable, os.path.join(TOOLS, "report"), os.path.join(room, "model.mdl"), os.path.join(room, "model.plan"), os.path.join(folder, "model.stim"), "-o", os.path.join(room, "out")]
            done = subprocess.run(words, env={**os.environ, "TILECATNIP": program()}, capture_output=True, text=True)
            self.assertEqual(done.returncode, 0, done.stderr)
            made = read(os.path.join(room, "out/index.html"))
        looking = Looking()
        looking.feed(made)
        self.assertEqual((looking.loads, looking.scripts), ([], 1))
        self.assertIn("&lt;script&gt;alert(1)&lt;/script&gt;&quot;&amp;amp;&#x27; onload=x", made)
        self.assertNotRegex(made, r"url\(|@import|https?://(?!www\.w3\.org/2000/svg)")
        # each of the thirteen blocks has lines
        self.assertEqual(looking.marked, set(map(str, range(13))))

    @unittest.skipUnless(program(), "there is no proved program")
    def test_the_gallery_has_the_page(self):
        command = re.search(r"^\$ tools/report (.*) -o (\S+)$", read(os.path.join(TOP, "examples/README.md")), re.M)
        with tempfile.TemporaryDirectory() as room:
            words = [sys.executable, os.path.join(TOOLS, "report"), *command[1].split(), "-o", room]
            done = subprocess.run(words, cwd=TOP, env={**os.environ, "TILECATNIP": program()}, capture_output=True, text=True)
            self.assertTrue(read(os.path.join(room, "index.html")) == read(os.path.join(TOP, "examples", command[2], "index.html")), done.stderr)
