"""Multicycle paths, by runs of the texts: the rows at whose ends registers take, with stalls and without."""

import os
import random
import re
import sys
import tempfile
import unittest

from .common import TOOLS, TOP, read
from .lab import DESIGNS, HAS_PROGRAM, run, three

sys.path.insert(0, TOOLS)
from multicycle import OF_INPUTS, OF_OUTPUTS, SAFE, UNSAFE, Paths, constraints
from running import Running, rows_driven
from subset import module_of
from written import rows_of

LINE = re.compile(r"^(# )?set_multicycle_path (\d+) -(setup|hold) -from \[get_(?:cells|ports) \{(.*?)\}\] -to \[get_(?:cells|ports) \{(.*?)\}\]$", re.M)


def names(listed):
    return [name.replace("[*]", "").removesuffix("_reg") for name in listed.split()]


def told(text):
    """The paths of a text of constraints: whether they are comments, clocks, sources and targets."""
    found = LINE.findall(text)
    setups = [(bool(mark), int(many), names(begin), names(end)) for mark, many, kind, begin, end in found if kind == "setup"]
    holds = [(bool(mark), int(many) + 1, names(begin), names(end)) for mark, many, kind, begin, end in found if kind == "hold"]
    assert setups == holds and len(found) == text.count("set_multicycle_path"), text
    return setups


def takes_of(module, rows, clocks, stall):
    """The rows at whose ends registers take, that inputs change or that outputs are due, in so many clocks; the reset is -1."""
    run, chance = Running(module), random.Random(1)
    found = {name: [-1] for name in module.registers}
    run.clock({"reset": 1, **{name: 0 for name in run.inputs if name not in ("clk", "reset")}})
    row, cycles = 0, module.attributes["fx_cycles"]
    for clock, given in enumerate(rows_driven(module, cycles, rows, clocks)):
        while chance.random() < stall:
            odd = {name: chance.getrandbits(module.nets[name].width) for name in given if name != "reset"}
            assert not run.clock({**odd, "reset": 0, "clk_enable": 0})[1], "something takes in a stall"
            row += 1
        for name in run.clock({**given, "clk_enable": 1})[1]:
            found[name].append(row)
        for net in module.nets.values():
            step, late = (net.attribute("fx_period") or 1) * cycles, net.attribute("fx_latency")
            if net.direction == "input" and (clock + 1) % step == 0 or late is not None and clock >= late and (clock - late) % step == 0:
                found.setdefault(net.name, [-1] if net.direction == "input" else []).append(row)
        row += 1
    return found


def fewest(takes, source, target):
    """The fewest rows from one at whose end a source takes to the next one at whose end a target does."""
    between = [row - max(it for it in takes[source] if it < row) for row in takes[target] if row >= 0]
    return min(between, default=None)


class Multicycle(unittest.TestCase):
    def design(self, name):
        return module_of(read(os.path.join(TOP, "examples/designs", name, "model.v")))

    def wrong(self, module, takes, paths, more=0):
        """The paths between whose ends there are fewer rows than told, and one more where that is asked for."""
        found = []
        for path in paths:
            pairs = [fewest(takes, source, target) for source in path[2] for target in path[3]]
            if any(many is not None and many < path[1] + more for many in pairs):
                found.append(path)
        return found

    def test_designs(self):
        for name in DESIGNS:
            module, rows = self.design(name), rows_of(three(name)[2])
            paths = Paths(module)
            found = told(constraints(paths, "SDC", 100))
            clocks = max(3 * paths.frames.length, 30)
            takes = takes_of(module, rows, clocks, 0)
            self.assertEqual(self.wrong(module, takes, found), [], name)
            # each is told of as many clocks as there are
            self.assertEqual(self.wrong(module, takes, found, more=1), found, name)
            stalled = takes_of(module, rows, clocks, 0.3)
            self.assertEqual(self.wrong(module, stalled, [path for path in found if not path[0]]), [], name)
            self.assertIn(SAFE, constraints(paths, "XDC", 100))

    def test_by_hand(self):
        """Of the filter what goes on to the next sample is taken at the end of clock 32 of 33, as inputs change behind it."""
        paths = Paths(self.design("fir_lowpass"))
        self.assertEqual(max(path.clocks for path in paths.inner), 33)
        self.assertEqual(max(path.clocks for path in paths.of_inputs), 33)
        # the slow half of the decimator takes each eighth clock
        self.assertEqual(max(path.clocks for path in Paths(self.design("cic_decimator")).inner), 8)
        for name in ("biquad", "moving_average", "nco"):
            self.assertEqual(Paths(self.design(name)).inner, [], name)

    def test_slots(self):
        """A sample `d` is taken at the end of clock 3; one multiplier gives `a` at that of clock 0 and `b` at that of clock 2."""
        nets = "wire m; assign m = (((c == 2'd0) ? d : (! d)) * u);\n"
        slots = (("d", "(clk_enable && (c == 2'd3))", "u"), ("a", "(clk_enable && (c == 2'd0))", "m"), ("b", "(clk_enable && (c == 2'd2))", "m"))
        self.assertEqual(self.paths(slots, nets), {(("d",), ("b",), 3)})
        self.assertEqual({(path.targets, path.clocks) for path in self.made(slots, nets).of_inputs}, {(("d",), 4), (("b",), 3)})

    def made(self, registers, nets=""):
        head = "(* fx_cycles = 4 *) module m (input wire clk, input wire reset, input wire clk_enable, (* fx_period = 1 *) input wire u);\n"
        body = "reg [1:0] c; reg a; reg b; reg d;\n" + nets
        counter = "always @ (posedge clk) begin if (reset) c <= 2'd0; else if (clk_enable) c <= (c + 2'd1); end\n"
        each = [f"always @ (posedge clk) begin if (reset) {name} <= 1'd0; else if ({enable}) {name} <= {value}; end\n" for name, enable, value in registers]
        return Paths(module_of(head + body + counter + "".join(each) + "endmodule"))

    def paths(self, *words, **more):
        return {(path.sources, path.targets, path.clocks) for path in self.made(*words, **more).inner}

    def test_forms(self):
        """By hand: `a` takes at the end of clock 1 of 4, `b` of clock 3; the reset is clock -1."""
        a, b = "(clk_enable && (c == 2'd1))", "(clk_enable && (2'd3 == c))"
        two = (("a", a, "u"), ("b", b, "(! a)"))
        self.assertEqual(self.paths(two), {(("a",), ("b",), 2)})
        # by nets, and by choices that give a register what it holds
        nets = "wire e; wire f; assign e = (c == 2'd1); assign f = (e ? u : a);\n"
        held = (("a", "clk_enable", "f"), ("b", b, "(! a)"))
        self.assertEqual(self.paths(held, nets), {(("a",), ("b",), 2)})
        self.assertEqual(self.paths((("a", "((clk_enable & (c == 2'd1)) & u)", "(~ a)"), two[1])), {(("a",), ("b",), 2), (("a",), ("a",), 2)})
        # behind the reset `b` takes after 4 clocks, and `a` after 2
        self.assertEqual(self.paths((("b", b, "u"), ("a", a, "b"))), {(("b",), ("a",), 2)})
        # what says whether a register takes isn't relaxed, be it an enable or a choice
        self.assertEqual(self.paths((two[0], ("b", f"({b} && a)", "(! a)"))), set())
        self.assertEqual(self.paths((two[0], ("b", b, "(a ? u : b)"))), set())
        # a register that may take in each clock
        self.assertEqual(self.paths((two[0], ("b", "(clk_enable && u)", "a"))), set())

    def test_stalls(self):
        safe = self.made((("a", "(clk_enable && (c == 2'd1))", "u"),))
        unsafe = self.made((("a", "(c == 2'd1)", "u"),))
        self.assertIn(SAFE, constraints(safe, "SDC", 100))
        self.assertIn(UNSAFE, constraints(unsafe, "SDC", 100))
        self.assertEqual(unsafe.inner, [])
        for paths in (safe, unsafe):
            self.assertTrue(all(mark for mark, _, begin, _ in told(constraints(paths, "SDC", 100)) if begin == ["u"]))

    @HAS_PROGRAM
    def test_files(self):
        model, plan, _ = three("pi_controller")
        with tempfile.TemporaryDirectory() as room:
            done = run("constraints", model, plan, "--clock", "40", "-o", room)
            self.assertEqual((done.returncode, done.stdout), (0, ""), done.stderr)
            for form, within in (("sdc", "current_instance"), ("xdc", "read_xdc -ref fx_model")):
                text = read(os.path.join(room, f"fx_model.{form}"))
                self.assertIn("create_clock -name clk -period 25.000 [get_ports clk]\n", text)
                for part in (within, OF_INPUTS, OF_OUTPUTS):
                    self.assertIn(part, text)
                self.assertTrue(told(text))
        for words, status, line in (((model, "/nowhere"), 3, "/nowhere: cannot be read"), ((model, plan, "--clock", "0"), 1, "usage"), ((model,), 1, "usage")):
            done = run("constraints", *words)
            self.assertEqual((done.returncode, done.stdout), (status, ""))
            self.assertIn(line, done.stderr)
