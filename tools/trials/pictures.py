"""The drawings, and what a model says that is passed over."""

import glob
import os
import re
import subprocess
import sys
import tempfile
import unittest
import xml.dom.minidom

from .common import TOOLS, TOP, read, tool, write


NESTED = """Model {
  System {
    Block {
      BlockType Inport
      Name "a\\n"
      "b"
    }
    Block {
      BlockType SubSystem
      Name "S/T"
      System {
        Block {
          BlockType EnablePort
          Name "Enable"
          Position [1,
            2]
        }
        Block {
          BlockType Outport
          Name "o"
        }
      }
    }
    Line {
      SrcBlock "a\\nb"
      Branch {
        DstBlock "S/T"
        DstPort enable
      }
      Branch {
        DstBlock "gone"
      }
    }
  }
}
"""


class Pictures(unittest.TestCase):
    def drawn(self, text):
        with tempfile.TemporaryDirectory() as room:
            model = os.path.join(room, "model.mdl")
            write(model, text)
            return tool("draw", model).stdout

    def test_draw_goes_into_subsystems(self):
        drawn = self.drawn(NESTED)
        self.assertRegex(drawn, r'class="title">S//T</text>')
        self.assertRegex(drawn, r'class="name">a</text>\n<text[^>]*class="name">b</text>')
        self.assertRegex(drawn, r'class="port"[^>]*>o</text>')
        self.assertNotIn("gone", drawn)

    def test_draw_shows_what_blocks_do(self):
        block = "Model {\nSystem {\nBlock {\nBlockType %s\nName \"a\"\n%s\n}\n}\n}\n"
        rows = (
            ("Gain", 'Gain "0.75"\nOutDataTypeStr "int8"', (">0.75<", ">int8<")),
            ("Sum", 'Inputs "+-"\nRndMeth "Nearest"', (">+<", ">−<", ">nearest<")),
            ("UnitDelay", 'X0 "3"\nSampleTime "2"', (">z⁻¹<", ">starts at 3, every 2<")),
            ("Delay", 'DelayLength "16"', (">z⁻¹⁶<",)),
            ("RelationalOperator", 'Operator ">="', (">≥<", ">1<", ">2<")),
            ("RateTransition", 'OutPortSampleTime "4"', (">rate<", ">every 4<")),
            ("DiscreteFir", 'Coefficients "[1 2 3]"\nInitialStates "[5 7]"\nOutDataTypeStr "int16"', (">FIR 3<", ">int16, starts at [5 7]<")),
        )
        for kind, parameters, shown in rows:
            drawn = self.drawn(block % (kind, parameters))
            for it in shown:
                self.assertIn(it, drawn)
        # a lone port has no number
        self.assertNotIn('class="port"', self.drawn(block % rows[0][:2]))

    def test_pictures_are_those_that_their_pages_make(self):
        for page in sorted(glob.glob(os.path.join(TOP, "examples/**/README.md"), recursive=True)):
            made = re.findall(r"^\$ tools/(draw|plot|waves) (.*?) >(\S+\.svg)$", read(page), re.M)
            self.assertTrue(made, page)
            for name, words, picture in made:
                with self.subTest(picture=picture, page=page):
                    done = subprocess.run([sys.executable, os.path.join(TOOLS, name), *words.split()], cwd=TOP, capture_output=True, text=True, encoding="utf-8")
                    self.assertTrue(done.stdout == read(os.path.join(os.path.dirname(page), picture)), f"{words}: {done.stderr}")

    def test_draw_names_what_to_look_out_for(self):
        begun = "Model {\nSavedCharacterEncoding \"UTF-8\"\nSystem {\nBlock {\nOutDataTypeStr \"int8\"\nName \"a\"\n"
        rest = "}\n}\n}\n"
        rows = (
            (begun + rest, ""),
            ("\ufeff" + begun + rest, "line 1: a byte-order mark"),
            (begun.replace("UTF-8", "Shift_JIS") + rest, "line 2: a character may have two bytes"),
            (begun.replace("OutDataTypeStr", "OutDataTypeMode") + rest, "line 5: \"a\": OutDataTypeMode \"int8\" is passed over"),
            (begun + rest + "__MWOPC_PACKAGE_BEGIN__ R2022a\n", "line 10: this is a package"),
        )
        with tempfile.TemporaryDirectory() as room:
            model = os.path.join(room, "model.mdl")
            for text, told in rows:
                write(model, text)
                said = tool("draw", model).stderr
                self.assertIn(told, said)
                self.assertEqual(bool(told), bool(said), said)

    def test_names_that_XML_has_no_place_for(self):
        name = "a\x01\x0b\x7f\u0085\ufffe\U0001ffff&<>"
        block = 'Block {\nBlockType %s\nName "%s"\nOutDataTypeStr "int8"\n}\n'
        text = "Model {\nSystem {\n" + block % ("Inport", name) + block % ("Outport", "y" + name) + "}\n}\n"
        with tempfile.TemporaryDirectory() as room:
            model = os.path.join(room, "model.mdl")
            for path, said in ((model, text), (model[:-3] + "stim", "1\n2\n"), (model[:-3] + "response", "1\n2\n")):
                write(path, said)
            for words in (("draw", model), ("plot", model), ("plot", model, "--spectrum", f"y{name}:0:2"), ("waves", model, "--svg")):
                done = tool(*words)
                drawn = xml.dom.minidom.parseString(done.stdout.encode()).toxml()
                self.assertRegex(drawn, r"a[?_]{6}(&amp;&lt;&gt;|___)", done.stderr)

    def test_draw_takes_any_file(self):
        deep = "Line {\nSrcBlock \"a\"\n" + "Branch {\nPoints [1, 1]\n" * 3000 + "}\n" * 3001
        block = 'Block {\nBlockType Sum\nName "a"\nInputs "%s"\nPosition [%s, 1, 2, 3]\n}\n' % ("9" * 5000, "9" * 5000)
        drawn = self.drawn("Model {\nSystem {\n" + block + deep + "}\n}\n")
        self.assertIn('class="name">a</text>', drawn)

    def test_pictures_are_UTF_8_whatever_the_locale(self):
        page = os.path.join(TOP, "examples/designs/nco")
        words = [sys.executable, os.path.join(TOOLS, "draw"), os.path.join(page, "model.mdl")]
        done = subprocess.run(words, env={"PYTHONIOENCODING": "ascii"}, capture_output=True)
        self.assertEqual(done.stdout.decode(), read(os.path.join(page, "diagram.svg")), done.stderr)

    def test_waves_show_stimulus_and_response(self):
        done = tool("waves", os.path.join(TOP, "examples/unit_delay.v"))
        self.assertIn("$scope module stimulus $end\n$var wire 8 s0 u [7:0] $end\n$upscope $end\n$scope module response $end\n$var wire 8 s1 y", done.stdout)
        self.assertIn("#10\nb101 s0\nb11 s1\n#20\nb11111111 s0\nb101 s1\n#30\nb1111111 s0\nb11111111 s1\n", done.stdout)
        self.assertIn("Icarus Verilog is not installed", done.stderr)

    def test_waves_show_a_model_with_no_verilog(self):
        done = tool("waves", os.path.join(TOP, "examples/slow_to_fast.mdl"))
        self.assertIn("$scope module stimulus $end\n$var wire 8 s0 u [7:0] $end\n", done.stdout)
        self.assertIn("#20\nb11 s0\nb1 s1\n", done.stdout)
        self.assertEqual(done.stderr, "")


class Lint(unittest.TestCase):
    BLOCK = 'Model {\nSystem {\nBlock {\nBlockType %s\nName "a"\n%s\n}\n}\n}\n'
    ROWS = (
        ("Gain", 'Commented "on"', 'line 6: "a": Commented "on" is passed over'),
        ("Gain", 'Commented "off"', ""),
        ("SubSystem", 'Variant "on"', 'line 6: "a": Variant "on" is passed over'),
        ("Inport", 'SignalType "complex"', 'SignalType "complex" is passed over'),
        ("Inport", 'SamplingMode "Frame based"', 'SamplingMode "Frame based" is passed over'),
        ("Delay", 'InputProcessing "Columns as channels (frame based)"', "InputProcessing"),
        ("Inport", 'LatchByDelayingOutsideSignal "on"', "the input is not delayed"),
        ("Outport", 'SourceOfInitialOutputValue "Input signal"', "the initial output is InitialOutput"),
        ("Gain", 'OutDataTypeMode "int8"', "the block has its type's default"),
        ("Gain", 'OutDataTypeMode "int8"\nOutDataTypeStr "int8"', ""),
        ("SubSystem", 'MaskType "filter"', "a mask is passed over"),
        ("SubSystem", 'SourceBlock "lib/filter"', "a link to a library is passed over"),
        ("Gain", 'InitFcn "k = 3;"', "its code is not run"),
    )

    def lint(self, text):
        with tempfile.TemporaryDirectory() as room:
            model = os.path.join(room, "model.mdl")
            write(model, text)
            done = tool("lint", model)
            drawn = tool("draw", model).stderr
        told = "".join(line for line in done.stdout.splitlines(True) if " is passed over: " in line)
        self.assertEqual(drawn.replace("tools/draw: ", ""), told)
        # without the program rules 4 to 9 are not tried
        self.assertEqual(done.returncode, 1 if done.stdout else 3, done.stderr)
        return told

    def test_lists_what_is_passed_over(self):
        for kind, parameter, told in self.ROWS:
            said = self.lint(self.BLOCK % (kind, parameter))
            self.assertIn(told, said)
            self.assertEqual(bool(told), bool(said), said)

    def test_looks_at_the_defaults_and_the_settings_of_the_model(self):
        text = 'Model {\nBooleanDataType "off"\nBlockParameterDefaults {\nBlock {\nBlockType Gain\nCommented "on"\n}\n}\n' + self.BLOCK[8:]
        said = self.lint(text % ("Gain", ""))
        self.assertIn('line 2: model: BooleanDataType "off"', said)
        self.assertIn('line 6: "a": Commented "on"', said)

    def test_accumulators_that_the_usual_tool_adds_otherwise(self):
        block = "Block {\nBlockType %s\nName \"%s\"\n%s\n}\n"
        line = "Line {\nSrcBlock \"%s\"\nDstBlock \"%s\"\nDstPort %d\n}\n"
        # what the Sum says beside its accumulator fixdt(1,8,0), the type of its second input, and what is told
        rows = (
            ('Inputs "++"', "fixdt(1,8,0)", ""),
            ('Inputs "++"', "fixdt(1,8,2)", ""),
            ('Inputs "+-"', "fixdt(1,8,2)", "input 2 has bits behind the point"),
            ('Inputs "++"\nRndMeth "Convergent"', "fixdt(1,8,2)", "input 2 has bits behind the point"),
            ('Inputs "++"', "fixdt(1,9,0)", ""),
            ('Inputs "++"\nSaturateOnIntegerOverflow on', "fixdt(1,9,0)", "input 2 has a range"),
            ('Inputs "++"\nSaturateOnIntegerOverflow on', "fixdt(0,8,0)", "input 2 has a range"),
            ('Inputs "++"\nSaturateOnIntegerOverflow on', "fixdt(0,7,0)", ""),
        )
        for said, kind, wanted in rows:
            blocks = [block % ("Inport", "a", 'OutDataTypeStr "int8"'), block % ("Inport", "b", f'Port 2\nOutDataTypeStr "{kind}"')]
            blocks += [block % ("Sum", "s", f'AccumDataTypeStr "fixdt(1,8,0)"\nOutDataTypeStr "int8"\n{said}'), block % ("Outport", "y", "")]
            lines = [line % it for it in (("a", "s", 1), ("b", "s", 2), ("s", "y", 1))]
            with self.subTest(said=said, kind=kind), tempfile.TemporaryDirectory() as room:
                model = os.path.join(room, "model.mdl")
                write(model, "Model {\nSystem {\n" + "".join(blocks + lines) + "}\n}\n")
                told = tool("lint", model).stdout
                self.assertIn(wanted, told)
                self.assertEqual("AccumDataTypeStr" in told, bool(wanted), told)

    def test_no_model_of_the_examples_is_read_otherwise(self):
        sys.path.insert(0, TOOLS)
        import mdl

        models = glob.glob(os.path.join(TOP, "examples/**/*.mdl"), recursive=True)
        # those that are drawn as the tool draws them are rewritten first
        for model in (it for it in models if os.path.basename(os.path.dirname(it)) != "drawn"):
            self.assertEqual(mdl.passed_over(*mdl.read_file(model)), [], model)

    def test_FORMATS_lists_each(self):
        sys.path.insert(0, TOOLS)
        import mdl

        names = [it[1] for it in mdl.PASSED_OVER] + [it[0] for it in mdl.OF_MODEL] + [*mdl.OLD_TYPES, *mdl.MASKS, *mdl.LINKS, *mdl.CALLS]
        page = read(os.path.join(TOP, "docs/FORMATS.md"))
        self.assertEqual([name for name in names if f"`{name}`" not in page], [])

    def test_says_that_there_is_no_file(self):
        self.assertEqual(tool("lint", "/nowhere.mdl").returncode, 2)
        self.assertEqual(tool("lint").returncode, 2)
