"""What tools/import reads, evaluates, tells and refuses."""

import glob
import io
import os
import re
import sys
import tempfile
import unittest
import zipfile
from fractions import Fraction

from .common import TOOLS, TOP, read, tool, write
from .rebuilding import block, line, section

sys.path.insert(0, TOOLS)
from importing import archive, sections, variables
from importing.command import imported
from importing.expressions import evaluate
from importing.fixed import FixType
from importing.functions import Fault
from importing.report import NotText, Report

DRAWN = os.path.join(TOP, "examples", "drawn")


def model(*inside: str) -> str:
    return section("Model", 'Name "m"', section("System", *inside)) + "\n"


def through(kind: str, **parameters: object) -> str:
    """A model of a block between an int8 input and an output."""
    ends = block("Inport", "u", OutDataTypeStr="int8", SampleTime=1), block("Outport", "y")
    return model(*ends, block(kind, "b", **parameters), line("u", "b", 1), line("b", "y", 1))


def taken(text: str, names: dict | None = None) -> tuple[str | None, str, str]:
    """The rewritten model, the log, and what is refused."""
    report = Report()
    found = imported(text.encode(), "m.mdl", names or {}, report)
    return found, "\n".join(report.lines(report.done)), "\n".join(report.lines(report.refused))


class Expressions(unittest.TestCase):
    NAMES = {"a": evaluate("[1 2 3]", {}), "s.k": evaluate("4", {})}
    VALUES = (
        ("1/8000", [[Fraction(1, 8000)]]), ("-2^2", [[-4]]), ("2^-3", [[Fraction(1, 8)]]), ("[1 -2 3]", [[1, -2, 3]]), ("[1 - 2]", [[-1]]),
        ("a(2)", [[2]]), ("a'", [[1], [2], [3]]), ("a*a'", [[14]]), ("[1,2;3 4](1)", None), ("s.k + 1", [[5]]), ("3:-1:1", [[3, 2, 1]]),
        ("sqrt(4/9)", [[Fraction(2, 3)]]), ("log2(1/8)", [[-3]]), ("round(-2.5)", [[-3]]), ("fix(-2.5)", [[-2]]), ("floor(-1/2)", [[-1]]), ("ceil(1/2)", [[1]]),
        ("max(a)", [[3]]), ("min(a, 2)", [[1, 2, 2]]), ("abs(-a)", [[1, 2, 3]]), ("zeros(1, 2)", [[0, 0]]), ("ones(2, 1)", [[1], [1]]),
        ("linspace(0, 1, 3)", [[0, Fraction(1, 2), 1]]), ("cos(0) + sin(0) + exp(0)", [[2]]), ("a(:)", [[1], [2], [3]]), ("[a 4]", [[1, 2, 3, 4]]), ("2>1", [[1]]),
        ("1 +", None), ("b", None), ("[1 2", None), ("a(4)", None), ("1/0", None), ("sqrt(-1)", None), ("(" * 90 + "1" + ")" * 90, None), ("9^9^9^9^9", None), ("eval('1')", None),
    )  # fmt: skip

    def test_values(self):
        for text, expected in self.VALUES:
            with self.subTest(text=text):
                if expected is None:
                    self.assertRaises(Fault, evaluate, text, self.NAMES)
                else:
                    self.assertEqual([list(it) for it in evaluate(text, self.NAMES).rows], expected)

    def test_doubles_are_told_from_fractions(self):
        self.assertTrue(evaluate("1/3 + sqrt(1/4)", {}).is_exact)
        self.assertFalse(evaluate("2*pi", {}).is_exact)

    def test_types(self):
        for text, expected in (("fixdt(1,16,8)", FixType(True, 16, 8)), ("fixdt(0, 2*4, 2^-3, 0)", FixType(False, 8, 3)), ("uint8", FixType(False, 8)), ("fixdt(1,16)", FixType(True, 16, None))):
            self.assertEqual(evaluate(text, {}), expected)

    def test_scripts(self):
        names: dict = {}
        passed = variables.assign("% a script\na = 1; b = [1, 2, ... and on\n  3];\n%{\na = 7;\n%}\nclear all\nc = [1 2\n3 4]'; d = 'a%b'; e = a' + b(2);\nf = g;\n", names)
        self.assertEqual([line for line, _, _ in passed], [7, 10])
        self.assertEqual({name: [list(it) for it in value.rows] for name, value in names.items() if name != "d"}, {"a": [[1]], "b": [[1, 2, 3]], "c": [[1, 3], [2, 4]], "e": [[3]]})
        self.assertEqual(names["d"], "a%b")

    def test_json(self):
        names: dict = {}
        passed = variables.read("v.json", '{"a": 0.1, "b": [1, "1/3"], "c": [[1, 2], [3, 4]], "d": true, "e": null, "T": "fixdt(1,8,2)"}', names)
        self.assertEqual([name for _, name, _ in passed], ["e"])
        self.assertEqual([names[name].rows for name in "abcd"], [((Fraction(1, 10),),), ((1, Fraction(1, 3)),), ((1, 2), (3, 4)), ((1,),)])
        self.assertEqual(names["T"], FixType(True, 8, 2))


class Forms(unittest.TestCase):
    def test_classic_text_is_read_strictly(self):
        for text, faulty in (("a {\n", 1), ("a {\n!\n}\n", 2), ("}\n", 1), ("a {\nb [1, 2\n}\n", 2), ('a {\nb "c" d\n}\n', 2), ("a {\n" * 300, 257)):
            with self.subTest(text=text[:20]), self.assertRaisesRegex(NotText, f"^line {faulty}:"):
                sections.read(text)
        [found] = sections.read('# says\na {\n  b  "c\\n"\n  "d"\n  e [1, "]"\n 2]\n f on \n b 3\n}\n').sections
        self.assertEqual((found.parameters, found.lines), ({"b": "c\nd", "e": '[1, "]"\n2]', "f": "on"}, {"b": 3, "e": 5, "f": 7}))

    def test_the_forms_of_a_model_give_the_same(self):
        """A package, an archive of its parts, and an archive whose systems stand in one part."""
        parts = archive.parts_of_package(read(os.path.join(DRAWN, "crossfade.mdl")))
        whole = dict(parts)
        root = whole.pop("simulink/systems/system_root.xml")
        inner = root.partition("?>")[2].strip()
        whole["simulink/blockdiagram.xml"] = whole["simulink/blockdiagram.xml"].replace('<System Ref="system_root"/>', inner)
        texts = [self.text_of_archive(it) for it in (parts, whole)]
        packaged = imported(read(os.path.join(DRAWN, "crossfade.mdl")).encode(), "m.mdl", {}, Report())
        self.assertEqual(texts, [packaged, packaged])

    @staticmethod
    def text_of_archive(parts: dict[str, str]) -> str | None:
        held = io.BytesIO()
        with zipfile.ZipFile(held, "w") as file:
            for name, text in parts.items():
                file.writestr(name, text)
        return imported(held.getvalue(), "m.mdl", {}, Report())

    def test_archives_are_read_strictly(self):
        start = '<ModelInformation><Model Name="m"><System>'
        end = "</System></Model></ModelInformation>"
        ports = '<Block BlockType="Inport" Name="u" SID="1"/><Block BlockType="Outport" Name="y" SID="2"/>'
        rows = (
            ({}, "no part"), ({"simulink/blockdiagram.xml": "<a>"}, "not XML"), ({"simulink/blockdiagram.xml": "<a/>"}, "0 elements Model"),
            ({"simulink/blockdiagram.xml": '<ModelInformation><Model><System Ref="gone"/></Model></ModelInformation>'}, "no part simulink/systems/gone.xml"),
            ({"simulink/blockdiagram.xml": start + ports + '<Line><P Name="Src">7#out:1</P></Line>' + end}, "names no block"),
            ({"simulink/blockdiagram.xml": start + '<Block BlockType="Gain"><P>3</P></Block>' + end}, "without a name"),
            ({"simulink/blockdiagram.xml": '<!DOCTYPE a [<!ENTITY b "c">]><a>&b;</a>'}, "declares an entity"),
        )  # fmt: skip
        for parts, told in rows:
            with self.subTest(told=told), self.assertRaisesRegex(NotText, told):
                self.text_of_archive(parts)
        self.assertRaises(NotText, imported, b"PK\x03\x04 no archive", "m.slx", {}, Report())

    def test_masks_of_each_release_give_their_variables(self):
        inside = section("System", block("Inport", "i"), block("Gain", "g", Gain="2*k"), block("Outport", "o"), line("i", "g", 1), line("g", "o", 1))
        of_class = section("Object", '$ClassName "Simulink.MaskParameter"', 'Name "k"', 'Value "n"')
        of_array = section("Array", 'Type "Simulink.MaskParameter"', section("Object", 'Name "k"', 'Value "n"'))
        masks = ('MaskVariables "k=@1;"\nMaskValueString "n"', section("Object", '$ClassName "Simulink.Mask"', of_class), section("Object", '$ClassName "Simulink.Mask"', of_array), 'MaskInitialization "k = n;"')
        for mask in masks:
            subsystem = section("Block", "BlockType SubSystem", 'Name "s"', mask, inside)
            text = model(block("Inport", "u", OutDataTypeStr="int8"), subsystem, block("Outport", "y"), line("u", "s", 1), line("s", "y", 1))
            found, _, refused = taken(text, {"n": evaluate("3/4", {})})
            self.assertIn('Gain "1.5"', found or refused)


class Refusing(unittest.TestCase):
    ROWS = (
        ("Gain", {"Gain": "k"}, 'line 17: "b": Gain "k": k has no value; give it a value in a file of --variables'),
        ("Gain", {"RndMeth": "Simplest"}, 'RndMeth "Simplest": not covered'),
        ("Gain", {"SampleTime": "[1 0.5]"}, "a sample time with an offset"),
        ("Gain", {"SampleTime": "0"}, "continuous time"),
        ("Gain", {"OutDataTypeStr": "double"}, "not a fixed-point type"),
        ("Gain", {"OutDataTypeStr": "fixdt(1,16,0.3,2)"}, "a slope or bias"),
        ("Gain", {"OutDataTypeStr": "fixdt(1,200,0)"}, "a type that the profile has not"),
        ("Gain", {"SampleTime": "pi"}, "no whole multiple of the least sample time"),
        ("Lookup_n-D", {"NumberOfTableDimensions": 1, "InterpMethod": "Linear"}, 'InterpMethod "Linear": not covered'),
        ("DiscreteIntegrator", {"IntegratorMethod": "Integration: Trapezoidal"}, "Trapezoidal"),
        ("DataTypeConversion", {}, "back propagation: nothing that reads it has a type"),
        ("TransferFcn", {}, 'BlockType "TransferFcn": a block type that isn\'t covered; a discrete filter'),
        ("Reference", {"SourceBlock": "mine/Filter"}, "break the link"),
        ("Saturate", {"OutDataTypeStr": "int16"}, "a result of another type than the input"),
        ("UnitDelay", {"InputProcessing": "Columns as channels (frame based)"}, "frames"),
        ("Delay", {"DelayLengthSource": "Input port"}, 'DelayLengthSource "Input port"'),
        ("From", {"GotoTag": "A"}, "0 Gotos of this tag"),
    )  # fmt: skip

    def test_tells_what_would_do(self):
        for kind, parameters, told in self.ROWS:
            with self.subTest(kind=kind, parameters=parameters):
                text, _, refused = taken(through(kind, **parameters))
                self.assertIsNone(text)
                self.assertIn(told, refused)

    def test_tells_all_at_once(self):
        _, _, refused = taken(model(block("Inport", "u"), block("Gain", "g", Gain="k", OutDataTypeStr="double"), block("Sqrt", "s"), line("u", "g", 1), line("g", "s", 1)))
        self.assertEqual(len(refused.split("\n")), 4, refused)

    def test_settings_of_the_model(self):
        _, _, refused = taken(through("Gain").replace('Name "m"', 'Name "m"\nBooleanDataType "off"', 1))
        self.assertIn('BooleanDataType "off": not covered', refused)

    def test_a_loop_without_a_type(self):
        text = model(block("Inport", "u", OutDataTypeStr="int8"), block("Sum", "s"), block("UnitDelay", "d"), block("Outport", "y"), line("u", "s", 1), line("d", "s", 2), line("s", "d", 1), line("s", "y", 1))
        self.assertIn("declare a type, in each loop", taken(text)[2])

    def test_statuses_and_outputs(self):
        with tempfile.TemporaryDirectory() as room:
            path, out, log = (os.path.join(room, name) for name in ("m.mdl", "out.mdl", "log"))
            write(path, through("Gain", Gain="k"))
            done = tool("import", path, "-o", out)
            self.assertEqual((done.returncode, done.stdout, os.path.exists(out)), (1, "", False))
            write(os.path.join(room, "v.m"), "k = 3;\n")
            done = tool("import", path, "-o", out, "--log", log, "--variables", os.path.join(room, "v.m"))
            self.assertEqual((done.returncode, done.stdout, done.stderr), (0, "", ""))
            self.assertIn('Gain "3"', read(out))
            self.assertIn("rewritten by tools/import from m.mdl", read(out).lower())
            self.assertIn('"b": Gain k is 3', read(log))
            self.assertEqual(tool("import", os.path.join(room, "gone")).returncode, 2)


class Drawn(unittest.TestCase):
    def test_the_rewritten_model_that_is_shown(self):
        done = tool("import", os.path.join(DRAWN, "pi.mdl"), "--variables", os.path.join(DRAWN, "pi.json"), "--log", os.devnull)
        self.assertEqual(done.stdout, read(os.path.join(DRAWN, "rewritten", "pi.mdl")), done.stderr)

    def test_each_stands_on_the_page_with_all_its_parts(self):
        page = read(os.path.join(DRAWN, "README.md"))
        models = {os.path.basename(it) for end in ("mdl", "slx") for it in glob.glob(os.path.join(DRAWN, f"*.{end}"))}
        self.assertEqual(models, set(re.findall(r"^\| `([^`]+)`", page, re.M)))
        for name in models:
            for end in ("log", "stim", "response", "py"):
                self.assertTrue(os.path.exists(os.path.join(DRAWN, f"{os.path.splitext(name)[0]}.{end}")), name)

    def test_a_rewritten_model_says_nothing_that_is_passed_over(self):
        with tempfile.TemporaryDirectory() as room:
            for path in glob.glob(os.path.join(DRAWN, "*.mdl")):
                base, out, names = os.path.splitext(path)[0], os.path.join(room, "out.mdl"), {}
                for values in (base + end for end in (".m", ".json") if os.path.exists(base + end)):
                    variables.read(values, read(values), names)
                write(out, imported(read(path).encode(), path, names, Report()) or "")
                done = tool("lint", out)
                self.assertEqual(done.stdout, "", path)
                # 3 where no program stands that would try the later rules
                self.assertIn(done.returncode, (0, 3), path)
