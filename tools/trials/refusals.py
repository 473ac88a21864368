"""What tools/lint tells of a model that rules 1 to 3 refuse."""

import glob
import os
import random
import re
import sys
import tempfile
import time
import unittest

from .common import TOOLS, TOP, read, tool, write

sys.path.insert(0, TOOLS)
import library
import mdl
import remedies
from refused import refused

# Values by hand from the tables of docs/FORMATS.md: the parameter of a type, what reads and what doesn't.
VALUES = (
    ("Inport", "Port", ("1", "20000", "0001"), ("0", "20001", "-1", "1.0", "", "9" * 5000)),
    ("Inport", "PortDimensions", ("-1", "1", "1024", "[3]"), ("0", "1025", "[1 2]", "[]")),
    ("Inport", "OutDataTypeStr", ("Inherit: auto", "int8", "boolean", "fixdt(1,16,8)", "fixdt( true , 2, -64 )", "fixdt(0,127,128)"), ("double", "int64", "fixdt(1,1,0)", "fixdt(0,128,0)", "fixdt(1,16)", "fixdt(1,16,129)", "fixdt(1,16,-65)", "fixdt(1,16,8) ")),
    ("Constant", "Value", ("1", "-.5e3", "true", "[1 2]", "[1, 2]", "[1;2]", " 3 ", "0" * 500 + "1", "1e18"), ("k", "1 2", "[1;2 3]", "[]", "[1,,2]", "1e19", "1234567890123456789", "0.0000000000000000001", ".", "[" + "1 " * 1025 + "]")),
    ("Constant", "SampleTime", ("inf", "-1", "0.5", "[0.5 0]"), ("0", "-2", "[0.5 1]", "1/8", "[0 0]")),
    ("Sum", "AccumDataTypeStr", ("Inherit: Inherit via internal rule", "Inherit: Same as first input", "fixdt(1,24,8)"), ("Inherit: Same as input", "Inherit: Inherit via back propagation")),
    ("Gain", "OutDataTypeStr", ("Inherit: Same as input", "Inherit: Inherit via internal rule"), ("Inherit: Same as first input", "Inherit: Inherit via back propagation")),
    ("Sum", "Inputs", ("++", "|+-", "32", "2"), ("+", "1", "33", "+" * 33, "+x")),
    ("Product", "Inputs", ("2", "**"), ("*/", "3", "02")),
    ("Delay", "DelayLength", ("1", "1024"), ("0", "1025", "N")),
    ("Mux", "Inputs", ("4", "[1 2]"), ("0", "1025", "[0 1]", "[-1 2]")),
    ("Logic", "OutDataTypeStr", ("boolean", "Inherit: Logical (see Configuration Parameters: Optimization)"), ("uint8",)),
    ("DataTypeConversion", "OutDataTypeStr", ("uint16",), ("Inherit: Inherit via back propagation",)),
    ("RateTransition", "OutPortSampleTime", ("2",), ("-1",)),
    ("Outport", "InitialOutput", ("[]", "[1 2]"), ("[ ]",)),
    ("DiscreteFir", "Coefficients", ("[1 2]", "[1;2;3]", "[" + "1 " * 32 + "]"), ("1", "[1]", "[k 1]", "[" + "1 " * 33 + "]")),
    ("DiscreteFir", "InitialStates", ("0", "[1]"), ("k", "[]")),
    ("DiscreteFir", "CoefDataTypeStr", ("Inherit: Same word length as input", "int8"), ("Inherit: Same as input",)),
    ("DiscreteFir", "FilterStructure", ("Direct form",), ("Direct form transposed",)),
)
BLOCK = "Block {\nBlockType %s\nName \"%s\"\n%s}\n"


def model(*blocks: str) -> str:
    return "Model {\nSystem {\n" + "".join(blocks) + "}\n}\n"


def told(text: str) -> list[tuple[int, str, str, str]]:
    return [(it.line, it.rule, it.place, it.said) for it in refused(mdl.read(text))]


class Refusals(unittest.TestCase):
    def test_the_tables_are_those_of_FORMATS(self):
        page = read(os.path.join(TOP, "docs/FORMATS.md"))
        table = page[page.index("### Block types and parameters") : page.index("What these values are:")]
        rows = {name: cells for names, cells in re.findall(r"^\| ([A-Z][A-Za-z, ]+) \| (.*) \|$", table, re.M) for name in names.split(", ")}
        self.assertEqual(set(rows), set(library.LIBRARY))
        common = re.search("^Common: .*$", table, re.M)[0]
        for kind, parameters in library.LIBRARY.items():
            cells = rows[kind] + common
            for it in parameters:
                self.assertIn(f"`{it.name}`", cells, kind)
            named = [it for it in re.findall("`([A-Z][A-Za-z0-9]+)`", rows[kind]) if it.endswith(("Str", "Time", "Opt", "Meth")) or it in cells]
            self.assertTrue(set(named) - {"Threshold"} <= {it.name for it in parameters} | {"X0"}, kind)

    def test_values(self):
        for kind, name, good, bad in VALUES:
            [parameter] = [it for it in library.LIBRARY[kind] if it.name == name]
            for value in good + bad:
                with self.subTest(kind=kind, name=name, value=value[:40]):
                    self.assertEqual(parameter.reader.reads(value), value in good)
                    found = [it for it in told(model(BLOCK % (kind, "a", f'{name} "{value}"\n'))) if f"{name} " in it[3]]
                    self.assertEqual([it[:3] for it in found], [] if value in good else [(6, "rule 3 (parameter)", '"a"')])

    def test_tells_all_with_lines(self):
        inner = "System {\n" + BLOCK % ("Scope", "s/t", "") + "}\n"
        text = model(
            BLOCK % ("Gain", "g", 'Gain "k"\nRndMeth "Simplest"\n'),
            BLOCK % ("SubSystem", "q", inner),
            BLOCK % ("Gain", "g", ""),
            "Block {\nBlockType Ground\n}\n",
            'Line {\nSrcBlock "x"\nSrcPort 1\nBranch {\nDstBlock "g"\nDstPort LConn1\n}\nBranch {\nDstBlock "y"\n}\n}\n',
            'Line {\nDstBlock "dropped"\n}\n',
        )
        rows = (
            (6, "rule 3 (parameter)", '"g"', "Gain \"k\"; allowed: a decimal", "tools/import evaluates"),
            (7, "rule 3 (parameter)", '"g"', "RndMeth \"Simplest\"; allowed: \"Floor\" or", "choose one"),
            (14, "rule 2 (library)", '"q/s//t"', "Scope; allowed", "tools/import drops it"),
            (21, "rule 1 (structure)", '"g"', "an earlier block", "rename"),
            (23, "rule 1 (structure)", "model", "a block without a Name", "give it one"),
            (27, "rule 1 (structure)", "model", "SrcBlock \"x\" names no block", "drop the line"),
            (31, "rule 1 (structure)", "model", "DstPort \"LConn1\"; allowed: a whole number", "enabled"),
            (34, "rule 1 (structure)", "model", "DstBlock \"y\" names no block", "drop the line"),
        )
        found = told(text)
        self.assertEqual([it[:3] for it in found], [row[:3] for row in rows], found)
        for it, row in zip(found, rows):
            self.assertIn(row[3], it[3])
            self.assertRegex(it[3], f"remedy: .*{row[4]}")

    def test_models_and_systems(self):
        self.assertEqual(len(told("")), 2)
        self.assertIn("a second Model", told(model() + model())[0][3])
        deep = BLOCK % ("Ground", "g", "")
        for _ in range(64):
            deep = BLOCK % ("SubSystem", "s", "System {\n" + deep + "}\n")
        self.assertEqual([it[3].partition(";")[0] for it in told(model(deep))], ["a System deeper than 64"])
        self.assertEqual(told(model(BLOCK % ("SubSystem", "s", "")))[0][0], 3)
        many = told(model(*(BLOCK % ("Ground", f"g{at}", "") for at in range(20001))))
        self.assertEqual([it[3].partition(";")[0] for it in many], ["more than 20000 blocks"])

    def test_a_filter_counts_as_what_it_stands_for(self):
        of_states = lambda taps, states: [it[3].split()[0] for it in told(model(BLOCK % ("DiscreteFir", "f", f'Coefficients "{taps}"\nInitialStates "{states}"\n')))]
        rows = (("[1 2 3]", "[5 7]", []), ("[1 2 3]", "4", []), ("[1 2 3]", "[5 7 9]", ["InitialStates"]), ("[1]", "[5 7]", ["Coefficients"]))
        for taps, states, names in rows:
            self.assertEqual(of_states(taps, states), names, (taps, states))
        taps = 'Coefficients "[' + "1 " * 32 + ']"\n'
        for count, said in ((298, []), (299, ["more than 20000 blocks"])):
            found = told(model(*(BLOCK % ("DiscreteFir", f"f{at}", taps) for at in range(count))))
            self.assertEqual([it[3].partition(";")[0] for it in found], said)
        for levels, said in ((62, []), (63, ["a System deeper than 64"])):
            deep = BLOCK % ("DiscreteFir", "f", "")
            for _ in range(levels):
                deep = BLOCK % ("SubSystem", "s", "System {\n" + deep + "}\n")
            self.assertEqual([it[3].partition(";")[0] for it in told(model(deep))], said)

    def test_defaults_count(self):
        defaults = "BlockParameterDefaults {\n" + BLOCK % ("UnitDelay", "d", 'X0 "k"\n') + "}\n"
        text = model(BLOCK % ("UnitDelay", "d", ""), BLOCK % ("UnitDelay", "e", 'X0 "1"\n'), BLOCK % ("RateTransition", "r", ""))
        found = told(text.replace("System {", defaults + "System {", 1))
        self.assertEqual([it[:3] for it in found], [(6, "rule 3 (parameter)", '"d"'), (19, "rule 3 (parameter)", '"r"')])
        self.assertIn('OutPortSampleTime "-1"', found[1][3])

    def test_of_the_examples_those_of_these_rules_are_refused(self):
        names = {"rules/structure.mdl": 1, "rules/library.mdl": 2, "rules/parameter.mdl": 3, "gain_of_19_digits.mdl": 3}
        for path in glob.glob(os.path.join(TOP, "examples/**/*.mdl"), recursive=True):
            if "/drawn/" in path:
                continue
            rule = names.get(os.path.relpath(path, os.path.join(TOP, "examples")))
            found = [int(it.rule.split()[1]) for it in refused(mdl.read_file(path)[1])]
            self.assertEqual(found, [rule] if rule else [], path)

    def test_RULES_shows_what_is_told(self):
        command, shown = re.search(r"^\$ tools/lint (\S+)\n(.*\n)```", read(os.path.join(TOP, "docs/RULES.md")), re.M).groups()
        [it] = refused(mdl.read_file(os.path.join(TOP, command))[1])
        self.assertEqual(shown, f"{command}: line {it.line}: {it}\n")

    def test_remedies_name_no_type_of_the_library(self):
        self.assertEqual([it for it in (*remedies.IMPORTED, *remedies.BY_HAND) if it in library.LIBRARY], [])

    def test_no_file_has_no_end(self):
        draw = random.Random(80)
        digits = BLOCK % ("Inport", "u", f'Port "{"9" * 5000}"\n') + f'Line {{\nSrcBlock "u"\nSrcPort {"9" * 5000}\n}}\n'
        deep = 'Line {\nSrcBlock "u"\n' + "Branch {\n" * 600 + "}\n" * 601
        texts = [model(digits, deep), "\0" * 1000, "".join(chr(draw.randrange(256)) for _ in range(20000)), "Model {\n" * 3000]
        with tempfile.TemporaryDirectory() as room:
            for at, text in enumerate(texts):
                path = os.path.join(room, f"{at}.mdl")
                write(path, text)
                done = tool("lint", path)
                self.assertEqual(done.returncode, 1, done.stderr)
                self.assertNotIn("Traceback", done.stderr)
        done = tool("lint", "/dev/zero")
        self.assertEqual((done.returncode, done.stdout, done.stderr), (2, "", "tools/lint: /dev/zero: 16777217 bytes, at most 16777216\n"))

    def test_is_linear(self):
        def seconds(count: int) -> float:
            text = model(BLOCK % ("Gain", "g", "Gain [1\n" + "2\n" * count + "]\n"), BLOCK % ("Gain", "h", 'Gain "1"\n' + '"2"\n' * count))
            begun = time.process_time()
            self.assertEqual(len(told(text)), 2)
            return time.process_time() - begun

        self.assertLess(seconds(80000), 9 * max(seconds(20000), 0.01))
