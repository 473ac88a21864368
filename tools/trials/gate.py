"""The comparisons with other tools, and what the gate ends with."""

import importlib.machinery
import importlib.util
import os
import re
import shutil
import subprocess
import sys
import tempfile
import unittest

from .common import TOOLS, TOP, read, write


class Crossing(unittest.TestCase):
    """The comparisons with other tools fail where nothing is compared, and where something differs."""

    VALUES = "crates/vl_ast/proofs/Values.antt"
    SHOWN = "unit_delay 0 y 3\\nunit_delay 1 y 5\\nunit_delay 2 y -1\\n"

    def setUp(self):
        room = tempfile.TemporaryDirectory()
        self.addCleanup(room.cleanup)
        self.top, self.path = room.name, os.path.join(room.name, "bin")
        for name in ("benches.py", "cross_check", "cross_values", "others.py", "written.py"):
            write(os.path.join(self.top, "tools", name), "")
            shutil.copy(os.path.join(TOOLS, name), os.path.join(self.top, "tools", name))
        for name in ("examples/unit_delay.v", "examples/unit_delay.stim", "examples/unit_delay.response", self.VALUES):
            write(os.path.join(self.top, name), "")
            shutil.copy(os.path.join(TOP, name), os.path.join(self.top, name))

    def install(self, printed):
        """An Icarus Verilog that prints this whatever it is given."""
        for name, text in (("iverilog", ""), ("vvp", f"printf '{printed}'")):
            path = os.path.join(self.path, name)
            write(path, f"#!/bin/sh\n{text}\n")
            os.chmod(path, 0o755)

    def ends(self, name):
        words = [sys.executable, os.path.join(self.top, "tools", name)]
        return subprocess.run(words, env={"PATH": self.path}, capture_output=True, text=True).returncode

    def test_without_tools_is_skipped(self):
        self.assertEqual((self.ends("cross_check"), self.ends("cross_values")), (77, 77))

    def test_texts(self):
        self.install(self.SHOWN)
        self.assertEqual(self.ends("cross_check"), 0)
        self.install(self.SHOWN.replace("-1", "x"))
        self.assertEqual(self.ends("cross_check"), 1)
        self.install("")
        self.assertEqual(self.ends("cross_check"), 1)
        for ending in ("stim", "response"):
            write(os.path.join(self.top, f"examples/unit_delay.{ending}"), "")
        self.assertEqual(self.ends("cross_check"), 1)
        os.remove(os.path.join(self.top, "examples/unit_delay.v"))
        self.assertEqual(self.ends("cross_check"), 1)

    def test_values(self):
        self.install("value 2\\n")
        self.assertEqual(self.ends("cross_values"), 1)
        with open(os.path.join(self.top, self.VALUES)) as file:
            text = file.read()
        for cut in ("", text.replace("\nsums :", "\nsums:"), text.partition("-- shifts")[0]):
            write(os.path.join(self.top, self.VALUES), cut)
            self.assertEqual(self.ends("cross_values"), 1)


def text_of(code):
    """A check that ends with a status, which it may say something before."""
    status, _, command = str(code).partition("; ")
    return f"{command}\nexit {status}"


class Citing(unittest.TestCase):
    """How often crates import lemmas of others is counted, mathematics left out, and may not grow."""

    def ends(self, cited, most):
        with tempfile.TemporaryDirectory() as room:
            for crate in ("low", "math_list"):
                write(os.path.join(room, f"crates/{crate}/proofs/Facts.antt"), "-- Facts.\nfact : ...\n")
            uses = "".join(f"use Rattle.{crate}.proofs.Facts.{{fact}}\n" for crate in cited)
            write(os.path.join(room, "crates/high/proofs/Uses.antt"), f"-- Uses.\n{uses}")
            text = re.sub(r"^MOST = .*$", f"MOST = {most}", read(os.path.join(TOOLS, "cites")), flags=re.M)
            write(os.path.join(room, "tools/cites"), text)
            words = [sys.executable, os.path.join(room, "tools/cites"), "low"]
            done = subprocess.run(words, capture_output=True, text=True)
            return done.returncode, done.stdout.splitlines()[0]

    def test_count(self):
        listed = "crates/low/proofs/Facts.antt: high 1"
        self.assertEqual(self.ends(["low"], 1), (0, listed))
        self.assertEqual(self.ends(["low"], 0), (1, listed))
        self.assertEqual(self.ends(["high", "math_list"], 0)[0], 0)


class Wanting(unittest.TestCase):
    """Want of memory that is written by hand has its reason on the line above, unless it passes a refusal on."""

    def ends(self, line, told=""):
        with tempfile.TemporaryDirectory() as room:
            write(os.path.join(room, "crates/low/src/lib.rt"), f"fn f() -> Result<u8, OutOfMemory> {{\n{line}\n}}\n")
            write(os.path.join(room, "docs/PROVED.md"), told)
            write(os.path.join(room, "tools/memory"), "")
            shutil.copy(os.path.join(TOOLS, "memory"), os.path.join(room, "tools/memory"))
            words = [sys.executable, os.path.join(room, "tools/memory")]
            return subprocess.run(words, capture_output=True, text=True).returncode

    def test_places(self):
        for line in (
            "return Err(OutOfMemory);",
            "// it can't be\nreturn Err(OutOfMemory);",
            "// word: a count of 32 bits\nlet a = 1;\nreturn Err(OutOfMemory);",
            "match g() {\n    Some(a) => Ok(a),\n    None => Err(OutOfMemory),\n}",
            "match g() {\n    Err(OutOfMemory) => Ok(1),\n    Ok(_) => Err(SizeFault::OutOfMemory),\n}",
            "g().ok_or(OutOfMemory)",
            "matches!(a, b); Err(F::OutOfMemory)",
            "match g() {\n    Err(OutOfMemory) => {\n        let a = 1;\n        Err(OutOfMemory)\n    }\n}",
        ):
            self.assertEqual(self.ends(line), 1, line)
        for line in (
            "// allocation: the buffer's\nreturn Err(OutOfMemory);",
            "match g() {\n    Ok(a) => Ok(a),\n    Err(AllocError) => Err(OutOfMemory),\n}",
            "!matches!(fault, F::OutOfMemory)",
            "match g() {\n    Err(SizeFault::OutOfMemory) => return Err(OutOfMemory),\n}",
            "match g() {\n    Err(OutOfMemory) => {\n        drop(a);\n        return Err(F::OutOfMemory);\n    }\n}",
            "match g() {\n    Err(OutOfMemory) => {\n        a.discard();\n        h::discard(b);\n        Err(F::OutOfMemory)\n    }\n}",
            "}\nimpl From<OutOfMemory> for F {\n    fn from(_refused: OutOfMemory) -> F {\n        F::OutOfMemory\n    }",
        ):
            self.assertEqual(self.ends(line), 0, line)

    def test_words_are_told(self):
        line = "// word: a count of 32 bits,\n// which rules hold\nreturn Err(OutOfMemory);"
        self.assertEqual(self.ends(line), 1)
        told = "| `low/src/lib.rt` | a count | 32 |"
        self.assertEqual(self.ends(line, told), 0)
        self.assertEqual(self.ends("// word: a hard case\nreturn Err(OutOfMemory);", told), 1)
        self.assertEqual(self.ends("// word: a count, at the most 64\nreturn Err(OutOfMemory);", told), 0)


class Editing(unittest.TestCase):
    """An edit that the gate leaves out stands in a folder of its own, and can be applied."""

    EDIT = "file: src/lib.rt\nold: a < b\nnew: a <= b\n"

    def ends(self, edit, *words):
        with tempfile.TemporaryDirectory() as room:
            write(os.path.join(room, "crates/low/src/lib.rt"), "fn f() {\n    a < b;\n    c + c;\n}\n")
            write(os.path.join(room, "crates/low/edits/takes_the_last.edit"), edit)
            write(os.path.join(room, "tools/edits"), "")
            shutil.copy(os.path.join(TOOLS, "edits"), os.path.join(room, "tools/edits"))
            return subprocess.run([sys.executable, os.path.join(room, "tools/edits"), *words], capture_output=True, text=True).returncode

    def test_texts(self):
        self.assertEqual(self.ends(self.EDIT, "--texts"), 0)
        self.assertEqual(self.ends(self.EDIT, "--texts", "low"), 0)
        old, new = "old: a < b\n", "new: a <= b\n"
        for odd in (
            "",
            self.EDIT.replace("a < b", "a > b"),
            self.EDIT.replace("a < b", "c"),
            self.EDIT.replace("lib.rt", "other.rt"),
            self.EDIT.partition("\n")[2],
            self.EDIT + "and more\n",
            self.EDIT.replace(new, ""),
            self.EDIT.replace(new, "new: a < b\n"),
            self.EDIT.replace(old, ""),
        ):
            self.assertEqual(self.ends(odd, "--texts"), 1, odd)
        self.assertEqual(self.ends(self.EDIT, "--texts", "high"), 2)


class Calling(unittest.TestCase):
    """Calls of the program fail where an answer differs, where there is none, and at a row that can't be read."""

    CASES = "text line\na word\nend\nfile line f `word`number\nrun show f\nmakes g show f\ncuts f count f\n"
    EXPECTED = (
        "run show f\nstatus 3\nan error\na number\n|\nmakes g show f\nstatus 3\n"
        "cuts f count f\n0 bytes\nstatus 0\n0\n|\n" + "".join(f"{at} bytes\nstatus 0\n{at}\n|\n" for at in range(1, 10))
    )
    PROGRAM = '#!/bin/sh\ncase $1 in\n    show) cat "$2"; echo "an error" >&2; exit 3 ;;\n    count) wc -c <"$2" ;;\nesac\n'

    def ends(self, cases, expected):
        with tempfile.TemporaryDirectory() as room:
            for name in ("calls", "rows.py"):
                write(os.path.join(room, "tests", name), read(os.path.join(TOP, "tests", name)))
            for name, text in (("tilecatnip", f"#!/bin/sh\necho {room}/program\n"), ("program", self.PROGRAM)):
                write(os.path.join(room, name), text)
                os.chmod(os.path.join(room, name), 0o755)
            if cases is not None:
                write(os.path.join(room, "tests/small.cases"), cases)
                write(os.path.join(room, "tests/small.expected"), expected)
            return subprocess.run([sys.executable, os.path.join(room, "tests/calls")], capture_output=True, text=True).returncode

    def test_answers(self):
        self.assertEqual(self.ends(self.CASES, self.EXPECTED), 0)
        for old, new in (("an error", "no error"), ("status 3", "status 0"), ("a number", "a word"), ("0 bytes\n", "")):
            self.assertEqual(self.ends(self.CASES, self.EXPECTED.replace(old, new, 1)), 1, old)

    def test_rows(self):
        self.assertEqual(self.ends(None, None), 1)
        self.assertEqual(self.ends("", ""), 1)
        for old, new in (("run show", "runs show"), ("`word`", "`words`"), ("file line", "file other")):
            self.assertNotEqual(self.ends(self.CASES.replace(old, new), self.EXPECTED.replace(old, new)), 0, old)


class Counting(unittest.TestCase):
    """No crate has fewer edits, and no file of expected rows fewer lines, than are written down."""

    LEAST = "1 crates/low/edits\n2 tests/calls.expected\n"

    def ends(self, least, edits=1, rows=2):
        with tempfile.TemporaryDirectory() as room:
            for number in range(edits):
                write(os.path.join(room, f"crates/low/edits/edit_{number}.edit"), "")
            write(os.path.join(room, "tests/calls.expected"), "ok\n" * rows)
            write(os.path.join(room, "tools/counts.txt"), least)
            shutil.copy(os.path.join(TOOLS, "counts"), os.path.join(room, "tools/counts"))
            return subprocess.run([sys.executable, os.path.join(room, "tools/counts")], capture_output=True, text=True).returncode

    def test_counts(self):
        self.assertEqual(self.ends(self.LEAST), 0)
        self.assertEqual(self.ends(self.LEAST, edits=2, rows=3), 0)
        self.assertEqual(self.ends(self.LEAST, edits=0), 1)
        self.assertEqual(self.ends(self.LEAST, rows=1), 1)

    def test_what_has_no_count_or_is_gone(self):
        self.assertEqual(self.ends("2 tests/calls.expected\n"), 1)
        self.assertEqual(self.ends(self.LEAST + "1 crates/gone/edits\n"), 1)
        self.assertEqual(self.ends(self.LEAST + "0 crates/low/edits\n"), 1)


class SideBySide(unittest.TestCase):
    """As many checks as there are processors where each has room for one, unless all fit by what is reckoned."""

    def test_jobs(self):
        place = os.path.join(TOOLS, "jobs")
        loader = importlib.machinery.SourceFileLoader("jobs", place)
        jobs = importlib.util.module_from_spec(importlib.util.spec_from_loader("jobs", loader))
        loader.exec_module(jobs)
        for processors, gigabytes, wanted in ((4, 11, None), (4, 12, 4), (4, 22, 4), (4, 31, 4), (4, 32, None), (8, 23, None), (8, 24, 8), (1, 4, 1)):
            self.assertEqual(jobs.jobs(processors, gigabytes * 10**9), wanted, (processors, gigabytes))


class Gate(unittest.TestCase):
    CHECKS = (
        "examples/run", "tests/calls", "tools/streams", "tools/cross_models", "bench/hardware", "tools/glossary", "tools/cites", "tools/memory", "tools/edits", "tools/counts", "tools/style", "tools/try",
        "tools/cross_check", "tools/cross_values", "tools/cross_nets",
    )

    def gate(self, status, last, statuses, shell=(), meanwhile="", linked=False):
        """What the gate ends with, where `rt ci` ends with a status and a last line, and the checks with theirs."""
        with tempfile.TemporaryDirectory() as room:
            made = f"mkdir -p crates/fx_prog/out && cp /bin/true crates/fx_prog/out/fx_prog\n{meanwhile}"
            rt = f"#!/bin/sh\n[ $1 = ci ] || {{ echo kit 1; exit; }}\n{made}\necho jobs $RT_JOBS\necho '{last}'\nexit {status}\n"
            for name, text in [("bin/rt", rt), ("top/tools/jobs", "#!/bin/sh\necho 3\n")] + [(f"top/{name}", f"#!/bin/sh\n{text_of(code)}\n") for name, code in statuses.items()]:
                write(os.path.join(room, name), text)
                os.chmod(os.path.join(room, name), 0o755)
            for name in (".ci/run", "tools/gate", "tools/sources.py", "tools/words.sh", "tilecatnip"):
                os.makedirs(os.path.join(room, "top/.ci"), exist_ok=True)
                shutil.copy(os.path.join(TOP, name), os.path.join(room, "top", name))
            for name in ("crates.txt", "HANDLES", "crates/fx_prog/src/main.rt", "crates/fx_prog/specs/Main.antt", "crates/fx_prog/proofs/Main.antt"):
                write(os.path.join(room, "top", name), name)
            if linked:
                shutil.move(os.path.join(room, "top/crates/fx_prog/proofs"), os.path.join(room, "proofs"))
                os.symlink(os.path.join(room, "proofs"), os.path.join(room, "top/crates/fx_prog/proofs"))
            env = {**os.environ, "PATH": os.path.join(room, "bin") + ":" + os.environ["PATH"]}
            env.pop("RT_JOBS", None)
            done = subprocess.run([*shell, os.path.join(room, "top/.ci/run")], cwd="/", env=env, capture_output=True, text=True, timeout=60)
            self.begun = done.stdout.splitlines()[0]
            asked = subprocess.run([os.path.join(room, "top/tilecatnip"), "--program"], env=env, capture_output=True)
            self.is_proved = asked.returncode == 0
            return done.returncode, done.stdout.splitlines()[-1], [line for line in done.stdout.splitlines() if "skipped" in line]

    def test_a_source_that_is_touched_during_the_proofs_fails_it(self):
        good, source = dict.fromkeys(self.CHECKS, 0), "crates/fx_prog/src/main.rt"
        for meanwhile in (
            f"echo edited >{source}",
            f"cp -p {source} kept; echo edited >{source}; cp -p kept {source}",
            "echo added >crates/fx_prog/proofs/More.antt; rm crates/fx_prog/proofs/More.antt",
            f"mv {source} kept; cp -p kept {source}",
            f"rm {source}",
        ):
            self.assertEqual(self.gate(0, "12 passed, 0 failed", good, meanwhile=meanwhile), (1, "0 passed, 1 failed", []), meanwhile)
            self.assertFalse(self.is_proved)

    def test_a_linked_folder_fails_it(self):
        self.assertEqual(self.gate(0, "12 passed, 0 failed", dict.fromkeys(self.CHECKS, 0), linked=True), (1, "0 passed, 1 failed", []))
        self.assertFalse(self.is_proved)

    def test_a_shell_may_be_given_it(self):
        good = dict.fromkeys(self.CHECKS, 0)
        for shell in ("sh", "bash"):
            self.assertEqual(self.gate(0, "12 passed, 0 failed", good, (shell,)), (0, "12 passed, 0 failed", []))
            self.assertEqual(self.gate(1, "11 passed, 1 failed", good, (shell,)), (1, "11 passed, 1 failed", []))

    def test_its_last_line_and_status_tell_of_all_checks(self):
        good = dict.fromkeys(self.CHECKS, 0)
        self.assertEqual(self.gate(0, "12 passed, 0 failed", good), (0, "12 passed, 0 failed", []))
        self.assertEqual((self.begun, self.is_proved), ("jobs 3", True))
        lacking = {**good, "tools/cross_check": 77, "tools/cross_nets": 77}
        told = [f"{name}: skipped, for want of a tool" for name in ("tools/cross_check", "tools/cross_nets")]
        self.assertEqual(self.gate(0, "12 passed, 0 failed", lacking), (0, "12 passed, 0 failed", told))
        in_part = {**good, "tools/cross_check": "0; echo skipped: a tool"}
        told = ["skipped: a tool", "tools/cross_check: skipped: a tool"]
        self.assertEqual(self.gate(0, "12 passed, 0 failed", in_part), (0, "12 passed, 0 failed", told))
        self.assertEqual(self.gate(1, "11 passed, 1 failed", good), (1, "11 passed, 1 failed", []))
        self.assertFalse(self.is_proved)
        self.assertEqual(self.gate(0, "no closing line", good)[0], 1)
        for name in self.CHECKS:
            self.assertEqual(self.gate(0, "12 passed, 0 failed", {**good, name: 1}), (1, "12 passed, 1 failed", []))
