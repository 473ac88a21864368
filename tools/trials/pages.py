"""What README.md and the pages of docs/ say, against what stands and what the program prints."""

import functools
import glob
import os
import re
import shlex
import shutil
import subprocess
import sys
import tempfile
import unittest

from .common import TOP, read, write


def blocks_of(page):
    """The fenced blocks of a page: the language and the text of each."""
    return re.findall(r"^```(\w*)\n(.*?)^```$", read(os.path.join(TOP, page)), re.M | re.S)


def commands_of(text):
    """Each command of a block that shows a session, with what it shows."""
    found = re.findall(r"^\$ (.*)\n((?:(?!\$ ).*\n)*)", text, re.M)
    return [(command, shown) for command, shown in found]


def places_of(text):
    """The places of a page that a link can name: its headings and what it names itself."""
    heads = re.findall(r"^#+ (.*)$", text, re.M)
    return [re.sub(r"[^\w -]", "", head.lower()).replace(" ", "-") for head in heads] + re.findall(r'<a id="([^"]+)">', text)


def listed():
    """The crates of crates.txt."""
    return re.findall(r"^(\w+):", read(os.path.join(TOP, "crates.txt")), re.M)


@functools.lru_cache(maxsize=None)
def program():
    """The proved program, or the one that the environment names, or none."""
    given = os.environ.get("TILECATNIP")
    if given:
        return given
    return subprocess.run([os.path.join(TOP, "tilecatnip"), "--program"], capture_output=True, text=True).stdout.strip()


class Page(unittest.TestCase):
    """What README.md shows is what stands in examples/, and what Icarus Verilog prints of it."""

    def setUp(self):
        self.blocks = blocks_of("README.md")

    def example(self, name):
        with open(os.path.join(TOP, "examples", name)) as file:
            return file.read()

    def test_shows_the_example(self):
        texts = [text for _, text in self.blocks]
        self.assertIn("$ ./tilecatnip generate examples/unit_delay.mdl -\n" + self.example("unit_delay.v"), texts)

    def test_is_short(self):
        self.assertLessEqual(len(read(os.path.join(TOP, "README.md")).split()), 2500)

    def test_names_files_that_stand(self):
        for page in ["README.md", "CHANGELOG.md"] + glob.glob(os.path.join(TOP, "docs/**/*.md"), recursive=True) + glob.glob(os.path.join(TOP, "examples/**/README.md"), recursive=True):
            path = os.path.join(TOP, page)
            for link, place in re.findall(r"\]\(([^)#:\s]*)(?:#([^)\s]+))?\)", re.sub(r"^```.*?^```$", "", read(path), flags=re.M | re.S)):
                there = os.path.join(os.path.dirname(path), link) if link else path
                self.assertTrue(os.path.exists(there), f"{page}: {link}")
                self.assertTrue(not place or place in places_of(read(there)), f"{page}: {link}#{place}")

    @unittest.skipUnless(shutil.which("iverilog"), "Icarus Verilog is not installed")
    def test_testbench_prints_what_is_shown(self):
        bench = next(text for language, text in self.blocks if language == "verilog")
        _, command, shown = next(text for _, text in self.blocks if "iverilog" in text).split("\n", 2)
        with tempfile.TemporaryDirectory() as room:
            # as at the top of the repository, where `bench` is a folder
            os.mkdir(os.path.join(room, "bench"))
            write(os.path.join(room, "bench.v"), bench)
            write(os.path.join(room, "fx_model.v"), self.example("unit_delay.v"))
            done = subprocess.run(["sh", "-c", command.lstrip("$ ")], cwd=room, capture_output=True, text=True)
        self.assertEqual((done.returncode, done.stdout), (0, shown), done.stderr)


@unittest.skipUnless(program(), "there is no proved program")
class Shown(unittest.TestCase):
    """What README.md and docs/RULES.md show of a command is what it prints."""

    def print_of(self, command, folder=TOP):
        command = re.sub(r"^\./tilecatnip (?=check|simulate|generate|replay|explore|sample|flatten|stream)", shlex.quote(program()) + " ", command)
        return subprocess.run(["sh", "-c", command], cwd=folder, stdout=subprocess.PIPE, stderr=subprocess.STDOUT, text=True, timeout=60)

    def test_README(self):
        tried = 0
        for command, shown in (it for _, text in blocks_of("README.md") for it in commands_of(text)):
            if re.match(r"(\./tilecatnip (check|simulate|generate|replay|explore|sample|flatten|stream)|tools/lint)[^>|&]*$", command):
                self.assertEqual(self.print_of(command).stdout, shown, command)
                tried += 1
        self.assertGreater(tried, 3)

    def test_examples_of_help(self):
        examples = re.findall(r"^\$ ((?!prove|install|help)[^>\n]*)", read(os.path.join(TOP, "tools/help.txt")), re.M)
        self.assertEqual(len(examples), 8)
        for example in examples:
            self.assertEqual(self.print_of(f"./tilecatnip {example}").returncode, 0, example)

    def test_picture_of_plans(self):
        [session] = [text for _, text in blocks_of("examples/README.md") if text.startswith("$ ./tilecatnip explore")]
        (explored, _), (drawn, _) = commands_of(session)
        with tempfile.TemporaryDirectory() as room:
            plans = os.path.join(room, "plans")
            write(plans, self.print_of(explored.removesuffix(" >plans")).stdout)
            done = subprocess.run([sys.executable, os.path.join(TOP, "tools/plot_explore"), plans], capture_output=True, text=True)
        self.assertEqual(done.stdout, read(os.path.join(TOP, "examples", drawn.rpartition(" >")[2])), done.stderr)

    def test_rules(self):
        """Each refusal that is shown, and that the model with the second lines for the first is accepted."""
        blocks = [it for it in blocks_of("docs/RULES.md") if it[0] == "mdl" or it[1].startswith("$ ./tilecatnip simulate")]
        self.assertEqual(len(blocks) % 3, 0)
        for (_, session), (_, broken), (_, mended) in zip(blocks[::3], blocks[1::3], blocks[2::3]):
            [(command, shown)] = commands_of(session)
            self.assertEqual(self.print_of(command).stdout, shown, command)
            _, _, model, stimulus = command.split()
            text = read(os.path.join(TOP, model))
            self.assertEqual(text.count(broken), 1, model)
            with tempfile.TemporaryDirectory() as room:
                write(os.path.join(room, "mended.mdl"), text.replace(broken, mended))
                done = self.print_of(f"./tilecatnip simulate mended.mdl {shlex.quote(os.path.join(TOP, stimulus))}", room)
            self.assertEqual(done.returncode, 0, f"{model}, mended: {done.stdout}")
        self.assertEqual({f"examples/rules/{os.path.basename(it)}" for it in glob.glob(os.path.join(TOP, "examples/rules/*.mdl"))},
                         {commands_of(session)[0][0].split()[2] for _, session in blocks[::3]})

    def test_rules_of_plans(self):
        """Each refusal that is shown, and that the model is accepted with the plan that stands behind it."""
        blocks = [it for it in blocks_of("docs/RULES.md") if it[0] == "plan" or it[1].startswith("$ ./tilecatnip generate")]
        told = set()
        for (_, session), (language, plan) in zip(blocks, blocks[1:] + [("", "")]):
            if not session.startswith("$ "):
                continue
            [(command, shown)] = commands_of(session)
            self.assertEqual(self.print_of(command).stdout, shown, command)
            told.add(shown.split()[1])
            if language == "plan":
                with tempfile.TemporaryDirectory() as room:
                    write(os.path.join(room, "mended.plan"), plan)
                    model = shlex.quote(os.path.join(TOP, command.split()[2]))
                    done = self.print_of(f"./tilecatnip generate {model} mended.plan", room)
                self.assertEqual(done.returncode, 0, f"{command}, mended: {done.stdout}")
        self.assertEqual(told, {"10", "11", "12", "13"})

    def test_rule_of_streams(self):
        """The refusal that is shown."""
        [session] = [text for _, text in blocks_of("docs/RULES.md") if text.startswith("$ ./tilecatnip stream")]
        [(command, shown)] = commands_of(session)
        self.assertEqual(self.print_of(command).stdout, shown)


class Defined(unittest.TestCase):
    """What `tools/glossary` and `tools/proved` print of two small crates, and what the first refuses."""

    FILES = {
        "crates.txt": "low:\nhigh: low\n",
        "README.md": "`IsSmall` of `low/specs/Facts`\n",
        "docs/GLOSSARY.md": "| small numbers | `low` | `Facts` |\n",
        "docs/HEADLINE.md": "", "docs/ARCHITECTURE.md": "`tools/proved`, `Door::open`\n", "docs/PROVED.md": "",
        "crates/low/specs/Facts.antt": "-- Facts (own).\n\n-- below ten\npub record IsSmall (n : ℕ) : Type 0 where\n  pub below : n < 10\n",
        "crates/low/src/lib.rt": "pub use door::Door;\n",
        "crates/low/src/door.rt": "impl Door {\n    /// Opens it.\n    pub fn open(&self) -> u8\n        ensures { IsSmall result }\n    {\n        9\n    }\n\n    fn shut(&self) {\n    }\n}\n",
        "crates/high/src/lib.rt": "ghost use Rattle.low.specs.Facts.{IsSmall as Small};\n",
    }

    def run_in(self, words, changed=()):
        """What a script prints and ends with in a folder of these files, of which some are changed."""
        with tempfile.TemporaryDirectory() as room:
            for path, text in {**self.FILES, **dict(changed)}.items():
                write(os.path.join(room, path), text)
            for name in ("glossary", "proved", "definitions.py", "cited.py"):
                write(os.path.join(room, "tools", name), read(os.path.join(TOP, "tools", name)))
            name, *others = words
            done = subprocess.run([sys.executable, os.path.join(room, "tools", name), *others], capture_output=True, text=True)
        return done.returncode, done.stdout

    def test_definition(self):
        told = "crates/low/specs/Facts.antt:4\nmeaning: below ten\nsource: own\npub record IsSmall (n : ℕ) : Type 0 where\n  pub below : n < 10\ncited by 1 other files:\n  crates/high/src/lib.rt\n\n"
        self.assertEqual(self.run_in(["glossary", "Is*"]), (0, told))
        self.assertEqual(self.run_in(["glossary", "Is"]), (1, ""))

    def test_clauses(self):
        opened = "crates/low/src/door.rt: Door::open\n/// Opens it.\npub fn open(&self) -> u8\n    ensures { IsSmall result }\n\n"
        self.assertEqual(self.run_in(["proved", "low"]), (0, opened))
        self.assertEqual(self.run_in(["proved", "low", "Door::shut"]), (0, "crates/low/src/door.rt: Door::shut\nfn shut(&self)\n\n"))
        self.assertEqual(self.run_in(["proved", "high"])[0], 1)

    def test_cited_names(self):
        self.assertEqual(self.run_in(["glossary", "--check"])[0], 0)
        for page, text in (("README.md", "`IsTiny`"), ("README.md", "`low/specs/Fact`"), ("docs/ARCHITECTURE.md", "`Door::ajar`"),
                           ("docs/GLOSSARY.md", "| small numbers | `high` | `Facts` |\n"), ("docs/proof/forms.md", "`low/proofs/Gone*`")):
            status, told = self.run_in(["glossary", "--check"], {page: text + "\n"})
            self.assertEqual((status, told.startswith(page)), (1, True), text)


class Proved(unittest.TestCase):
    """docs/PROVED.md tells of each crate what is proved."""

    def test_crates_are_named(self):
        rows = re.findall(r"^\| (`.*?) \| .* \|$", read(os.path.join(TOP, "docs/PROVED.md")), re.M)
        told = {crate for row in rows for crate in re.findall(r"`(\w+)`", row)}
        self.assertEqual([crate for crate in listed() if crate not in told], [])


class Doors(unittest.TestCase):
    """The table of crates in docs/ARCHITECTURE.md names each crate, and what its source or its definitions have."""

    def test_names_stand(self):
        rows = re.findall(r"^\| (`.*?) \| .*? \| (.*?) \|$", read(os.path.join(TOP, "docs/ARCHITECTURE.md")), re.M)
        told = set()
        for crates, door in ((re.findall(r"`(\w+)`", cell), names) for cell, names in rows):
            paths = [path for crate in crates for part in ("src/**/*.rt", "specs/**/*.antt") for path in glob.glob(os.path.join(TOP, "crates", crate, part), recursive=True)]
            if not paths:
                continue
            told |= {*crates}
            source = "".join(map(read, paths))
            for name in (it.rpartition("::")[2] for it in re.findall(r"`([\w:]+)`", door)):
                self.assertRegex(source, rf"(?m)\b(fn|struct|enum|trait|type|record) {name}\b|^ *((abbrev|unfoldable) )?(pub )?{name} :", f"{crates}")
        self.assertEqual(told, {*listed()})
