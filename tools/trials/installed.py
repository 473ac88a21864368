"""The launcher's help, and the program that it installs, with the man page and completions of the same words."""

import hashlib
import os
import re
import shutil
import subprocess
import sys

from .common import TOP, read, write
from .made import Made

ANSWER = "generate a b -\n"
STATUSES = ["0", "1", "2", "3", "4", "5", "6", "7", "8", "9", "70"]


def entries():
    """The commands of tools/help.txt, each with its words and the statuses that it names."""
    found = re.findall(r"^= (\S+)(.*)\n(?:[:$-] .*\n)*! (.*)$", read(os.path.join(TOP, "tools/help.txt")), re.M)
    return {name: (words.split(), statuses.split()) for name, words, statuses in found}


class Helping(Made):
    def test_says_what_each_command_wants(self):
        commands = re.findall(r"\b([a-z]+):\d", re.search(r"^is_command\(\) \{.*?^\}", read(self.launcher), re.M | re.S)[0])
        self.assertEqual({*commands} | {"prove", "install", "help"}, {*entries()})
        overview = self.run_with("help").stdout
        meanings = dict(re.findall(r"^# (\d+) (.*)$", read(os.path.join(TOP, "tools/help.txt")), re.M))
        self.assertEqual([*meanings], STATUSES)
        for name, (words, statuses) in entries().items():
            self.assertIn(f"  {' '.join([name, *words])} ", overview)
            said = self.run_with("help", name)
            self.assertEqual((said.returncode, said.stderr), (0, ""))
            self.assertEqual(self.run_with(name, "--help").stdout, said.stdout)
            head, _, rest = said.stdout.partition("\nstatuses:\n")
            self.assertEqual(head.splitlines()[0], f"usage: ./tilecatnip {' '.join([name, *words])}")
            told, example = rest.split("\nexample:\n")
            self.assertEqual(told.splitlines(), [f"  {status:3} {meanings[status]}" for status in statuses])
            self.assertIn(f"./tilecatnip {name}", example)
            self.assertEqual([word for word in words if not re.search(rf"^  {re.escape(word.strip('[]'))} ", head, re.M)], [] if name != "help" else words)
        self.assertEqual(self.proofs(), [])

    def test_statuses_are_those_of_the_page(self):
        table = re.search(r"^\| status \|.*?\n\n", read(os.path.join(TOP, "README.md")), re.M | re.S)[0]
        self.assertEqual([*dict.fromkeys(re.findall(r"^\| (\d+) \|", table, re.M))], STATUSES)

    def test_of_no_command(self):
        for words in (["help", "prov"], ["help", "help", "help"], ["-h", "simulate"], ["help", "."]):
            done = self.run_with(*words)
            self.assertEqual((done.returncode, done.stdout, done.stderr), (2, "", "usage: ./tilecatnip help [COMMAND]\n"))
        # a file may be called so
        done = self.run_with("simulate", self.model, "--help")
        self.assertEqual((done.returncode, done.stdout), (3, "tried simulate\na model"))

    def test_needs_no_tool(self):
        for words in (["help"], ["help", "stream"], ["--version"]):
            said = self.run_with(*words)
            alone = subprocess.run(["/bin/sh", self.launcher, *words], env={"PATH": "/nonexistent"}, capture_output=True, text=True)
            self.assertEqual((alone.returncode, alone.stdout), (0, said.stdout))

    def test_output_that_is_not_taken(self):
        self.prove("low", "fx_prog")
        for words in (["help"], ["help", "stream"], ["stream", "--help"], ["--version"], ["--inputs"], ["--program"]):
            with open("/dev/full", "w", encoding="utf-8") as full:
                done = subprocess.run([self.launcher, *words], env=self.environment(), stdout=full, stderr=subprocess.PIPE, text=True)
            self.assertEqual((done.returncode, done.stderr), (4, "cannot write\n"), words)


class Installing(Made):
    def setUp(self):
        super().setUp()
        self.prefix = os.path.join(os.path.dirname(self.top), "a prefix")
        self.command = os.path.join(self.prefix, "bin/tilecatnip")
        for name in set(re.findall(r"examples/\S+", read(os.path.join(TOP, "tools/help.txt")))):
            os.makedirs(os.path.dirname(os.path.join(self.top, name)), exist_ok=True)
            shutil.copy(os.path.join(TOP, name), os.path.join(self.top, name))

    def install(self):
        self.prove("low", "fx_prog")
        done = self.run_with("install", self.prefix)
        self.assertEqual((done.returncode, done.stdout), (0, ""), done.stderr)
        return done

    def text_of(self, name):
        return read(os.path.join(self.prefix, name))

    def test_what_is_not_proved_is_not_installed(self):
        self.fails(["install", self.prefix], "no proved program")
        self.prove("low", "fx_prog")
        write(self.source, "edited")
        self.fails(["install", self.prefix], "no proved program")
        self.assertFalse(os.path.exists(self.prefix))
        done = self.run_with("install", self.prefix, "more")
        self.assertEqual((done.returncode, done.stderr), (2, "usage: ./tilecatnip install [PREFIX]\n"))

    def test_another_program_in_its_place_is_not_installed(self):
        self.prove("low", "fx_prog")
        with open(os.path.join(self.top, "crates/fx_prog/out/fx_prog"), "a", encoding="utf-8") as file:
            file.write("echo more\n")
        done = subprocess.run([sys.executable, os.path.join(self.top, "tools/install"), "0.1", self.prefix], capture_output=True, text=True)
        self.assertEqual((done.returncode, done.stderr), (70, "tilecatnip: the program changed while it was copied\n"))
        self.assertFalse(os.path.exists(self.command))

    def test_a_folder_that_takes_nothing(self):
        self.prove("low", "fx_prog")
        write(self.prefix, "a file")
        self.fails(["install", self.prefix], "can't be installed there")

    def test_answers_without_the_repository(self):
        self.install()
        listed = self.run_with("--inputs").stdout.partition("\n")[2]
        shutil.rmtree(self.top)
        link = os.path.join(self.pretended, "link")
        os.symlink(self.command, link)
        for by in (self.command, link):
            for words in (["generate", "a b", "-"], ["--proved", "generate", "a b", "-"]):
                done = self.run_with(*words, by=by, folder="/")
                self.assertEqual((done.returncode, done.stdout, done.stderr), (0, ANSWER, ""))
        of_sources = hashlib.sha256(listed.encode()).hexdigest()
        first, second = self.run_with("--version", by=self.command).stdout.splitlines()
        self.assertRegex(first, r"^tilecatnip \d+\.\d+$")
        self.assertEqual(second, f"proved of {len(listed.splitlines())} sources, whose list has the sum {of_sources}, by kit 1")
        os.remove(os.path.join(self.prefix, "lib/tilecatnip/fx_prog"))
        self.assertEqual(self.run_with("generate", "a b", "-", by=self.command).returncode, 70)

    def test_helps_in_the_same_words(self):
        self.install()
        examples = "'" + os.path.join(self.prefix, "share/doc/tilecatnip/examples/")
        for name in {*entries()} - {"prove", "install"}:
            said = self.run_with("help", name).stdout.replace("./tilecatnip", "tilecatnip")
            said = re.sub(r"(?<= )examples/(\S+)", lambda found: f"{examples}{found[1]}'", said)
            for words in (["help", name], [name, "--help"]):
                self.assertEqual(self.run_with(*words, by=self.command).stdout, said)
            for path in re.findall(r"(?<= ')[^'\n]*", said.partition("\nexample:\n")[2]):
                self.assertTrue(os.path.exists(path), path)
        self.assertEqual(self.run_with(by=self.command).returncode, 2)
        for words in (["help"], ["help", "stream"], ["--version"]):
            with open("/dev/full", "w", encoding="utf-8") as full:
                done = subprocess.run([self.command, *words], stdout=full, stderr=subprocess.PIPE, text=True)
            self.assertEqual((done.returncode, done.stderr), (4, "cannot write\n"))

    def test_man_page(self):
        self.install()
        page = self.text_of("share/man/man1/tilecatnip.1")
        for name in {*entries()} - {"prove", "install"}:
            self.assertIn(f".B tilecatnip {name}\n", page)
        self.assertEqual(re.findall(r"^\.B (\d+)$", page, re.M), STATUSES)
        if shutil.which("groff"):
            done = subprocess.run(["groff", "-ww", "-man", "-z", "-Tascii"], input=page, capture_output=True, text=True)
            self.assertEqual((done.returncode, done.stderr), (0, ""))

    def test_completions(self):
        self.install()
        names = {*entries()} - {"prove", "install"}
        if shutil.which("bash"):
            asked = 'COMP_WORDS=(tilecatnip "$2"); COMP_CWORD=1; . "$1" && _tilecatnip && printf "%s\\n" "${COMPREPLY[@]}"'
            for word, wanted in (("", names | {"--help", "--version"}), ("s", {"simulate", "sample", "stream"}), ("x", {""})):
                place = os.path.join(self.prefix, "share/bash-completion/completions/tilecatnip")
                done = subprocess.run(["bash", "-c", asked, "bash", place, word], capture_output=True, text=True)
                self.assertEqual(({*done.stdout.split("\n")} - {""} or {""}, done.stderr), (wanted, ""))
        for shell, place in (("zsh", "share/zsh/site-functions/_tilecatnip"), ("fish", "share/fish/vendor_completions.d/tilecatnip.fish")):
            text = self.text_of(place)
            self.assertEqual([name for name in names if name not in text], [])
            if shutil.which(shell):
                done = subprocess.run([shell, "-n", os.path.join(self.prefix, place)], capture_output=True, text=True)
                self.assertEqual((done.returncode, done.stderr), (0, ""))
