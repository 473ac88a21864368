"""The launcher in broken surroundings: it answers by the proved program, or it has no answer (status 70)."""

import os
import resource
import shutil
import subprocess
import time

from .common import read, write
from .made import Made

# Without these the launcher can't tell whether the program is proved.
NEEDED = ("find", "cksum", "sort", "cat", "awk")
WORDS = ("generate", "a b", "-")
ANSWER = "generate a b -\n"
NOBODY = 65534


class Surroundings(Made):
    def answers(self, *words, **how):
        return subprocess.run([*words], env={**self.environment(), **how.pop("env", {})}, capture_output=True, text=True, timeout=60, **how)

    def unknown(self, done, said):
        """It isn't known whether the program is proved: no answer, which says what failed, and none unproved."""
        self.assertEqual((done.returncode, done.stdout), (70, ""), done.stderr)
        self.assertIn(said, done.stderr)
        self.assertNotIn("unproved", done.stderr)
        self.assertEqual(read(os.path.join(self.pretended, "tried")), "")

    def edit(self):
        write(self.source, "edited")

    def test_no_path(self):
        self.prove("low", "fx_prog")
        for path in ("/nonexistent", ""):
            for words in (WORDS, ("--proved", *WORDS)):
                done = self.answers("/bin/sh", self.launcher, *words, env={"PATH": path})
                self.assertEqual((done.returncode, done.stdout, done.stderr), (0, ANSWER, ""))
        self.edit()
        done = self.answers("/bin/sh", self.launcher, "--proved", *WORDS, env={"PATH": "/nonexistent"})
        self.assertEqual((done.returncode, done.stdout), (70, ""))

    def failing(self, name, text):
        """A folder to begin the path with, in which a tool fails."""
        folder = os.path.join(self.pretended, "failing-" + name)
        write(os.path.join(folder, name), f"#!/bin/sh\n{text}\n")
        os.chmod(os.path.join(folder, name), 0o755)
        return folder + ":" + self.path

    def test_each_tool_failing(self):
        self.prove("low", "fx_prog")
        for name in NEEDED:
            for text in ("exit 1", "kill -9 $$", "exit 127"):
                path = self.failing(name, text)
                for words in (WORDS, ("--proved", *WORDS), ("--program",)):
                    self.unknown(self.answers(self.launcher, *words, env={"PATH": path}), name)
        for name in NEEDED:
            # a tool that says nothing, and one that says nothing of what is not there
            for edit in (lambda: None, self.edit):
                edit()
                done = self.answers(self.launcher, "--proved", *WORDS, env={"PATH": self.failing(name, "exit 0")})
                self.assertEqual((done.returncode, done.stdout), (70, ""), name)
        self.assertEqual([name for name in os.listdir(os.path.join(self.top, "crates/fx_prog/out")) if name.startswith("seen")], [])

    def test_a_failing_toolchain_proves_nothing(self):
        self.prove("low", "fx_prog")
        path = self.failing("rt", "exit 1")
        self.assertEqual(self.answers(self.launcher, *WORDS, env={"PATH": path}).stdout, ANSWER)
        for words in (["prove"], ["--inputs"]):
            self.unknown(self.answers(self.launcher, *words, env={"PATH": path}), "rt version failed")

    def test_the_callers_program_is_not_run(self):
        caller = os.path.join(self.pretended, "caller")
        for name in ("crates/fx_prog/out/fx_prog", "crates.txt"):
            write(os.path.join(caller, name), "#!/bin/sh\necho the caller's\n")
        os.chmod(os.path.join(caller, "crates/fx_prog/out/fx_prog"), 0o755)
        write(os.path.join(caller, "crates/fx_prog/out/inputs"), "")
        for path in ("/nonexistent", "", self.path):
            done = self.answers("/bin/sh", self.launcher, "--proved", *WORDS, cwd=caller, env={"PATH": path})
            self.assertEqual((done.returncode, done.stdout), (70, ""), done.stderr)
        self.prove("low", "fx_prog")
        for path in ("/nonexistent", "", self.path):
            done = self.answers("/bin/sh", self.launcher, "--proved", *WORDS, cwd=caller, env={"PATH": path})
            self.assertEqual((done.returncode, done.stdout), (0, ANSWER), done.stderr)
        # nor where `cd` would look elsewhere for a folder
        shutil.copytree(self.top, os.path.join(caller, os.path.basename(self.top)))
        for edit, ended in ((lambda: None, (0, ANSWER)), (self.edit, (70, ""))):
            edit()
            for by in ("repository/tilecatnip", "./repository/tilecatnip", "repository/crates/../tilecatnip"):
                done = self.answers("/bin/sh", by, "--proved", *WORDS, cwd=os.path.dirname(self.top), env={"CDPATH": caller})
                self.assertEqual((done.returncode, done.stdout), ended, done.stderr)
        self.prove("low", "fx_prog")
        # a shell that takes its script from the path doesn't say where that stands
        bash = shutil.which("bash")
        if bash:
            done = self.answers(bash, "tilecatnip", "--proved", *WORDS, cwd=caller, env={"PATH": self.top})
            self.assertIn((done.returncode, done.stdout), ((70, ""), (0, ANSWER)), done.stderr)

    def test_links_are_followed(self):
        elsewhere = os.path.join(self.pretended, "elsewhere")
        shutil.move(os.path.join(self.top, "crates/low/src"), elsewhere)
        os.symlink(elsewhere, os.path.join(self.top, "crates/low/src"))
        specs, behind = os.path.join(self.top, "crates/low/specs/Low.antt"), os.path.join(self.pretended, "Low.antt")
        shutil.move(specs, behind)
        os.symlink(behind, specs)
        nested = os.path.join(self.pretended, "nested")
        write(os.path.join(nested, "Deep.antt"), "deep")
        os.symlink(nested, os.path.join(self.top, "crates/low/specs/nested"))
        self.prove("low", "fx_prog")
        self.is_proved()
        for path in (os.path.join(elsewhere, "lib.rt"), behind, os.path.join(nested, "Deep.antt"), os.path.join(nested, "More.antt")):
            write(path, "edited")
            self.fails(["--proved", *WORDS], "no proved program")
            self.prove("low", "fx_prog")
            self.is_proved()
        os.remove(specs)
        os.symlink("gone", specs)
        self.fails(["--proved", *WORDS], "no proved program")
        self.fails(["prove"], "can't be looked at")

    def limited(self, kind, limit):
        """What the launcher answers to a user who isn't root under a limit."""

        def bind():
            if os.getuid() == 0:
                os.setgid(NOBODY)
                os.setuid(NOBODY)
            resource.setrlimit(kind, (limit, limit))

        return self.answers("/bin/sh", self.launcher, "--proved", *WORDS, preexec_fn=bind)

    def test_limits(self):
        self.prove("low", "fx_prog")
        for folder, _, _ in os.walk(os.path.dirname(self.top)):
            os.chmod(folder, 0o755)
        self.assertEqual(self.limited(resource.RLIMIT_NPROC, 10_000).stdout, ANSWER)
        self.unknown(self.limited(resource.RLIMIT_NPROC, 0), "")
        answered = set()
        for limit in range(1, 12):
            done = self.limited(resource.RLIMIT_AS, limit << 20)
            # (under the least limits it is the system that ends the shell before it begins)
            self.assertIn((done.returncode, done.stdout), ((0, ANSWER), (70, ""), (127, ""), (-11, ""), (-9, "")), (limit, done.stderr))
            answered.add(done.returncode)
        self.assertIn(70, answered)

    def test_an_edit_undone_while_sources_are_copied(self):
        # of the calls of `rt version` the first belongs to the listing, the second is just before the copies
        self.pretend("calls", "")
        self.pretend(
            "at_version",
            f"echo >>$PRETENDED/calls\ncase $(wc -l <$PRETENDED/calls) in\n2) cp -p {self.source} $PRETENDED/kept; echo edited >{self.source} ;;\n3) cp -p $PRETENDED/kept {self.source} ;;\nesac\n",
        )
        self.fails(["prove"], "changed while they were copied")
        self.assertGreaterEqual(len(read(os.path.join(self.pretended, "calls")).splitlines()), 3)
        self.pretend("at_version", "")
        self.prove("low", "fx_prog")

    def test_an_edit_undone_during_the_proof(self):
        self.pretend("meanwhile", f"cp -p {self.source} $PRETENDED/kept; echo edited >{self.source}; cp -p $PRETENDED/kept {self.source}")
        self.prove("low", "fx_prog")
        self.is_proved()
        self.assertNotIn("edited", read(self.source))

    def test_a_look_at_sizes_and_times(self):
        """Sums are taken only where a size or a time differs, and not trusted of a source that is younger than two seconds."""
        self.prove("low", "fx_prog")
        seen = os.path.join(self.top, "crates/fx_prog/out/seen")
        self.is_proved()
        self.assertFalse(os.path.exists(seen))
        time.sleep(3.1)
        self.is_proved()
        self.assertTrue(os.path.exists(seen))
        no_sums = {"PATH": self.failing("cksum", "exit 1")}
        self.assertEqual(self.answers(self.launcher, *WORDS, env=no_sums).stdout, ANSWER)
        # where a look isn't to be had there are sums
        for name in ("stat",):
            self.assertEqual(self.answers(self.launcher, *WORDS, env={"PATH": self.failing(name, "exit 1")}).stdout, ANSWER, name)
            self.assertTrue(os.path.exists(seen), name)
        kept = os.path.join(self.pretended, "kept")
        for path in (self.source, os.path.join(self.top, "crates.txt"), os.path.join(self.top, "crates/fx_prog/out/inputs")):
            shutil.copy2(path, kept)
            text = read(path)
            write(path, text[:-2] + "X" + text[-1])
            shutil.copystat(kept, path)
            self.fails(["--proved", *WORDS], "no proved program")
            write(path, text)
            shutil.copystat(kept, path)
            self.unknown(self.answers(self.launcher, *WORDS, env=no_sums), "cksum")
            self.is_proved()
        for path, counts in (("crates/low/src/more.rt", True), ("crates/fx_prog/specs/New.antt", True), ("crates/low/proofs/More.antt", False), ("crates/new/src/lib.rt", False), ("crates/other/specs/New.antt", False)):
            write(os.path.join(self.top, path), "added")
            if counts:
                self.fails(["--proved", *WORDS], "no proved program")
            else:
                self.is_proved()
            os.remove(os.path.join(self.top, path))
            if not os.listdir(os.path.dirname(os.path.join(self.top, path))):
                os.removedirs(os.path.dirname(os.path.join(self.top, path)))
            self.is_proved()
        time.sleep(3.1)
        self.is_proved()
        program = os.path.join(self.top, "crates/fx_prog/out/fx_prog")
        write(program, read(program).replace("echo", "false"))
        self.fails(["--proved", *WORDS], "no proved program")

    def test_a_folder_that_cannot_be_written_to(self):
        self.prove("low", "fx_prog")
        out = os.path.join(self.top, "crates/fx_prog/out")
        for folder, _, _ in os.walk(os.path.dirname(self.top)):
            os.chmod(folder, 0o555 if folder == out else 0o755)
        time.sleep(3.1)
        done = self.limited(resource.RLIMIT_NPROC, 10_000)
        self.assertEqual((done.returncode, done.stdout, done.stderr), (0, ANSWER, ""))
        self.assertEqual(sorted(os.listdir(out)), ["fx_prog", "inputs", "prove.log", "proved", "proving"])
