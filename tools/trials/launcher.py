"""The launcher, in a made repository with a toolchain that only pretends to prove."""

import glob
import os
import re
import shutil
import signal
import subprocess
import tempfile
import time

from .common import TOP, read, write
from .made import ENDED, WITH_THREADS, Made


class Launcher(Made):
    def test_help_and_version_begin_nothing(self):
        for words, status, stream in (([], 2, "stderr"), (["help"], 0, "stdout"), (["-h"], 0, "stdout"), (["--help"], 0, "stdout")):
            done = self.run_with(*words)
            self.assertEqual((done.returncode, self.proofs()), (status, []))
            self.assertIn("./tilecatnip generate", getattr(done, stream))
        done = self.run_with("--version")
        version = re.search(r"^version=(.*)$", read(os.path.join(self.top, "tools/words.sh")), re.M)[1]
        self.assertEqual(done.stdout, f"tilecatnip {version}\n")
        self.assertIn(f"## {version}", read(os.path.join(TOP, "CHANGELOG.md")))

    def test_words_that_are_no_command_begin_nothing(self):
        usage = re.search(r"^usage='(.*)'$", read(self.launcher), re.M)[1]
        self.assertIn(usage, read(os.path.join(TOP, "crates/fx_top/src/answer.rt")))
        for words in (["prov"], ["simulate", "a"], ["generate", "a", "b", "c"], ["--verion"], ["--proved", "simulat", "a", "b"]):
            done = self.run_with(*words)
            self.assertEqual((done.returncode, done.stdout, done.stderr, self.proofs()), (2, "", usage + "\n", []))
        done = self.run_with("prove", "now")
        self.assertEqual((done.returncode, self.proofs()), (2, []))

    def test_proves_what_changed_and_what_stands_on_it(self):
        self.is_unproved()
        self.prove("low", "fx_prog")
        self.is_proved()
        self.assertIn("stands", self.prove())
        changes = (
            (lambda: write(self.source, "edited"), ["low", "fx_prog"]),
            (lambda: os.remove(os.path.join(self.top, "crates/low/specs/Low.antt")), ["low", "fx_prog"]),
            (lambda: write(os.path.join(self.top, "crates.txt"), "low:\nfx_prog: low\n"), ["fx_prog"]),
        )
        for change, proved in changes:
            change()
            self.is_unproved()
            self.prove(*proved)
            self.is_proved()
            # what was made of other texts is gone
            self.assertEqual(len(os.listdir(os.path.join(self.top, "crates/fx_prog/out/proved"))), 2)

    def test_what_was_proved_stays_so_where_a_proof_or_a_crate_beside_it_is_edited(self):
        self.prove("low", "fx_prog")
        for path, proved in (("crates/low/proofs/Low.antt", ["low", "fx_prog"]), ("crates/other/src/lib.rt", [])):
            write(os.path.join(self.top, path), "edited")
            self.is_proved()
            self.prove(*proved)
            self.is_proved()

    def test_another_toolchain_proves_anew_and_takes_no_proof_away(self):
        self.prove("low", "fx_prog")
        self.pretend("line", "kit 2\n")
        self.is_proved()
        self.prove("low", "fx_prog")
        self.assertIn("stands", self.prove())

    def test_proves_a_copy_of_what_the_program_stands_on(self):
        self.assertIn("2 of 2 crates, 0 min", self.prove("low", "fx_prog"))
        copied = read(os.path.join(self.pretended, "copied"))
        self.assertIn("low/specs", copied)
        self.assertNotIn("must-fail", copied)
        self.assertNotIn("other", copied)
        self.assertFalse(os.path.exists(read(os.path.join(self.pretended, "room")).strip()))

    def prove_with_processors(self, processors):
        """The checks of a proof from nothing on so many processors, in the order in which they began."""
        self.pretend("proofs", "")
        done = subprocess.run([self.launcher, "prove"], env={**self.environment(), "RT_JOBS": str(processors)}, capture_output=True, text=True, timeout=60)
        self.assertEqual(done.returncode, 0, done.stderr)
        return self.proofs()

    def test_begins_where_most_waits_and_leaves_no_processor_idle(self):
        write(os.path.join(self.top, "crates.txt"), "large:\nsmall:\nother:\nmiddle: small\nfx_prog: large middle other std\n")
        for name, lines in (("small", 100), ("other", 200), ("middle", 300)):
            write(os.path.join(self.top, f"crates/{name}/src/lib.rt"), "a line\n" * lines)
        # small has middle behind it, and two crates take longer than one, unless that has much more text
        for kit, lines, first in (("kit 2", 20_000, ["large", "small"]), ("kit 3", 900, ["small", "large"])):
            self.pretend("line", kit + "\n")
            write(os.path.join(self.top, "crates/large/src/lib.rt"), "a line\n" * lines)
            self.assertEqual([name for name, _ in self.prove_with_processors(1)], [*first, "middle", "other", "fx_prog"])
        self.pretend("line", "kit 4\n")
        self.pretend("meanwhile", "case $crate in large | other) sleep 3 ;; esac")
        self.assertEqual(dict(self.prove_with_processors(4)), {"large": "1", "small": "1", "other": "2", "middle": "1", "fx_prog": "4"})

    def test_another_program_in_its_place_is_not_proved(self):
        self.prove("low", "fx_prog")
        with open(os.path.join(self.top, "crates/fx_prog/out/fx_prog"), "a", encoding="utf-8") as file:
            file.write("echo more\n")
        self.fails(["--proved", "sample", "1"], "no proved program")
        self.is_unproved()
        # it is linked anew, of what was proved
        self.prove()
        self.is_proved()

    def test_takes_up_again_what_was_killed(self):
        self.pretend("meanwhile", '[ -e "$PRETENDED/killed" ] || { : >"$PRETENDED/killed"; kill -9 $$; }')
        self.assertEqual(self.prove_with_processors(2), [("low", "2"), ("low", "1"), ("fx_prog", "1")])
        self.is_proved()

    def test_proves_anew_what_no_verdict_was_looked_at_of(self):
        self.prove("low", "fx_prog")
        out = os.path.join(self.top, "crates/fx_prog/out")
        os.remove(os.path.join(out, "inputs"))
        [verdict] = glob.glob(os.path.join(out, "proved/low-*/verdict"))
        self.assertIn("logic=proved", read(verdict))
        os.remove(verdict)
        self.prove("low")
        self.is_proved()

    def test_says_that_a_crate_was_killed(self):
        self.pretend("meanwhile", "kill -9 $$")
        os.environ["RT_JOBS"] = "1"
        self.addCleanup(os.environ.pop, "RT_JOBS")
        self.assertIn("== low\nended by SIGKILL\nlow NOT proved\n", self.fails(["prove"], "not proved (0 of 2 crates"))

    def test_notices_an_edit_during_the_proof(self):
        self.pretend("meanwhile", f"echo edited >'{self.source}'")
        self.prove("low", "fx_prog")
        self.pretend("meanwhile", "")
        self.is_unproved()

    def test_says_why_a_crate_is_not_proved(self):
        write(os.path.join(self.top, "crates.txt"), "low:\nother:\nfx_prog: low other std\n")
        self.pretend("meanwhile", "[ $crate = other ] || { echo a reason; exit 1; }")
        said = self.fails(["prove"], "not proved (1 of 3 crates")
        self.assertIn("== low\na reason\nlow NOT proved\n", said)
        self.assertEqual({name for name, _ in self.proofs()}, {"low", "other"})
        # all is proved, but over something that no crate here may stand on
        self.pretend("meanwhile", "")
        self.pretend("word", " bugs=1")
        self.assertIn("logic=proved functions=1 bugs=1", self.fails(["prove"], "not proved (1 of 3 crates"))
        self.pretend("word", "")
        self.pretend("meanwhile", "[ $crate != fx_prog ] || exit 0")
        self.assertIn("\nno object file\n", self.fails(["prove"], "could not be linked"))
        self.pretend("meanwhile", "")
        self.prove("fx_prog")
        shutil.rmtree(os.path.join(self.top, "crates/fx_prog/out"))
        write(os.path.join(self.top, "crates/fx_prog/out"), "a file where a folder is wanted")
        self.assertEqual(len(self.fails(["prove"], "can't be built").splitlines()), 1)

    def begun(self, *words):
        """A proof, or another command, that doesn't end by itself, once its toolchain runs, and the process of that."""
        self.pretend("meanwhile", "echo $$ >\"$PRETENDED/process\"; exec sleep 60")
        proof = subprocess.Popen([self.launcher, *(words or ["prove"])], env=self.environment(), stdout=subprocess.DEVNULL, stderr=subprocess.PIPE, text=True)
        process = os.path.join(self.pretended, "process")
        while not os.path.exists(process) or not read(process).endswith("\n"):
            time.sleep(0.05)
        return proof, int(read(process))

    def test_a_signal_ends_a_proof_with_its_children(self):
        for number in (signal.SIGINT, signal.SIGTERM, signal.SIGHUP):
            proof, process = self.begun()
            proof.send_signal(number)
            said = proof.communicate(timeout=30)[1]
            self.assertEqual(proof.returncode, 70, said)
            self.assertIn("run again to go on", said.splitlines()[-1])
            self.assertRaises(ProcessLookupError, os.kill, process, 0)
            self.assertFalse(os.path.exists(read(os.path.join(self.pretended, "room")).strip()))
            os.remove(os.path.join(self.pretended, "process"))
        self.pretend("meanwhile", "")
        self.prove("low", "fx_prog")
        self.is_proved()

    def test_a_signal_ends_an_unproved_answer(self):
        answer, process = self.begun("generate", self.model, "-")
        answer.send_signal(signal.SIGTERM)
        answer.communicate(timeout=30)
        self.assertEqual(answer.returncode, 70)
        for _ in range(100):
            if not os.path.exists(f"/proc/{process}"):
                break
            time.sleep(0.05)
        self.assertRaises(ProcessLookupError, os.kill, process, 0)

    def test_one_proof_at_a_time(self):
        proof, _ = self.begun()
        self.fails(["prove"], "another prove")
        proof.kill()
        proof.communicate(timeout=30)
        left = read(os.path.join(self.pretended, "room")).strip()
        self.pretend("meanwhile", "")
        for _ in range(100):
            # what it began ends with it, and then another can begin
            if self.run_with("prove").returncode == 0:
                break
            time.sleep(0.1)
        self.is_proved()
        self.assertFalse(os.path.exists(left))

    def test_only_the_proved_program_where_that_is_asked(self):
        words = ["--proved", "generate", "a b", "-"]
        self.fails(words, "./tilecatnip prove")
        self.fails(["--program"], "./tilecatnip prove")
        self.prove("low", "fx_prog")
        self.assertEqual(self.run_with(*words).stdout, "generate a b -\n")
        self.assertEqual(self.run_with("--program").stdout, os.path.join(os.path.realpath(self.top), "crates/fx_prog/out/fx_prog") + "\n")

    def test_unproved_answers_end_as_the_program_does(self):
        folder, name = os.path.split(self.model)
        for kit, ended in (("kit 2\n", ENDED), ("kit 3\n", WITH_THREADS)):
            self.pretend("line", kit)
            self.pretend("ended", "MODEL: line 2: not MDL text\n" + ended.format(5))
            done = self.run_with("generate", name, "-", folder=folder)
            self.assertEqual((done.returncode, done.stdout), (5, "tried generate\na model"))
            self.assertEqual(done.stderr.splitlines()[1:], ["a b.mdl: line 2: not MDL text"])
        done = self.run_with("simulate", name, "gone", folder=folder)
        self.assertEqual((done.returncode, done.stderr.splitlines()[1:]), (3, ["gone: cannot be read"]))

    def test_the_sources_judge_words_and_files(self):
        # a bad range is told before a file that isn't there, and a file that is too long before one behind it
        self.pretend("tried", "")
        self.run_with("explore", "gone", "bad")
        self.assertRegex(read(os.path.join(self.pretended, "tried")), r"\Aexplore /\S+/1 bad\n\Z")
        long = os.path.join(os.path.dirname(self.model), "long.mdl")
        with open(long, "wb") as file:
            file.truncate(20_000_000)
        done = self.run_with("check", long, "gone")
        self.assertEqual((done.returncode, len(done.stdout)), (3, len("tried check\n") + 16_777_217))

    def test_says_why_there_is_no_unproved_answer(self):
        why = "the program wrote more than 1048576 bytes"
        words = "the end of the program's standard output:\n" + "| assign n1 = n0;\n" * 20 + f"interpreter: no-answer: a call\nchecked: no-answer: {why}\nraces: not looked for\n"
        self.pretend("ended", words + "run=no-answer proved=no\n")
        said = self.fails(["generate", self.model, "-"], f"no answer unproved ({why})")
        self.assertEqual(len(said.splitlines()), 2)
        log = os.path.join(os.path.realpath(self.top), "crates/fx_prog/out/unproved.log")
        self.assertIn(log, said)
        self.assertIn(words, read(log))
        self.pretend("ended", "error: a fault\n  in a line\nrun=none proved=no\n")
        said = self.fails(["generate", self.model, "-"], "no answer unproved")
        self.assertEqual(said.splitlines()[1:3], ["error: a fault", "  in a line"])

    def test_an_unproved_answer_is_kept(self):
        def tries():
            return len(read(os.path.join(self.pretended, "tried")).splitlines())

        copy = os.path.join(os.path.dirname(self.model), "copy.mdl")
        shutil.copy(self.model, copy)
        self.pretend("ended", "MODEL: line 2: not MDL text\n" + ENDED.format(5))
        for count, name in enumerate((self.model, copy, self.model)):
            done = self.run_with("generate", name, "-")
            self.assertEqual((done.returncode, done.stdout, tries()), (5, "tried generate\na model", 1))
            self.assertEqual(done.stderr.splitlines()[1:], [f"{name}: line 2: not MDL text"])
            self.assertEqual("kept" in done.stderr, count > 0)
        for more, change in enumerate((lambda: write(self.model, "another"), lambda: write(self.source, "edited"), lambda: self.pretend("line", "kit 2\n"))):
            change()
            self.run_with("generate", self.model, "-")
            self.assertEqual(tries(), more + 2)
        # what may be otherwise at the next call
        self.pretend("line", "kit 3\n")
        self.pretend("ended", "out of memory\n" + ENDED.format(1))
        for count in (5, 6):
            self.assertEqual((self.run_with("generate", self.model, "-").returncode, tries()), (1, count))

    def test_unproved_answers_read_files_that_can_be_read_once(self):
        for command in ('cat "$1" | "$0" simulate /dev/stdin "$1"', '"$0" simulate "$1" /dev/stdin <"$1"'):
            words = ["sh", "-c", command, self.launcher, self.model]
            done = subprocess.run(words, env=self.environment(), capture_output=True, text=True, timeout=60)
            self.assertEqual((done.returncode, done.stdout), (0, "tried simulate\na modela model"))

    def test_unproved_answers_read_a_file_called_as_the_empty_plan(self):
        folder = os.path.dirname(self.model)
        write(os.path.join(folder, "-"), " of its own")
        for words, read_too in ((("simulate", "-", "-"), 2), (("generate", "-", "-"), 1), (("flatten", "-"), 1)):
            done = self.run_with(*words, folder=folder)
            self.assertEqual((done.returncode, done.stdout), (0, f"tried {words[0]}\n" + read_too * " of its own"), done.stderr)

    def test_goes_through_links(self):
        folder = tempfile.TemporaryDirectory()
        self.addCleanup(folder.cleanup)
        absolute, relative = (os.path.join(folder.name, name) for name in ("absolute", "relative"))
        os.symlink(self.launcher, absolute)
        os.symlink("absolute", relative)
        self.prove("low", "fx_prog")
        self.is_proved(by=absolute, folder=folder.name)
        self.is_proved(by=relative, folder="/")
        self.is_proved(by="./relative", folder=folder.name)

    def test_needs_the_toolchain_only_to_prove_and_to_try(self):
        with_rt, without = self.path, os.path.join(self.pretended, "others")
        os.mkdir(without)
        for name in ("awk", "cat", "cksum", "dirname", "find", "head", "readlink", "sh", "sort"):
            os.symlink(shutil.which(name), os.path.join(without, name))
        self.path = without
        for words in (["prove"], ["generate", self.model, "-"]):
            self.assertEqual(len(self.fails(words, "isn't in the path").splitlines()), 1)
        self.path = with_rt
        self.prove("low", "fx_prog")
        self.path = without
        self.is_proved()

    def test_README_says_how_long_a_proof_takes(self):
        taken = re.search(r"^prove_time='(.*)'$", read(os.path.join(self.top, "tools/words.sh")), re.M)[1]
        self.assertTrue(taken in read(os.path.join(TOP, "README.md")), taken)
