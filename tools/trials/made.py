"""A made repository with a toolchain that only pretends to prove, and calls of its launcher."""

import os
import shutil
import subprocess
import tempfile
import unittest

from .common import TOP, read, write

# `version` does what a file says and prints a file's line; `try` tells its words, answers by them and by the
# files that they name, and ends as another file says, or as the program does where a file is none.
RT = """#!/bin/sh
case $1 in
    version) . "$PRETENDED/at_version"; cat "$PRETENDED/line" ;;
    try)
        shift 4
        echo "$@" >>"$PRETENDED/tried"
        echo "tried $1"
        for word; do
            case $word in
                /*) [ -f "$word" ] || { echo "$word: cannot be read" >&2; echo "run=ended status=3 runners=1 proved=no" >&2; exit; } ;;
            esac
            [ ! -f "$word" ] || cat "$word"
        done
        sed "s|MODEL|$2|" "$PRETENDED/ended" >&2
        . "$PRETENDED/meanwhile"
        ;;
esac
"""

# `build` tells the crate and how many processors it was given, does what a file says, asks for the libraries
# that it is to read, and makes what it is to make.
RATTLE = """#!/bin/sh
libraries=
while [ $# -gt 0 ]; do
    case $1 in
        --crate-name) crate=$2 ;;
        --extern) libraries="$libraries ${2#*=}" ;;
        --jobs) jobs=$2 ;;
        -o) made=$2 ;;
    esac
    shift
done
echo "$crate $jobs" >>"$PRETENDED/proofs"
find "$PWD" -type f >>"$PRETENDED/copied"
dirname "$PWD" >"$PRETENDED/room"
. "$PRETENDED/meanwhile"
for library in $libraries; do [ -d "$library" ] || { echo "no library $library"; exit 2; }; done
if [ "$crate" = fx_prog ]; then echo made >"$made"; else mkdir "$made"; fi
echo "logic=proved functions=1$(cat "$PRETENDED/word") statements=trusted"
"""

# Makes a program of an object file.
LINK = """#!/bin/sh
while [ "$1" != -o ]; do shift; done
[ -f "$3" ] || { echo "no object file"; exit 1; }
echo linked
echo linked >&2
printf '#!/bin/sh\\necho "$@"\\n' >"$2"
chmod +x "$2"
"""


# The last lines of the toolchain, of a program without threads and of one with.
ENDED = "checked: ended status={0}\nrun=ended status={0} runners=1 proved=no\n"
WITH_THREADS = "checked: ended status={0}\nraces: not looked for, since a kit has no ThreadSanitizer\nrun=ended status={0} runners=1 races=unchecked proved=no\n"


class Made(unittest.TestCase):
    """Calls of the launcher of a made repository."""

    def setUp(self):
        room = tempfile.TemporaryDirectory()
        self.addCleanup(room.cleanup)
        self.top = os.path.join(room.name, "repository")
        self.pretended, self.kit = os.path.join(room.name, "pretended"), os.path.join(room.name, "kit")
        self.launcher = os.path.join(self.top, "tilecatnip")
        self.source = os.path.join(self.top, "crates/low/src/lib.rt")
        self.model = os.path.join(room.name, "a b.mdl")
        write(self.model, "a model")
        for name in ("HANDLES", "crates/fx_prog/src/main.rt", "crates/low/src/lib.rt", "crates/low/specs/Low.antt", "crates/low/proofs/Lib.antt", "crates/low/must-fail/low.edit", "crates/other/src/lib.rt"):
            write(os.path.join(self.top, name), name)
        write(os.path.join(self.top, "crates.txt"), "# a list\nlow:\nother: low\nfx_prog: low std\n")
        for name in ("tilecatnip", "tools/prove", "tools/machine.py", "tools/sources.py", "tools/unproved", "tools/words.sh", "tools/help.txt", "tools/install"):
            os.makedirs(os.path.dirname(os.path.join(self.top, name)), exist_ok=True)
            shutil.copy(os.path.join(TOP, name), os.path.join(self.top, name))
        for name, text in (("line", "kit 1\n"), ("proofs", ""), ("tried", ""), ("meanwhile", ""), ("at_version", ""), ("word", ""), ("ended", ENDED.format(0))):
            self.pretend(name, text)
        for name, text in (("rt", RT), ("rattle", RATTLE), ("rattle-link", LINK)):
            write(os.path.join(self.kit, "bin", name), text)
            os.chmod(os.path.join(self.kit, "bin", name), 0o755)
        os.makedirs(os.path.join(self.kit, "rlibs/std.rlib"))
        self.path = os.path.join(self.kit, "bin") + ":" + os.environ["PATH"]

    def pretend(self, name, text):
        write(os.path.join(self.pretended, name), text)

    def environment(self):
        return {**os.environ, "PATH": self.path, "PRETENDED": self.pretended}

    def run_with(self, *words, by=None, folder=None):
        return subprocess.run([by or self.launcher, *words], cwd=folder, env=self.environment(), capture_output=True, text=True, timeout=60)

    def proofs(self):
        """The crates whose proof was begun, each with the processors that it was given."""
        return [tuple(line.split()) for line in read(os.path.join(self.pretended, "proofs")).splitlines()]

    def prove(self, *crates):
        """A proof goes well, of these crates."""
        self.pretend("proofs", "")
        done = self.run_with("prove")
        self.assertEqual((done.returncode, done.stdout, [name for name, _ in self.proofs()]), (0, "", [*crates]), done.stderr)
        self.assertEqual([line for line in done.stderr.splitlines() if not line.startswith("tilecatnip: ")], [])
        return done.stderr

    def is_proved(self, **how):
        """The proved program answers, with nothing said beside it."""
        done = self.run_with("generate", "a b", "-", **how)
        self.assertEqual((done.returncode, done.stdout, done.stderr), (0, "generate a b -\n", ""))

    def is_unproved(self):
        """The sources answer unproved, which is said in a line, and no proof is begun."""
        self.pretend("proofs", "")
        done = self.run_with("generate", self.model, "-")
        self.assertEqual((done.returncode, done.stdout, self.proofs()), (0, "tried generate\na model", []), done.stderr)
        self.assertIn("./tilecatnip prove", done.stderr)
        self.assertEqual(len(done.stderr.splitlines()), 1)

    def fails(self, words, said):
        """There is no answer: status 70, nothing on standard output, and the message at the end."""
        done = self.run_with(*words)
        self.assertEqual((done.returncode, done.stdout), (70, ""), done.stderr)
        self.assertIn(said, done.stderr.splitlines()[-1])
        return done.stderr
