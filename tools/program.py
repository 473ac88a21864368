"""The program's answers, for the tools: the proved program where one stands, else the launcher's.

For trials the environment may name another program, in TILECATNIP.
"""

import functools
import os
import subprocess
import sys
from typing import Tuple

from written import Failed

TOP = os.path.dirname(os.path.dirname(os.path.abspath(__file__)))
LAUNCHER = os.path.join(TOP, "tilecatnip")


# The launcher's status where it has no answer.
NO_ANSWER = 70


class Refused(Failed):
    """A status of the program that isn't 0, with the line that it wrote."""

    def __init__(self, status: int, line: str) -> None:
        super().__init__(line)
        self.status = status


@functools.lru_cache(maxsize=None)
def program() -> str:
    """The path of the proved program, or of the launcher, which then answers unproved."""
    given = os.environ.get("TILECATNIP")
    if given:
        return given
    asked = subprocess.run([LAUNCHER, "--program"], stdout=subprocess.PIPE, stderr=subprocess.DEVNULL, text=True)
    return asked.stdout.strip() or LAUNCHER


def answer(command: str, *words: str) -> str:
    """What a command writes on standard output. A refusal is passed on with its status and its line."""
    done = subprocess.run([program(), command, *words], capture_output=True, text=True)
    if done.returncode:
        raise Refused(done.returncode, done.stderr.strip().rpartition("\n")[2])
    sys.stderr.write(done.stderr)
    return done.stdout


def answer_of_text(command: str, named: Tuple[str, str], *words: str) -> str:
    """The same where the second word is a copy of a file; a refusal names the file."""
    path, shown = named
    try:
        return answer(command, path, *words)
    except Refused as fault:
        raise Refused(fault.status, str(fault).replace(f"{path}: ", f"{shown}: ", 1)) from None
