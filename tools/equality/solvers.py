"""Yosys, which makes a machine of a miter, and ABC, which proves that its first output stays 0 or finds where it doesn't."""

import os
import re
import resource
import shutil
import signal
import subprocess
import time
from dataclasses import dataclass
from typing import Optional

from equality import aig
from equality.cells import Design
from written import Failed

ABC = ("berkeley-abc", "yosys-abc")
# How a command ends that has had its seconds, and by how much longer it may wait for a processor.
OUT_OF_TIME, WAITED = (-signal.SIGXCPU, -signal.SIGKILL), 20
STEPS = "read_verilog miter.v; hierarchy -top fx_miter; proc; flatten; write_json miter.json"
PROOF = "read_aiger {name}; strash; scorr; cone -s -O 0; scorr; dc2; scorr; print_stats; pdr -T {seconds}; print_status"
SEARCH = "read_aiger {name}; cone -s -a -O 0; bmc3 -F {frames} -T {seconds}; print_status; write_cex -a {cex}"


def abc() -> Optional[str]:
    """The command of ABC that is installed."""
    return next((word for word in ABC if shutil.which(word)), None)


def missing() -> list[str]:
    """What is wanted and not installed."""
    return [word for word in ("yosys",) if shutil.which(word) is None] + ([] if abc() else [" or ".join(ABC)])


def worked() -> float:
    """The seconds of a processor that this process and those that it ran have had."""
    others = resource.getrusage(resource.RUSAGE_CHILDREN)
    return time.process_time() + others.ru_utime + others.ru_stime


def ran(words: list[str], folder: str, seconds: float) -> str:
    """What a command says; nothing where it isn't done in so many seconds of a processor."""
    limit = max(round(seconds), 1)
    try:
        bounded = ["sh", "-c", 'ulimit -t "$0" && exec "$@"', str(limit), *words]
        done = subprocess.run(bounded, cwd=folder, capture_output=True, text=True, timeout=limit * WAITED)
    except subprocess.TimeoutExpired:
        return ""
    if done.returncode in OUT_OF_TIME:
        return ""
    if done.returncode:
        raise Failed(f"{words[0]} failed:\n{done.stdout}{done.stderr}")
    return re.sub(r"\x1b\[[0-9;]*m", "", done.stdout)


@dataclass
class Names:
    """The inputs of a machine by name and bit."""

    inputs: dict[tuple[str, int], int]

    def fixed(self, **numbers: int) -> dict[int, int]:
        """The inputs of these names that are there, with their numbers."""
        return {self.inputs[name, 0]: number for name, number in numbers.items() if (name, 0) in self.inputs}


def machine_of(verilog: str, folder: str, seconds: float) -> Optional[tuple[aig.Machine, Names]]:
    """The machine of a miter, or None where it isn't made in time."""
    with open(os.path.join(folder, "miter.v"), "w") as file:
        file.write(verilog)
    target = os.path.join(folder, "miter.json")
    ran(["yosys", "-q", "-p", STEPS], folder, seconds)
    if not os.path.exists(target):
        return None
    with open(target) as file:
        design = Design(file.read(), "fx_miter")
    design.machine.outputs = design.output("bad") + design.output("remembered")
    return design.machine, Names(design.inputs)


def proved(machine: aig.Machine, folder: str, seconds: float) -> bool:
    """Whether the first output is proved to stay 0, in time."""
    return machine.outputs[0] == 0 or "Status = 1" in asked(machine, folder, PROOF, seconds)


def found(machine: aig.Machine, frames: int, folder: str, seconds: float) -> Optional[list[list[int]]]:
    """The inputs, row by row, that make the first output 1 in the last row, where such are found in time."""
    cex = os.path.join(folder, "cex")
    if os.path.exists(cex):
        os.remove(cex)
    if "Status = 0" not in asked(machine, folder, SEARCH, seconds, frames=frames):
        return None
    with open(cex) as file:
        # the state before the first row stands in the first line
        rows = file.read().partition("#")[0].splitlines()[1:]
    return [[int(bit) for bit in row] for row in rows if row]


def asked(machine: aig.Machine, folder: str, script: str, seconds: float, **words: int) -> str:
    with open(os.path.join(folder, "asked.aig"), "wb") as file:
        file.write(machine.written())
    # ABC counts seconds of the clock, and has those of a processor from outside
    steps = script.format(name="asked.aig", cex="cex", seconds=max(round(seconds), 1) * WAITED, **words)
    return ran([abc(), "-q", steps], folder, seconds)
