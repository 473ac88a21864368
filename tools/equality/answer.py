"""Whether a module shows a model's numbers: equal, different, or open in the time that is given."""

import math
import tempfile
from dataclasses import dataclass, field
from enum import Enum
from typing import Optional

from equality import aig, diagram, solvers
from equality.ideal import Ideal
from equality.miter import Miter, Stalls, Window
from equality.schedule import Schedule, plan_of
from equality.shown import Difference, Run
from equality.signals import Signals

# A step of a proof is all clocks of the least time after which every period begins again, where these are so few.
CLOCKS = 256
# How long a difference is looked for before a proof is, in seconds.
GLANCE = 3


class Verdict(Enum):
    EQUAL = "equal"
    DIFFERS = "differs"
    OPEN = "open"


@dataclass
class Answer:
    verdict: Verdict
    told: list[str] = field(default_factory=list)
    stimulus: list[str] = field(default_factory=list)
    gates: int = 0
    seconds: float = 0.0


class Question:
    """A model with a plan and a text, and how many seconds of a processor an answer may take."""

    def __init__(self, model: str, plan: str, text: str, seconds: float) -> None:
        self.model, self.begun, self.seconds = model, solvers.worked(), seconds
        signals = Signals(diagram.read(model))
        self.schedule = Schedule(signals, plan_of(plan))
        self.miter = Miter(Ideal(signals, self.schedule), self.schedule, text)

    def left(self) -> float:
        return max(self.begun + self.seconds - solvers.worked(), 1)

    def answer(self) -> Answer:
        with tempfile.TemporaryDirectory() as folder:
            found = self.asked(folder)
        found.seconds = solvers.worked() - self.begun
        return found

    def asked(self, folder: str) -> Answer:
        made = solvers.machine_of(self.miter.verilog(Stalls.FREE, Window.WHOLE), folder, self.left())
        if made is None:
            return Answer(Verdict.OPEN, ["Yosys wasn't done in the time"])
        machine, names = made
        tried = [f"{len(machine.gates)} gates and {machine.latches} latches"]
        stepped, told = self.stepped(machine, names)
        tried.append(told)
        shown = self.sought(machine, names, folder, min(GLANCE, self.left())) if stepped.outputs[0] else None
        if shown is None:
            if solvers.proved(stepped, folder, self.left() * 2 / 3):
                return Answer(Verdict.EQUAL, gates=len(machine.gates))
            tried.append(f"scorr, dc2 and pdr on {len(stepped.gates)} gates")
            shown = self.sought(machine, names, folder, self.left())
        if shown is None:
            return Answer(Verdict.OPEN, tried, gates=len(machine.gates))
        if not shown.by_replay:
            shown = self.plainer(folder) or shown
        return Answer(Verdict.DIFFERS, [shown.told], shown.stimulus, len(machine.gates))

    def frames(self) -> int:
        """How many rows are looked at for a difference: some samples more than the module is late."""
        return self.miter.cycles * (self.schedule.depth + 4 + 2 * max(self.miter.periods(), default=1))

    def sought(self, machine: aig.Machine, names: solvers.Names, folder: str, seconds: float) -> Optional[Difference]:
        """A difference that a run shows, and that the program shows too."""
        rows = solvers.found(aig.from_nothing(machine, names.fixed(never=0)), self.frames(), folder, seconds)
        return None if rows is None else Run(self.miter, names, rows).text(self.model, folder) or unshown(rows)

    def plainer(self, folder: str) -> Optional[Difference]:
        """One without stalls, at the first clock of a window, where there is one."""
        made = solvers.machine_of(self.miter.verilog(Stalls.NONE, Window.FIRST), folder, self.left())
        found = self.sought(*made, folder, min(GLANCE, self.left())) if made else None
        return found if found and found.by_replay else None

    def stepped(self, machine: aig.Machine, names: solvers.Names) -> tuple[aig.Machine, str]:
        """The machine by steps of whole base samples, behind its start, where it keeps its state in a stall."""
        if ("go", 0) in names.inputs and not aig.stands_still(machine, names.fixed(never=0, go=0)):
            return aig.from_nothing(machine, names.fixed(never=0)), "it doesn't keep its state in a stall"
        going = aig.from_nothing(machine, names.fixed(never=0, go=1))
        cycles, common = self.miter.cycles, math.lcm(1, *self.miter.periods())
        samples = common if common * cycles <= CLOCKS else 1
        before = -(-self.schedule.depth // samples) + (samples * cycles > 1)
        return aig.by_steps(going, samples * cycles, cycles, before), f"a step of {samples * cycles} clocks, behind {before} steps"


def unshown(rows: list[list[int]]) -> Difference:
    return Difference([], f"in row {len(rows) - 1}, and the program doesn't show it: the two readings of the model differ", False)
