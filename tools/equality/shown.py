"""What a stimulus shows: the module by `replay`, row by row, and the model by `simulate`."""

import os
import re
import subprocess
from dataclasses import dataclass
from typing import Optional

from equality.miter import Column, Miter, without_comments
from equality.solvers import Names
from program import program as answering
from written import Failed

Row = list[int]


@dataclass
class Difference:
    """A stimulus, with what it shows; `stalls` are the rows in which the clock stands still, of all rows."""

    stimulus: list[str]
    told: str
    by_replay: bool


def program(folder: str, command: str, *files: tuple[str, str]) -> str:
    """What the program answers of texts, each with a name."""
    for name, text in files:
        with open(os.path.join(folder, name), "w") as file:
            file.write(text)
    words = [answering(), command, *(os.path.join(folder, name) for name, _ in files)]
    done = subprocess.run(words, capture_output=True, text=True)
    if done.returncode:
        raise Failed(f"{command}: status {done.returncode}, {done.stderr.strip()}")
    return done.stdout


def by_rows(text: str) -> str:
    """The text as a module of which each row is a clock and `clk_enable` an input like others."""
    text = without_comments(text)
    text = re.sub(r"\bfx_cycles = \d+", "fx_cycles = 1", text)
    text = re.sub(r"\bfx_period = \d+", "fx_period = 1", text)
    text = re.sub(r"\bfx_latency = \d+", "fx_latency = 0", text)
    text = text.replace("input wire clk_enable", "(* fx_period = 1 *) input wire clk_enable")
    text = text.replace("output wire ce_out", "(* fx_period = 1, fx_latency = 0 *) output wire ce_out")
    return re.sub(r"\bclk_enable\b", "clk_goes", re.sub(r"\bce_out\b", "went", text))


class Run:
    """Rows of a miter's inputs, as numbers of the ports."""

    def __init__(self, miter: Miter, names: Names, rows: list[list[int]]) -> None:
        self.miter, self.names = miter, names
        go = names.inputs.get(("go", 0))
        self.goes = [go is None or bool(row[go]) for row in rows]
        self.driven: list[Row] = []
        held, clock = [0] * len(miter.inputs), 0
        for row, goes in zip(rows, self.goes):
            free = [self.number(row, at, column) for at, column in enumerate(miter.inputs)]
            shown = [free[at] if not goes or self.begins(column, clock) else held[at] for at, column in enumerate(miter.inputs)]
            self.driven.append(shown)
            held, clock = (shown, clock + 1) if goes else (held, clock)

    def number(self, row: list[int], at: int, column: Column) -> int:
        bits = sum(row[self.names.inputs[f"free_u{at}", bit]] << bit for bit in range(column.port.width) if (f"free_u{at}", bit) in self.names.inputs)
        return bits - (1 << column.port.width) if column.port.signed and bits >> (column.port.width - 1) else bits

    def begins(self, column: Column, clock: int) -> bool:
        return clock % (self.miter.cycles * column.port.period) == 0

    def stimulus(self) -> list[str]:
        """The lines of the base samples."""
        clocks = [row for row, goes in zip(self.driven, self.goes) if goes]
        samples = clocks[:: self.miter.cycles]
        return [
            " ".join(str(number) if at % column.port.period == 0 else "-" for number, column in zip(row, self.miter.inputs))
            for at, row in enumerate(samples)
        ]

    def text(self, model: str, folder: str) -> Optional[Difference]:
        """The difference that these rows show, if they do."""
        stimulus = "".join(f"{line}\n" for line in self.stimulus())
        with open(model, encoding="latin-1") as file:
            own = file.read()
        wanted = program(folder, "simulate", ("model", own), ("stimulus", stimulus)).splitlines()
        shown = program(folder, "replay", ("text", self.miter.text), ("stimulus", stimulus)).splitlines()
        for at, (line, other) in enumerate(zip(wanted, shown)):
            if line != other:
                return Difference(self.stimulus(), f"in line {at + 1} `simulate` has {line}, and `replay` {other}", True)
        return self.in_rows([line.split() for line in wanted], folder)

    def in_rows(self, wanted: list[list[str]], folder: str) -> Optional[Difference]:
        """The difference in a row between the first clocks of windows, or in a run that stands still at times."""
        rows = [([int(goes)] if self.miter.controls else []) + row for row, goes in zip(self.driven, self.goes)]
        lines = "".join(" ".join(map(str, row)) + "\n" for row in rows)
        shown = [line.split() for line in program(folder, "replay", ("rows", by_rows(self.miter.text)), ("row stimulus", lines)).splitlines()]
        still = [str(row) for row, going in enumerate(self.goes) if not going]
        stood = f"; the clock stands still in rows {' '.join(still)}" if still else ""
        clock = 0
        for at, goes in enumerate(self.goes):
            if self.miter.controls and int(shown[at][0]) != goes:
                # before the first clock any sample will do
                sample = self.stimulus() or [" ".join("0" * len(self.miter.inputs))]
                return Difference(sample, f"ce_out shows {shown[at][0]} in row {at} behind the reset{stood}", False)
            for place, column in enumerate(self.miter.outputs):
                hit = self.due(column, clock)
                # `ce_out` stands before the outputs
                other = shown[at][place + bool(self.miter.controls)]
                if goes and hit is not None and hit < len(wanted) and wanted[hit][place] != other:
                    told = f"{column.port.name} shows {other} in row {at} behind the reset, and hit {hit} is {wanted[hit][place]}"
                    return Difference(self.stimulus(), told + stood, False)
            clock += goes
        return None

    def due(self, column: Column, clock: int) -> Optional[int]:
        """The hit whose number an output shows at a clock."""
        cycles, period, late = self.miter.cycles, column.port.period, self.miter.late(column)
        since = clock - column.port.latency
        first = (clock - late * cycles) // (period * cycles) * period
        return first if since >= 0 and first >= 0 and clock >= first * cycles + column.port.latency else None
