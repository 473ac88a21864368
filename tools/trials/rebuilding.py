"""The blocks that tools/import rebuilds, each against its reference: random types and parameters, all roundings."""

import os
import random
import subprocess
import sys
import tempfile
import unittest

from . import blocks, sequences
from .blocks import ROUNDINGS, Case, Rows
from .common import TOOLS, write
from .pages import program

sys.path.insert(0, TOOLS)
from importing.command import imported
from importing.report import Report

PROGRAM = program()
SAMPLES = 24


def section(name: str, *inside: str) -> str:
    return name + " {\n" + "\n".join(inside) + "\n}"


def spelled(value: object) -> str:
    return '"' + str(value).replace("\n", "\\n") + '"'


def block(kind: str, name: str, **parameters: object) -> str:
    return section("Block", f"BlockType {kind}", f"Name {spelled(name)}", *(f"{key} {spelled(value)}" for key, value in parameters.items()))


def line(source: str, target: str, port: int) -> str:
    return section("Line", f"SrcBlock {spelled(source)}", "SrcPort 1", f"DstBlock {spelled(target)}", f"DstPort {port}")


def drawn(case: Case) -> str:
    """The text of a model of the block alone, between Inports and an Outport."""
    inside = []
    for number, kind in enumerate(case.inputs, 1):
        wide = case.widths[number - 1] if case.widths else 1
        inside.append(block("Inport", f"u{number}", Port=number, OutDataTypeStr=kind.text, SampleTime=case.period, PortDimensions=wide))
    inside += [block(case.kind, "tried", **case.parameters), block("Outport", "y")]
    inside += [line(f"u{number}", "tried", number) for number in range(1, len(case.inputs) + 1)] + [line("tried", "y", 1)]
    return section("Model", 'Name "trial"', section("System", *inside)) + "\n"


def stimulus(case: Case, chance: random.Random) -> Rows:
    """Random rows, with the ends of the ranges now and then; a slow input has a number at its hits alone."""
    kinds = [kind for number, kind in enumerate(case.inputs) for _ in range(case.widths[number] if case.widths else 1)]

    def number(kind: blocks.Type) -> int:
        return chance.choice((kind.low, kind.high)) if chance.random() < 0.2 else chance.randint(kind.low, kind.high)

    every = case.slow[0] if case.slow else 1
    return [[number(kind) for kind in kinds] if t % every == 0 else [None] * len(kinds) for t in range(SAMPLES)]


def text_of(rows: Rows) -> str:
    return "".join(" ".join("-" if number is None else str(number) for number in row) + "\n" for row in rows)


def simulated(model: str, rows: Rows) -> str:
    with tempfile.TemporaryDirectory() as room:
        write(os.path.join(room, "m.mdl"), model)
        write(os.path.join(room, "m.stim"), text_of(rows))
        done = subprocess.run([PROGRAM, "simulate", "m.mdl", "m.stim"], cwd=room, capture_output=True, text=True)
    return done.stdout + done.stderr


@unittest.skipUnless(PROGRAM, "there is no proved program")
class Rebuilding(unittest.TestCase):
    def test_each_block_gives_what_its_reference_gives(self):
        for make in blocks.CASES + sequences.CASES:
            for number, rounding in enumerate(ROUNDINGS * 3):
                with self.subTest(block=make.__name__, number=number):
                    chance = random.Random(f"{make.__name__} {number}")
                    case = make(chance, rounding)
                    text, report, rows = drawn(case), Report(), stimulus(case, chance)
                    model = imported(text.encode(), "trial.mdl", {}, report)
                    self.assertIsNotNone(model, f"{report.lines(report.refused)}\n{text}")
                    self.assertEqual(simulated(model, rows), text_of(case.response(rows)), text)
