"""The sine of a phase of 16 bits, by its upper six, one sample late."""

import math

from stored import chances, run

SINES = [round(511 * math.sin(2 * math.pi * (k + 0.5) / 64)) for k in range(64)]


def response(rows):
    phase = 0
    for [step] in rows:
        yield [SINES[phase >> 10]]
        phase = (phase + step) % 65536


run(lambda: [[1500]] * 90 + [[21845]] * 12 + chances(5, 60, (0, 65535)), response)
