"""Three phases as two axes: 2/3 (a - b/2 - c/2) and (b - c) / sqrt(3), coefficients of 2 ^ -15, cut toward 0."""

import math

from stored import chances, run, shifted, wrapped

K = [[round(2**15 * it) for it in line] for line in ((2 / 3, -1 / 3, -1 / 3), (0, 1 / math.sqrt(3), -1 / math.sqrt(3)))]


def response(rows):
    for row in rows:
        yield [wrapped(shifted(sum(k * it for k, it in zip(line, row)), 12, "Zero"), 16) for line in K]


def stimulus():
    for t in range(60):
        yield [round(1800 * math.cos(2 * math.pi * (t / 50 - phase / 3))) for phase in range(3)]
    yield from chances(8, 60, (-2048, 2047), (-2048, 2047), (-2048, 2047))


run(stimulus, response)
