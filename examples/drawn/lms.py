"""Four weights that learn a filter by the least mean squares of the error."""

import random

from stored import limited, run, shifted

MU = 246  # 0.03, in units of 2 ^ -13


def response(rows):
    x, w = [0] * 4, [0] * 4
    for now, wanted in rows:
        x = [now, *x[:3]]
        y = limited(shifted(sum(a * b for a, b in zip(x, w)), 20, "Nearest"), 16)
        error = limited(wanted - y, 16)
        step = limited(shifted(MU * error, 9, "Nearest"), 16)
        w = [limited(b + limited(shifted(a * step, 12, "Nearest"), 24), 24) for a, b in zip(x, w)]
        yield [y, error]


def stimulus():
    """Noise, and what a filter of 0.5, -0.25, 0.125, 0.75 makes of it."""
    chance, past = random.Random(9), [0] * 4
    for _ in range(300):
        past = [chance.randint(-16384, 16383), *past[:3]]
        yield [past[0], (4 * past[0] - 2 * past[1] + past[2] + 6 * past[3]) // 8]


run(stimulus, response)
