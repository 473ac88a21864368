"""Sixteen points of four bits each, shaped by a root-raised-cosine filter at four samples a symbol, and
received through the same filter."""

import random
import sys

# Roll-off 0.5, over four symbols, in units of 2 ^ -14, with a sum of squares of 1.
TAPS = (
    348, 127, -615, -1285, -870, 1285, 4742, 7986, 9315,
    7986, 4742, 1285, -870, -1285, -615, 127, 348,
)  # fmt: skip


def stimulus():
    chance = random.Random(16)
    return [[chance.randint(0, 1) for _ in range(4)] if t % 4 == 0 else None for t in range(320)]


def level(sign, size):
    """-3, -1, 1 or 3, in units of a quarter (2048 of 2 ^ -13)."""
    return (3 if size else 1) * (-1 if sign else 1)


def limited(number):
    return min(max(number, -(1 << 15)), (1 << 15) - 1)


def filtered(u):
    """The convolution sum, rounded to the nearest."""
    sums = [sum(tap * u[t - k] for k, tap in enumerate(TAPS) if t >= k) for t in range(len(u))]
    return [limited((it + (1 << 13)) >> 14) for it in sums]


def rail(levels):
    """What is sent on one rail, and what is received at each fourth sample; a symbol is sent one later."""
    symbols = [2048 * it for it in levels]
    sent = [([0] + symbols)[t // 4] if t % 4 == 0 else 0 for t in range(4 * len(symbols))]
    wave = filtered(sent)
    return wave, filtered(wave)


def response(rows):
    bits = rows[::4]
    wave_i, got_i = rail([level(row[0], row[2]) for row in bits])
    wave_q, got_q = rail([level(row[1], row[3]) for row in bits])
    for t in range(len(rows)):
        yield (*((got_i[t], got_q[t]) if t % 4 == 0 else "--"), wave_i[t], wave_q[t])


if sys.argv[1] == "stimulus":
    for row in stimulus():
        print(*(row or "----"))
else:
    lines = [line.split() for line in sys.stdin]
    for row in response([[int(it) for it in line] if line[0] != "-" else None for line in lines]):
        print(*row)
