"""The mean of the last sixteen inputs, rounded to the nearest, ties away from zero."""

import random
import sys


def stimulus():
    chance = random.Random(7)
    return [8000 * (40 <= t < 120) - 6000 * (t >= 160) + chance.randint(-1500, 1500) for t in range(200)]


def away_from_zero(total):
    """A sixteenth."""
    return (abs(total) + 8) // 16 * (1 if total >= 0 else -1)


def response(u):
    return [away_from_zero(sum(u[max(t - 15, 0) : t + 1])) for t in range(len(u))]


if sys.argv[1] == "stimulus":
    print(*stimulus(), sep="\n")
else:
    print(*response([int(line) for line in sys.stdin]), sep="\n")
