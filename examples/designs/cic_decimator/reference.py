"""A decimator by eight: three sums of eight samples, one after another, of which each eighth is taken."""

import math
import sys


def stimulus():
    """A slow sine under a fast one at full scale."""
    return [round(64 * math.sin(2 * math.pi * t / 160) + 63 * math.sin(2 * math.pi * t * 0.37)) for t in range(400)]


def sums_of_eight(u):
    return [sum(u[max(t - 7, 0) : t + 1]) for t in range(len(u))]


def response(u):
    thrice = sums_of_eight(sums_of_eight(sums_of_eight(u)))
    return [thrice[t] if t % 8 == 0 else "-" for t in range(len(u))]


if sys.argv[1] == "stimulus":
    print(*stimulus(), sep="\n")
else:
    print(*response([int(line) for line in sys.stdin]), sep="\n")
