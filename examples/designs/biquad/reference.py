"""A second-order section in direct form I, rounded to the nearest and limited to 16 bits."""

import math
import sys

# Butterworth's low-pass at a tenth of the sample rate, in units of 2 ^ -14.
B = (1106, 2211, 1106)
A = (-18727, 6763)


def stimulus():
    """A step, and then a sine that grows faster and faster."""
    step = [0] * 10 + [20000] * 60
    sweep = [18000 * math.sin(math.pi * 0.0016 * t * t) for t in range(230)]
    return [round(it) for it in step + sweep]


def response(u):
    """y(t) = b0 u(t) + b1 u(t-1) + b2 u(t-2) - a1 y(t-1) - a2 y(t-2)"""
    y = []
    for t in range(len(u)):
        forward = sum(b * u[t - k] for k, b in enumerate(B) if t >= k)
        back = sum(a * y[t - k] for k, a in enumerate(A, 1) if t >= k)
        nearest = (forward - back + (1 << 13)) >> 14
        y.append(min(max(nearest, -(1 << 15)), (1 << 15) - 1))
    return y


if sys.argv[1] == "stimulus":
    print(*stimulus(), sep="\n")
else:
    print(*response([int(line) for line in sys.stdin]), sep="\n")
