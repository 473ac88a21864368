"""A numerically controlled oscillator: the sine of a phase that each sample moves by a step, in sixteenths
of a quarter turn."""

import math
import sys

# The sine in the middle of each sixteenth of the first quarter turn.
SINES = [round(32767 * math.sin((k + 0.5) * math.pi / 32)) for k in range(16)]


def stimulus():
    """A step of 0.04 of a turn (in units of 2 ^ -16), and then one of 0.15."""
    return [2621] * 256 + [9830] * 256


def sine(phase):
    """Of a phase of 16 bits: the sign by its half, forwards or backwards by its quarter."""
    half, quarter, place = phase >> 15, phase >> 14 & 1, phase >> 10 & 15
    found = SINES[15 - place if quarter else place]
    return -found if half else found


def response(steps):
    return [sine(sum(steps[: t + 1]) % (1 << 16)) for t in range(len(steps))]


if sys.argv[1] == "stimulus":
    print(*stimulus(), sep="\n")
else:
    print(*response([int(line) for line in sys.stdin]), sep="\n")
