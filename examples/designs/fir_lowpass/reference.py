"""A low-pass filter by its convolution sum, rounded to even and limited to 16 bits."""

import math
import sys

# Hamming's window on the ideal low-pass at a tenth of the sample rate, in units of 2 ^ -15.
TAPS = (
    -17, 20, 73, 135, 164, 91, -129, -466,
    -783, -850, -435, 588, 2141, 3927, 5501, 6424,
    6424, 5501, 3927, 2141, 588, -435, -850, -783,
    -466, -129, 91, 164, 135, 73, 20, -17,
)  # fmt: skip


def stimulus():
    """Two sines, of which one passes, and then full-scale steps, at which the sum leaves its range."""
    sines = [0.48 * math.sin(2 * math.pi * 0.02 * t) + 0.48 * math.sin(2 * math.pi * 0.31 * t) for t in range(200)]
    steps = [0.99996 if t // 25 % 2 == 0 else -1 for t in range(100)]
    return [round(32768 * it) for it in sines + steps]


def to_even(total):
    """The nearest multiple of 2 ^ -15, of a tie the even one."""
    whole, part = divmod(total, 1 << 15)
    return whole + (part > 1 << 14 or part == 1 << 14 and whole % 2)


def response(u):
    sums = [sum(tap * u[t - k] for k, tap in enumerate(TAPS) if t >= k) for t in range(len(u))]
    return [min(max(to_even(it), -(1 << 15)), (1 << 15) - 1) for it in sums]


if sys.argv[1] == "stimulus":
    print(*stimulus(), sep="\n")
else:
    print(*response([int(line) for line in sys.stdin]), sep="\n")
