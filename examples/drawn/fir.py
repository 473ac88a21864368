"""A low pass of 15 taps: a sinc of a quarter of the rate under a Hann window, rounded to even."""

import math

from stored import chances, limited, run, shifted


def tap(n: int) -> int:
    c = n - 7
    ideal = 0.5 if c == 0 else math.sin(math.pi * c / 2) / (math.pi * c)
    exact = 2**15 * ideal * (0.5 - 0.5 * math.cos(2 * math.pi * (n + 1) / 16))
    return int(math.copysign(math.floor(abs(exact) + 0.5), exact))


TAPS = [tap(n) for n in range(15)]


def response(rows):
    x = [row[0] for row in rows]
    for t in range(len(x)):
        total = sum(TAPS[k] * x[t - k] for k in range(15) if t >= k)
        yield [limited(shifted(total, 15, "Convergent"), 16)]


run(lambda: chances(1, 120, (-32768, 32767)), response)
