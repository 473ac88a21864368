"""Sixteen points: each two bits a level of -0.75 to 0.75, three zeros behind it, and a filter of 11 taps."""

from stored import chances, limited, run, shifted

TAPS = (-3, -7, 0, 22, 48, 59, 48, 22, 0, -7, -3)


def shaped(levels):
    """At four samples a symbol, which is sent one symbol late."""
    sent = [it for level in [0] + levels for it in (level, 0, 0, 0)][: 4 * len(levels)]
    sums = [sum(tap * sent[t - k] for k, tap in enumerate(TAPS) if t >= k) for t in range(len(sent))]
    return [limited(shifted(it, 4, "Nearest"), 12) for it in sums]


def response(rows):
    symbols = [row[0] for row in rows[::4]]
    both = [shaped([8 * (2 * (symbol >> place & 3) - 3) for symbol in symbols]) for place in (2, 0)]
    return [list(pair) for pair in zip(*both)]


def stimulus():
    symbols = chances(6, 40, (0, 15))
    return [symbols[t // 4] if t % 4 == 0 else [None] for t in range(160)]


run(stimulus, response)
