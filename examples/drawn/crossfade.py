"""A mix of two inputs by a position, rounded to even, and the sum of the last two mixes before it."""

from stored import chances, delayed, limited, run, shifted


def response(rows):
    mixes = [limited(shifted(a * (256 - position) + b * position, 8, "Convergent"), 16) for a, b, position in rows]
    echoes = [a + b for a, b in zip(delayed(mixes), delayed(mixes, 2))]
    return [list(pair) for pair in zip(mixes, echoes)]


run(lambda: chances(19, 120, (-32768, 32767), (-32768, 32767), (0, 255)), response)
