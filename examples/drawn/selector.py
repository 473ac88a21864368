"""Mode 1 gives a, 4 gives b, 9 gives a + 100 at most 127, and any other -1."""

from stored import chances, run


def response(rows):
    for mode, a, b in rows:
        yield [{1: a, 4: b, 9: min(a + 100, 127)}.get(mode, -1), -1]


run(lambda: chances(16, 150, (0, 10), (-128, 127), (-128, 127)) + [[255, 5, 6]], response)
