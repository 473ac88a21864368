"""The mean of the last eight samples, ties away from 0."""

from stored import chances, run, shifted


def response(rows):
    x = [row[0] for row in rows]
    for t in range(len(x)):
        yield [shifted(sum(x[max(t - 7, 0) : t + 1]), 3, "Round")]


run(lambda: chances(7, 100, (-32768, 32767)) + [[-4]] * 9 + [[4]] * 9, response)
