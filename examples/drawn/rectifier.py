"""0.4 |u| less the sign of u; |u| stays below the limit, and 0.4 of it is cut toward 0."""

from stored import chances, limited, run, shifted


def response(rows):
    for [u] in rows:
        sign = (u > 0) - (u < 0)
        half = limited(shifted(102 * limited(abs(u), 12), 4, "Zero"), 16)
        yield [half - (sign << 10), sign << 6]


run(lambda: [[-2048], [2047], [0], [1], [-1]] + chances(12, 100, (-2048, 2047)), response)
