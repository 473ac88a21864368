"""x times the factor, and x less that."""

from stored import chances, limited, run, wrapped


def response(rows):
    for x, factor in rows:
        scaled = limited(x * factor, 16)
        yield [scaled, wrapped(x - scaled, 16)]


run(lambda: chances(17, 100, (-128, 127), (-128, 127)), response)
