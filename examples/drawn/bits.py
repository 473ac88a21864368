"""Bits of a number of 16 bits, 8 of them behind the point, and that number 1 more and a step less."""

from stored import chances, run, wrapped


def response(rows):
    for [u] in rows:
        yield [u >> 8 & 255, u & 255, u >> 4 & 255, wrapped(u + 256, 16), wrapped(u - 1, 16)]


run(lambda: chances(18, 100, (-32768, 32767)), response)
