"""Heats below 19.75 degrees, and from then on until 21.25; frost is 0 degrees and below."""

from stored import chances, run


def response(rows):
    heat = False
    for [temperature] in rows:
        heat = temperature < 19.75 * 16 or (heat and not temperature >= 21.25 * 16)
        yield [int(heat), int(temperature <= 0)]


def stimulus():
    for t in range(120):
        yield [300 + abs(t % 60 - 30) * 2]
    yield from chances(11, 60, (-40, 400))


run(stimulus, response)
