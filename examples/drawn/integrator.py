"""A position that a rate moves, between -20.5 and 20; a number for its zone; a sum that wraps at 8 bits."""

from stored import chances, run, shifted, wrapped

STEP = 20972  # 0.02, in units of 2 ^ -20
ZONES = ((-5 << 12, -1), (0, 0), (11 << 11, 3), (15 << 12, 1))


def zone(position: int) -> int:
    return next((value for end, value in ZONES if position < end), -2)


def response(rows):
    position = 12 << 12
    for [rate] in rows:
        value = zone(position)
        yield [position, value, wrapped(wrapped(value + 100, 8) + value, 8)]
        moved = wrapped(shifted((position << 16) + STEP * rate, 16, "Nearest"), 24)
        position = min(max(moved, -41 << 11), 20 << 12)


def stimulus():
    yield from [[-6000]] * 80 + [[5000]] * 140
    yield from chances(20, 80, (-32768, 32767))


run(stimulus, response)
