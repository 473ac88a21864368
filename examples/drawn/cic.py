"""A CIC decimator by 8 of two stages: sums that wrap at 14 bits, differences at the slow rate, and 1/64 of it."""

from itertools import accumulate

from stored import chances, limited, run, shifted, wrapped

RATE, BITS = 8, 14


def differences(numbers):
    return [wrapped(now - before, BITS) for now, before in zip(numbers, [0] + numbers)]


def response(rows):
    numbers = [row[0] for row in rows]
    for _ in range(2):
        numbers = [wrapped(total, BITS) for total in accumulate(numbers)]
    slow = differences(differences(numbers[::RATE]))
    for t in range(len(rows)):
        yield [limited(shifted(slow[t // RATE], 6, "Nearest"), 8) if t % RATE == 0 else None]


run(lambda: chances(2, 240, (-128, 127)), response)
