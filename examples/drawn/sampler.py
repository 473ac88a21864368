"""Half of each eighth sample, which comes back one slow sample later, and of each second one the sum with
another input."""

from stored import chances, limited, run, wrapped


def response(rows):
    fast = [row[0] for row in rows]
    halves = [7] + [fast[t] >> 1 for t in range(0, len(fast), 8)]
    for t, (now, other) in enumerate(rows):
        yield [limited(halves[t // 8] + now, 16), wrapped(now + other, 16) if t % 2 == 0 else None]


def stimulus():
    return [[a, b if t % 2 == 0 else None] for t, (a, b) in enumerate(chances(15, 100, (-32768, 32767), (-32768, 32767)))]


run(stimulus, response)
