"""Three zeros behind each sample, and a filter that draws a straight line from one to the next."""

from stored import chances, limited, run, shifted

TAPS = (256, 512, 768, 1024, 768, 512, 256)  # of 2 ^ -10


def response(rows):
    samples = [0] + [row[0] for row in rows[::4]]
    sent = [it for sample in samples for it in (sample, 0, 0, 0)][: len(rows)]
    for t in range(len(rows)):
        total = sum(tap * sent[t - k] for k, tap in enumerate(TAPS) if t >= k)
        yield [limited(shifted(total, 9, "Nearest"), 14)]


def stimulus():
    samples = chances(10, 40, (-2048, 2047))
    return [samples[t // 4] if t % 4 == 0 else [None] for t in range(160)]


run(stimulus, response)
