"""y = (b0 x + b1 x' + b2 x'' - a1 y' - a2 y''), the coefficients in units of 2 ^ -14, rounded to the nearest."""

from stored import chances, limited, run, shifted

B = (4096, 8192, 4096)
A = (-12288, 6144)


def response(rows):
    x, y = [0, 0, 0], [0, 0]
    for [now] in rows:
        x = [now, *x[:2]]
        total = sum(b * it for b, it in zip(B, x)) - sum(a * it for a, it in zip(A, y))
        y = [limited(shifted(total, 14, "Nearest"), 16), y[0]]
        yield [y[0]]


run(lambda: chances(3, 150, (-32768, 32767)), response)
