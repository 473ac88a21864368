"""A PI controller whose integral takes back an eighth of what the limit cut off, one sample before."""

from stored import chances, limited, run, shifted, wrapped

KP, KI, KB = 640, 20972, 32  # 2.5 of 2 ^ -8, 0.04 of 2 ^ -19, 0.125 of 2 ^ -8
MOST = 100 << 12


def response(rows):
    integral = excess = 0
    for setpoint, measured in rows:
        error = limited(setpoint - measured, 16)
        proportional = limited(shifted(KP * error, 4, "Nearest"), 24)
        wanted = limited(proportional + integral, 24)
        drive = min(max(wanted, -MOST), MOST)
        yield [limited(shifted(drive, 6, "Nearest"), 16)]
        back = wrapped(shifted(KB * excess, 8), 24)
        step = limited(limited(shifted(KI * error, 15, "Nearest"), 24) - back, 24)
        integral = limited(integral + step, 24)
        excess = wrapped(wanted - drive, 24)


def stimulus():
    """Steps of the setpoint with a measured value that follows slowly, and then any numbers."""
    measured = 0
    for t in range(120):
        setpoint = 20 << 8 if t < 60 else -(8 << 8)
        measured += (setpoint - measured) // 12
        yield [setpoint, measured]
    yield from chances(4, 80, (-32768, 32767), (-32768, 32767))


run(stimulus, response)
