"""A controller u = Kp e + Ki (the sum of e so far), whose sum stands still while the drive is at its limit
and the error would drive it further."""

import sys

KP, KI = 320, 16  # 2.5 and 0.125, in units of 2 ^ -7
LEAST, MOST = -2048, 2047


class Controller:
    def __init__(self):
        self.integral = 0

    def step(self, setpoint, measured, on):
        if not on:
            self.integral = 0
            return 0
        error = setpoint - measured
        wanted = (KP * error + self.integral + 64) >> 7
        drive = min(max(wanted, LEAST), MOST)
        if drive == wanted or (wanted > 0) != (error > 0):
            self.integral += KI * error
        return drive


def stimulus():
    """The controller before a plant of first order, which is no part of the model."""
    controller, plant, rows = Controller(), 0.0, []
    for t in range(260):
        setpoint = 1600 if 10 <= t < 100 else -900 if t < 180 and t >= 100 else 400 * (t >= 180)
        on = int(5 <= t and not 215 <= t < 230)
        rows.append((setpoint, round(plant), on))
        plant += 0.04 * (controller.step(*rows[-1]) - plant)
    return rows


def response(rows):
    controller = Controller()
    return [controller.step(*row) for row in rows]


if sys.argv[1] == "stimulus":
    for row in stimulus():
        print(*row)
else:
    print(*response([map(int, line.split()) for line in sys.stdin]), sep="\n")
