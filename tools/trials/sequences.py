"""The same of blocks that add up, filter and remember, and of those that change the rate."""

import random
from fractions import Fraction

from .blocks import Case, Rows, Type, decimal, each, link, listed, some_type, some_value


def flag(truth: bool) -> str:
    return "on" if truth else "off"


def elements(chance: random.Random, rounding: str) -> Case:
    """A Sum of one input: of its elements, or its negative."""
    u, y, saturates, wide, sign = some_type(chance, 10), some_type(chance), chance.random() < 0.5, chance.randint(1, 5), chance.choice("+-")
    parameters = {"Inputs": sign, "OutDataTypeStr": y.text, "RndMeth": rounding, "SaturateOnIntegerOverflow": flag(saturates)}
    size = 1 if sign == "+" else -1
    return Case("Sum", parameters, [u], each(lambda *row: y.take(size * sum(map(u.real, row)), rounding, saturates)), widths=[wide])


def accumulator(chance: random.Random, rounding: str) -> Case:
    """A Sum whose terms are converted to the accumulator, added there one by one, and converted again."""
    kinds, held, y = [some_type(chance, 8) for _ in range(chance.randint(2, 4))], some_type(chance, 8), some_type(chance)
    signs, saturates = [chance.choice("+-") for _ in kinds], chance.random() < 0.5
    parameters = {"Inputs": "".join(signs), "AccumDataTypeStr": held.text, "OutDataTypeStr": y.text, "RndMeth": rounding, "SaturateOnIntegerOverflow": flag(saturates)}

    def reckon(*row: int) -> int:
        kept = 0
        for sign, kind, x in zip(signs, kinds, row):
            term = held.real(held.take(kind.real(x), rounding, saturates))
            kept = held.take(held.real(kept) + (term if sign == "+" else -term), rounding, saturates)
        return y.take(held.real(kept), rounding, saturates)

    return Case("Sum", parameters, kinds, each(reckon))


def matrix(chance: random.Random, rounding: str) -> Case:
    """K u: the exact sum of the products of each row, converted once."""
    u, k, y, saturates = some_type(chance, 8), some_type(chance, 8, True), some_type(chance), chance.random() < 0.5
    high, wide = chance.randint(1, 3), chance.randint(2, 4)
    rows = [[some_value(chance, k) if chance.random() < 0.8 else Fraction(0) for _ in range(wide)] for _ in range(high)]
    rows[0][0] = k.real(1)
    text = "[" + "; ".join(" ".join(map(decimal, row)) for row in rows) + "]"
    parameters = {"Gain": text, "Multiplication": "Matrix(K*u)", "ParamDataTypeStr": k.text, "OutDataTypeStr": y.text, "RndMeth": rounding, "SaturateOnIntegerOverflow": flag(saturates)}

    def response(given: Rows) -> Rows:
        return [[y.take(sum(k.to(value) * u.real(x) for value, x in zip(row, now)), rounding, saturates) for row in rows] for now in given]

    return Case("Gain", parameters, [u], response, widths=[wide])


def fir(chance: random.Random, rounding: str) -> Case:
    """The sum of coefficients times samples, exact, or with types of its products and its accumulator."""
    u, c, y, saturates = some_type(chance, 10), some_type(chance, 10, True), some_type(chance), chance.random() < 0.5
    values = [some_value(chance, c) for _ in range(chance.randint(1, 40 if chance.random() < 0.2 else 6))]
    states = [some_value(chance, u) for _ in values[1:]] if chance.random() < 0.5 and len(values) > 2 else [some_value(chance, u)]
    product, held = (some_type(chance) if chance.random() < 0.3 else None for _ in range(2))
    parameters = {
        "Coefficients": listed(values), "CoefDataTypeStr": c.text, "InitialStates": listed(states), "OutDataTypeStr": y.text, "RndMeth": rounding, "SaturateOnIntegerOverflow": flag(saturates),
        **({"ProductDataTypeStr": product.text} if product else {}), **({"AccumDataTypeStr": held.text} if held else {}),
    }  # fmt: skip

    def response(given: Rows) -> Rows:
        past = [u.to(it) for it in (states if len(states) == len(values) - 1 else states * (len(values) - 1))]
        found = []
        for [x] in given:
            past.insert(0, u.real(x))
            terms = [c.to(value) * it for value, it in zip(values, past)]
            if product:
                terms = [product.real(product.take(it, rounding, saturates)) for it in terms]
            total = sum(terms)
            if held:
                total = Fraction(0)
                for it in terms:
                    term = held.real(held.take(it, rounding, saturates))
                    total = held.real(held.take(total + term, rounding, saturates))
            found.append([y.take(total, rounding, saturates)])
            past.pop()
        return found

    return Case("DiscreteFir", parameters, [u], response)


def integrator(chance: random.Random, rounding: str) -> Case:
    """y(n + 1) = y(n) + K T u(n), K and T being such that the coefficient holds K T."""
    u, y, saturates, limits = some_type(chance, 8, True), some_type(chance, 12, True), chance.random() < 0.5, chance.random() < 0.5
    factor, period = Fraction(chance.choice((1, 2, 3, 5)), 2), Fraction(chance.choice((1, 2)), 4)
    adds = chance.random() < 0.4
    low, high = sorted(some_value(chance, y) for _ in range(2))
    first = some_value(chance, y)
    by = factor if adds else factor * period
    parameters = {
        "IntegratorMethod": "Accumulation: Forward Euler" if adds else "Integration: Forward Euler", "gainval": decimal(factor), "SampleTime": decimal(period), "InitialCondition": decimal(first),
        "OutDataTypeStr": y.text, "RndMeth": rounding, "SaturateOnIntegerOverflow": flag(saturates), "LimitOutput": flag(limits), "LowerSaturationLimit": decimal(low), "UpperSaturationLimit": decimal(high),
    }  # fmt: skip

    def held(stored: int) -> int:
        return min(max(stored, y.take(low)), y.take(high)) if limits else stored

    def response(given: Rows) -> Rows:
        # the coefficient has as many bits as the input, and 5/2 and 15/8 need four with a sign
        assert u.bits >= 5 or by == 1
        state, found = held(y.take(first)), []
        for [x] in given:
            found.append([state])
            state = held(y.take(y.real(state) + by * u.real(x), rounding, saturates))
        return found

    if u.bits < 5:
        u = Type(True, u.bits + 3, u.frac)
    return Case("DiscreteIntegrator", parameters, [u], response, period=decimal(period))


def hold(chance: random.Random, rounding: str) -> Case:
    """A ZeroOrderHold of a slower rate, or of the same."""
    u, factor = some_type(chance), chance.choice((1, 2, 3))
    period = Fraction(1, 8000)
    return Case("ZeroOrderHold", {"SampleTime": decimal(period * factor)}, [u], lambda rows: [[row[0] if t % factor == 0 else None] for t, row in enumerate(rows)], period=decimal(period))


def transition(chance: random.Random, rounding: str) -> Case:
    """A RateTransition by a multiple: the sample at the slow hit, or that of the slow hit before."""
    u, factor, first = some_type(chance), chance.choice((2, 3)), chance.random()
    parameters = {"OutPortSampleTimeOpt": "Multiple of input port sample time"}
    if first < 0.5:
        parameters |= {"OutPortSampleTimeMultiple": factor}
        return Case("RateTransition", parameters, [u], lambda rows: [[row[0] if t % factor == 0 else None] for t, row in enumerate(rows)])
    value = some_value(chance, u)
    parameters |= {"OutPortSampleTimeMultiple": f"1/{factor}", "X0": decimal(value)}

    def response(rows: Rows) -> Rows:
        slow = [u.take(value)] + [row[0] for row in rows[::factor]]
        return [[slow[t // factor]] for t in range(len(rows))]

    return Case("RateTransition", parameters, [u], response, period=decimal(Fraction(factor, 100)), slow=[factor])


def delays(chance: random.Random, rounding: str) -> Case:
    """A Delay by some samples with an initial value for each; by none; and the linked Integer Delay."""
    u, length, linked = some_type(chance), chance.choice((0, 1, 2, 3, 4)), chance.random() < 0.4
    if linked:
        length = max(length, 1)
    firsts = [some_value(chance, u) for _ in range(length if length > 1 and not linked else 1)]

    def response(rows: Rows) -> Rows:
        before = [u.take(it) for it in (firsts if len(firsts) == length else firsts * length)]
        return [[x] for x in (before + [row[0] for row in rows])[: len(rows)]]

    if linked:
        return Case("Reference", link("simulink/Discrete", "Integer Delay", NumDelays=length, vinit=decimal(firsts[0]), samptime=-1), [u], response)
    return Case("Delay", {"DelayLength": length, "InitialCondition": listed(firsts)}, [u], response)


def tapped(chance: random.Random, rounding: str) -> Case:
    u, count, newest, current = some_type(chance), chance.randint(1, 4), chance.random() < 0.5, chance.random() < 0.5
    first = some_value(chance, u)
    parameters = link("simulink/Discrete", "Tapped Delay", NumDelays=count, vinit=decimal(first), samptime=-1, DelayOrder="Newest" if newest else "Oldest", includeCurrent=flag(current))

    def response(rows: Rows) -> Rows:
        past, found = [u.take(first)] * count, []
        for [x] in rows:
            seen = ([x] if current else []) + past
            found.append(seen if newest else seen[::-1])
            past = [x, *past[:-1]]
        return found

    return Case("Reference", parameters, [u], response)


def rates(word: str, chance: random.Random, **more: object) -> dict[str, object]:
    processing = chance.choice(("Elements as channels (sample based)", "Columns as channels (frame based)"))
    return link("dspsigops", word, InputProcessing=processing, RateOptions="Allow multirate processing", **more)


def down(chance: random.Random, rounding: str) -> Case:
    """With an offset D the first output is the initial condition, and then those of D, N + D, .. follow."""
    u, factor = some_type(chance), chance.randint(2, 4)
    offset, first = chance.randint(0, factor - 1), some_value(chance, u)

    def response(rows: Rows) -> Rows:
        kept = [row[0] for row in rows[offset::factor]]
        slow = ([u.take(first)] if offset else []) + kept
        return [[slow[t // factor] if t % factor == 0 else None] for t in range(len(rows))]

    return Case("Reference", rates("Downsample", chance, N=factor, phase=offset, ic=decimal(first)), [u], response)


def up(chance: random.Random, rounding: str) -> Case:
    """Each sample at its offset between zeros, with the initial condition as the sample before the first."""
    u, factor = some_type(chance), chance.randint(2, 4)
    offset, first = chance.randint(0, factor - 1), some_value(chance, u)

    def response(rows: Rows) -> Rows:
        slow = [u.take(first)] + [row[0] for row in rows[::factor]]
        return [[slow[t // factor] if t % factor == offset else 0] for t in range(len(rows))]

    return Case("Reference", rates("Upsample", chance, N=factor, phase=offset, ic=decimal(first)), [u], response, period=decimal(Fraction(factor, 3)), slow=[factor])


CASES = (elements, accumulator, matrix, fir, integrator, hold, transition, delays, tapped, down, up)
