"""Sums with an accumulator's type whose steps may give other bits than the usual tool's.

Here a step takes an input as it is and converts what comes out; the usual tool converts each input to the
accumulator first (docs/DECISIONS.md). Both give the same where the accumulator has all that the input has, and
where what it lacks is cut off alike before and behind a sum.
"""

from typing import Iterator, Optional

from equality import diagram
from equality.diagram import INTERNAL, signs
from equality.signals import Signals
from equality.values import Type
from mdl import Defaults, Section, shown, step_of
from refused import places
from written import Failed

# Roundings that give the same behind a sum with what has no bits that are cut off.
STEADY = {"+": ("Floor", "Ceiling", "Nearest"), "-": ()}
HOLDS = "a step takes an input as it is, where the usual tool converts it to the accumulator first"


def lacking(of: Type, accumulator: Type, sign: str, rounding: str, saturates: bool) -> Optional[str]:
    """What an input has that the accumulator lacks, where that may change bits."""
    if accumulator.boolean:
        return "other values than 0 and 1" if not of.boolean else None
    if of.frac > accumulator.frac and rounding not in STEADY[sign]:
        return "bits behind the point"
    down = max(of.frac - accumulator.frac, 0)
    up = max(accumulator.frac - of.frac, 0)
    if saturates and not accumulator.low << down <= of.low << up <= of.high << up <= accumulator.high << down:
        return "a range"
    return None


def signals_of(path: str) -> Optional[Signals]:
    """What stands at the blocks' outputs, where the model is whole."""
    try:
        return Signals(diagram.read(path))
    except (Failed, KeyError, ValueError, IndexError, AttributeError, RecursionError):
        return None


def differing(signals: Signals) -> dict[str, str]:
    """By path what is told of each Sum whose bits may differ."""
    found = {}
    for block in (it for it in signals.blocks if it.kind == "Sum"):
        accumulator = signals.accumulator(block)
        if accumulator is None:
            continue
        saturates = block.get("SaturateOnIntegerOverflow") == "on"
        for at, (negative, of) in enumerate(zip(signs(block), signals.inputs(block)), 1):
            what = lacking(of, accumulator, "-" if negative else "+", block.get("RndMeth"), saturates)
            if what:
                found[block.path] = f"{HOLDS}, and input {at} has {what} that it lacks"
                break
    return found


def declared(root: Section) -> Iterator[tuple[str, str, int]]:
    """The path of each Sum with an accumulator's type, with the type and its line."""
    defaults = Defaults(root)
    for place in places(root):
        for block in (it for it in place.system.all("Block") if it.get("BlockType") == "Sum"):
            value = defaults.of(block, "AccumDataTypeStr")
            if value and value[0] != INTERNAL:
                yield place.path + step_of(block), *value


def told(path: str, root: Section) -> list[tuple[int, str]]:
    """Each such Sum by the line of its type; of a model that isn't whole, each that has an accumulator."""
    sums = list(declared(root))
    signals = signals_of(path) if sums else None
    known = differing(signals) if signals else {where: HOLDS for where, *_ in sums}
    return [(line, f"{shown(where)}: AccumDataTypeStr {shown(value)}: {known[where]}") for where, value, line in sums if where in known]
