"""Rebuilds of blocks of time: holds, rates, chains of delays."""

from fractions import Fraction

from .fixed import FixType, narrowest
from .group import Group, Rebuild, Source
from .profile import EACH
from .report import NotYet, Refusal
from .settings import INFINITE, listed, told
from .structure import join

MULTIPLE = "Multiple of input port sample time"
FRAMES = "Columns as channels (frame based)"
MULTIRATE = "Allow multirate processing"
LONGEST = 1024


def finite(it: Rebuild) -> Fraction:
    """The period of the input, which changes."""
    found = it.signals.period_in(it.block)
    if found == INFINITE:
        raise Refusal("an input that never changes", "give the Constant a sample time")
    return found


def hold(it: Rebuild) -> None:
    """A ZeroOrderHold: nothing where the input is as slow, a RateTransition where it is faster."""
    own = it.period()
    if own == "-1":
        join(it.block.above, it.block)
        it.tell("ZeroOrderHold: of its input's sample time; its input goes on to its readers")
        return
    driver = it.signals.period_in(it.block)
    if own == driver:
        join(it.block.above, it.block)
        it.tell("ZeroOrderHold: its input has this sample time already, and goes on to its readers")
    elif driver == INFINITE or (own / driver).denominator == 1:
        transit(it, own, "0")
        it.tell(f"ZeroOrderHold: a RateTransition to the sample time {told(own)}")
    else:
        raise Refusal("an input that is slower than the hold", "a RateTransition, which gives the input one slow sample later", "SampleTime", told(own))


def transit(it: Rebuild, period: Fraction, initial: str) -> None:
    it.block.kind = "RateTransition"
    it.block.parameters = {"OutPortSampleTime": period, "Deterministic": "on", "InitialCondition": initial}
    it.block.settled = True


def rate_transition(it: Rebuild) -> None:
    """Finds the output's period by a multiple of the input's, or by what reads it."""
    if it.block.parameters["OutPortSampleTime"] == MULTIPLE:
        factor = it.number("OutPortSampleTimeMultiple", "1")
        period = finite(it) * factor
        it.tell(f"RateTransition: {told(factor)} times the input's sample time is {told(period)}")
    else:
        period = readers_period(it)
        it.tell(f"RateTransition: the sample time {told(period)} is that of what reads it")
    it.block.parameters["OutPortSampleTime"] = period
    it.block.settled = True


def readers_period(it: Rebuild) -> Fraction:
    """The one period that all readers have by themselves."""
    found = set()
    for edge in it.block.above.readers(it.block):
        said = it.signals.periods.get(id(edge.target))
        if not isinstance(said, Fraction):
            raise NotYet(f"the sample time of {edge.target.path}, which reads it, isn't known")
        found.add(said)
    if len(found) != 1:
        raise NotYet("no one sample time is that of what reads it")
    return found.pop()


def delayed(it: Rebuild) -> None:
    """A Delay of no sample, or of several initial values for one element."""
    length, initial = int(it.block.parameters["DelayLength"]), it.numbers("InitialCondition", "0")
    if length == 0:
        join(it.block.above, it.block)
        it.tell("Delay: of no sample; its input goes on to its readers")
        return
    if len(initial) == 1 or it.width() == len(initial):
        it.block.settled = True
        return
    if it.width() != 1 or len(initial) != length:
        raise Refusal(f"{len(initial)} initial values for {length} samples of {it.width()} elements", "one, or one for each sample of one element", "InitialCondition", listed(initial))
    group = it.group(1, it.block.parameters["SampleTime"])
    here = group.inputs[0]
    for number, value in enumerate(reversed(initial), 1):
        here = group.put("UnitDelay", f"d{number}", here, InitialCondition=listed([value]))
    group.close(here)
    it.tell(f"Delay: {length} UnitDelays in a chain, each with its initial value; the first value comes out first")


def integer_delay(it: Rebuild) -> None:
    it.block.parameters = {"DelayLength": str(it.whole("NumDelays", "4", 1, LONGEST)), "InitialCondition": listed(it.numbers("vinit", "0.0")), "SampleTime": it.period("samptime")}
    it.block.kind, it.block.settled = "Delay", True
    it.tell(f"Integer Delay: a Delay by {it.block.parameters['DelayLength']}")


def tapped_delay(it: Rebuild) -> None:
    """A chain of UnitDelays, and a Mux of all, the oldest or the newest first."""
    count, initial = it.whole("NumDelays", "4", 1, LONGEST - 1), it.number("vinit", "0.0")
    newest = it.choice("DelayOrder", ("Oldest", "Newest"), "Oldest") == "Newest"
    current = it.settings.flag(it.block, "includeCurrent") == "on"
    if it.width() != 1:
        raise Refusal("an input of several elements", "a Demux, and a Tapped Delay for each", "NumDelays", str(count))
    group = it.group(1, it.period("samptime"))
    taps = [group.inputs[0]]
    for number in range(1, count + 1):
        taps.append(group.put("UnitDelay", f"d{number}", taps[-1], InitialCondition=listed([initial])))
    shown = taps if current else taps[1:]
    ordered = shown if newest else shown[::-1]
    group.close(group.put("Mux", "taps", *ordered, Inputs=len(ordered)))
    it.tell(f"Tapped Delay: {count} UnitDelays, and a Mux of {len(ordered)}, the {'newest' if newest else 'oldest'} first")


def multirate(it: Rebuild) -> tuple[int, int, Fraction]:
    """The factor, the offset and the initial value of a Downsample or Upsample over two rates."""
    factor = it.whole("N", "2", 1, 4096)
    offset = it.whole("phase", "0", 0, factor - 1)
    it.choice("RateOptions", (MULTIRATE,), MULTIRATE, MULTIRATE)
    if it.choice("InputProcessing", (EACH, FRAMES), EACH) == FRAMES and it.width() != 1:
        raise Refusal("a frame of several samples", EACH, "InputProcessing", FRAMES)
    return factor, offset, it.number("ic", "0")


def downsampled(it: Rebuild) -> None:
    """Every N-th sample. With an offset D the sample of D behind shows one slow sample later, first `ic`."""
    factor, offset, initial = multirate(it)
    period = finite(it)
    group = it.group(1, "-1")
    here = group.inputs[0]
    if offset:
        here = group.put("Delay", "offset", here, DelayLength=factor - offset, InitialCondition=listed([initial]))
    group.close(group.put("RateTransition", "slow", here, OutPortSampleTime=period * factor))
    it.tell(f"Downsample: a RateTransition to the sample time {told(period * factor)}" + (f", behind a Delay by {factor - offset} that starts at {listed([initial])}" if offset else ", without a delay"))


def upsampled(it: Rebuild) -> None:
    """Each sample, and N - 1 times 0 behind it; one slow sample later, as a RateTransition to a faster rate is."""
    factor, offset, initial = multirate(it)
    period, kind = finite(it) / factor, it.input_type()
    if factor == 1:
        raise Refusal("a factor of 1", "take the block away", "N", "1")
    group = it.group(1, "-1")
    fast = group.put("RateTransition", "fast", group.inputs[0], OutPortSampleTime=period, InitialCondition=listed([initial]))
    count = counted(group, factor, period)
    here = group.put("RelationalOperator", "here", count, group.constant("offset", [Fraction(offset)], bits_for(factor)), Operator="==")
    zero = group.constant("zero", [Fraction(0)], kind)
    group.close(group.put("Switch", "sample", fast, here, zero, Criteria="u2 ~= 0", OutDataTypeStr=kind))
    it.tell(f"Upsample: a RateTransition to the sample time {told(period)}, {factor - 1} zeros behind each sample; the numbers come one slow sample later, first {listed([initial])}")


def bits_for(count: int) -> FixType:
    """The narrowest type that holds 0 to count - 1."""
    return narrowest(0, count - 1, 0)


def counted(group: Group, count: int, period: Fraction) -> Source:
    """A counter from 0 to count - 1, again and again."""
    kind = bits_for(count)
    state = group.put("UnitDelay", "count", SampleTime=period)
    one, zero = group.constant("one", [Fraction(1)], kind), group.constant("first", [Fraction(0)], kind)
    more = group.put("Sum", "next", state, one, OutDataTypeStr=kind)
    last = group.put("RelationalOperator", "is last", state, group.constant("last", [Fraction(count - 1)], kind), Operator="==")
    group.join(group.put("Switch", "around", zero, last, more, Criteria="u2 ~= 0", OutDataTypeStr=kind), state)
    return state
