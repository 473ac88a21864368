"""Which step rebuilds which block, and the passes in which types and periods become known."""

from collections.abc import Callable

import mdl

from . import choosing, reckoning, timing
from .group import Rebuild
from .inheriting import back_propagated
from .model import Block, Model
from .profile import ELEMENTS, TABLE, settle
from .report import NotYet, Refusal, Report
from .settings import BACK, INTERNAL, Settings
from .signals import Signals
from .structure import library_name

Step = Callable[[Rebuild], None]
STEPS: dict[str, Step] = {
    "Saturate": choosing.saturate, "Abs": choosing.absolute, "MinMax": choosing.extreme, "Signum": choosing.signum,
    "MultiPortSwitch": choosing.multiport_switch, "Lookup_n-D": choosing.lookup, "Lookup": choosing.old_lookup,
    "LookupNDDirect": choosing.direct_lookup, "Bias": reckoning.biased, "DiscreteFir": reckoning.filtered,
    "DiscreteIntegrator": reckoning.integrated, "ZeroOrderHold": timing.hold,
}  # fmt: skip
LINKS: dict[str, Step] = {
    "Compare To Constant": choosing.compare_to_constant, "Compare To Zero": choosing.compare_to_zero,
    "Bit Slice": reckoning.bit_slice, "Extract Bits": reckoning.extract_bits, "Bias": reckoning.biased,
    "Tapped Delay": timing.tapped_delay, "Integer Delay": timing.integer_delay,
    "Downsample": timing.downsampled, "Upsample": timing.upsampled,
    "Increment Real World": reckoning.stepped(False, True), "Decrement Real World": reckoning.stepped(False, False),
    "Increment Stored Integer": reckoning.stepped(True, True), "Decrement Stored Integer": reckoning.stepped(True, False),
}  # fmt: skip
SOURCES = "replace it by an Inport, and put its numbers into the stimulus"
REMEDIES = {
    "SignalGenerator": SOURCES, "Sin": SOURCES, "Step": SOURCES, "DiscretePulseGenerator": SOURCES, "RandomNumber": SOURCES,
    "UniformRandomNumber": SOURCES, "FromWorkspace": SOURCES, "FromFile": SOURCES, "Clock": SOURCES, "DigitalClock": SOURCES,
    "S-Function": "draw what it does of blocks of the profile", "ModelReference": "copy the model's blocks into a SubSystem",
    "Memory": "a UnitDelay", "Fcn": "draw it of Sum, Gain and Product", "Math": "draw it of Product and Gain",
    "Trigonometry": "a table without interpolation", "Sqrt": "a table without interpolation", "Selector": "Demux and Mux",
    "BusCreator": "a Mux, or single lines", "BusSelector": "a Demux, or single lines", "TriggerPort": "an EnablePort",
    "InportShadow": "the Inport itself", "ActionPort": "an EnablePort", "TransferFcn": "a discrete filter", "Integrator": "a DiscreteIntegrator",
    "DiscreteTransferFcn": "draw it of UnitDelay, Gain and Sum", "DiscreteFilter": "draw it of UnitDelay, Gain and Sum",
}  # fmt: skip
# Parameters whose defaults differ among releases.
OF_RELEASE = ("Criteria", "SaturateOnIntegerOverflow", "Operator")
CHOSEN_HERE = ("Commented", "VectorParams1D", "CollapseMode", "InputProcessing")


def of_profile(block: Block) -> Step | None:
    """The step for a block of the profile that can't stand as it is."""
    said = block.parameters
    if block.kind == "Sum" and (len(str(said["Inputs"])) == 1 or (block.given.get("AccumDataTypeStr") or INTERNAL) != INTERNAL):
        return reckoning.total
    if block.kind == "Gain" and block.given.get("Multiplication", ELEMENTS) != ELEMENTS:
        return reckoning.matrix_gain
    if block.kind == "RateTransition" and isinstance(said["OutPortSampleTime"], str):
        return timing.rate_transition
    if block.kind == "Delay" and (said["DelayLength"] == "0" or str(said["InitialCondition"]).startswith("[")):
        return timing.delayed
    return back_propagated if said.get("OutDataTypeStr") == BACK else None


def passed_over(block: Block) -> list[Refusal]:
    """What a block says and the profile would pass over."""
    found = []
    for kinds, name, harmless, holds in mdl.PASSED_OVER:
        said = block.given.get(name)
        if said is not None and said not in harmless and name not in CHOSEN_HERE and (not kinds or block.kind in kinds):
            found.append(Refusal(f"not covered: else {holds}", "set " + " or ".join(harmless), name, said))
    if block.kind in ("UnitDelay", "Delay") and block.given.get("InputProcessing", "").startswith("Columns"):
        found.append(Refusal("frames", "Elements as channels (sample based)", "InputProcessing", block.given["InputProcessing"]))
    return found


class Passes:
    """Settles each block, and rebuilds what needs it as types and periods become known."""

    def __init__(self, model: Model, settings: Settings, report: Report):
        self.model, self.settings, self.report = model, settings, report
        self.pending: list[tuple[Block, Step]] = []

    def begin(self) -> None:
        for block in self.model.blocks():
            for refusal in passed_over(block):
                self.report.refuse(block.place(refusal.parameter), refusal)
            if block.kind == "SubSystem" and any(block.given.get(name) for name in (*mdl.LINKS, "ReferenceBlock")):
                self.report.tell(block.place(), "a link to a library, whose blocks stand in the file: taken as they stand")
            for name in mdl.CALLS:
                if block.given.get(name):
                    self.report.tell(block.place(name), f"{name} is not run")
            if block.settled:
                continue
            step = STEPS.get(block.kind) or (LINKS.get(library_name(block)) if block.kind == "Reference" else None)
            if step:
                self.pending.append((block, step))
            elif block.kind in TABLE:
                self.settle(block)
            else:
                self.refuse_kind(block)

    def settle(self, block: Block) -> None:
        left = [name for name, _, _ in TABLE[block.kind] if name in OF_RELEASE and name not in block.given]
        if left and not block.has_defaults:
            self.report.tell(block.place(), f"the file has no defaults of {block.kind}: taken are those of the profile for {', '.join(left)}")
        if settle(self.settings, block):
            step = of_profile(block)
            if step:
                block.settled = False
                self.pending.append((block, step))

    def refuse_kind(self, block: Block) -> None:
        if block.kind == "Reference":
            source = block.given.get("SourceBlock", "")
            refusal = Refusal("a library link that isn't covered", "break the link, so that its blocks stand in the file", "SourceBlock", source)
        else:
            refusal = Refusal("a block type that isn't covered", REMEDIES.get(block.kind, "draw what it does of blocks of the profile"), "BlockType", block.kind)
        self.report.refuse(block.place("BlockType"), refusal)

    def run(self) -> None:
        self.begin()
        waiting: dict[int, str] = {}
        moved = True
        while self.pending and moved:
            signals, left = Signals(self.model), []
            for block, step in self.pending:
                try:
                    step(Rebuild(block, self.settings, signals))
                except NotYet as why:
                    waiting[id(block)] = str(why)
                    left.append((block, step))
                except Refusal as refusal:
                    self.report.refuse(block.place(refusal.parameter), refusal)
            moved, self.pending = len(left) < len(self.pending), left
        if not self.report.refused:
            for block, _ in self.pending:
                why = Refusal(waiting[id(block)], "declare types and sample times at Inports, Constants and conversions before it", "BlockType", block.kind)
                self.report.refuse(block.place(), why)
        if not self.report.refused:
            self.look_at_types()

    def look_at_types(self) -> None:
        """Refuses outputs whose type the profile's rules don't give."""
        signals = Signals(self.model)
        for block in self.model.blocks():
            for port in range(1, signals.outputs(block) + 1 if block.kind not in ("SubSystem", "Outport") else 1):
                if (id(block), port) not in signals.types:
                    why = Refusal("no type is known for it, or it needs more than 128 bits", "declare a type, in each loop of one block at least", "BlockType", block.kind)
                    self.report.refuse(block.place(), why)
