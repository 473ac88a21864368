"""What to do about a block or a parameter that rules 2 and 3 refuse."""

import re

IMPORT = "tools/import"
# Block types that tools/import rewrites into blocks of the library, and what it does of each.
IMPORTED: dict[str, str] = {
    **dict.fromkeys(("Scope", "Display", "FloatingScope", "ToWorkspace", "ToFile", "XYGraph", "Stop"), "drops it"),
    **dict.fromkeys(("From", "Goto", "GotoTagVisibility"), "makes lines of it"),
    "Reference": "rebuilds a link to a library block that it knows",
    **dict.fromkeys(
        ("MultiPortSwitch", "Saturate", "Abs", "MinMax", "Signum", "DiscreteIntegrator", "Lookup", "Lookup_n-D", "ZeroOrderHold"),
        "rebuilds it",
    ),
}
# What replaces other types by hand.
BY_HAND: dict[str, str] = {
    "Memory": "a UnitDelay with the same initial condition",
    "DiscreteFilter": "delays, Gains and Sums, as in examples/designs/biquad",
    "DiscreteTransferFcn": "delays, Gains and Sums, as in examples/designs/biquad",
    "DiscreteStateSpace": "delays, Gains and Sums",
    "Integrator": "a discrete integrator: a Sum and a UnitDelay",
    "TransferFcn": "a discrete filter of delays, Gains and Sums",
    "TriggerPort": "an enabled subsystem, with the edge found by a UnitDelay and a Logic",
    "ResetPort": "an enabled subsystem whose states are reset",
    "ActionPort": "an enabled subsystem, or a Switch behind both branches",
    "BusCreator": "one line for each signal",
    "BusSelector": "one line for each signal",
    "Selector": "a Demux and a Mux",
    "Concatenate": "a Mux",
    "Sqrt": "a table of Constants and Switches, as in examples/designs/nco",
    "Trigonometry": "a table of Constants and Switches, as in examples/designs/nco",
    "ModelReference": "a SubSystem with the blocks of that model",
    "Step": "an Inport, with the step in the stimulus",
    "Sin": "an Inport, with the wave in the stimulus",
    "DiscretePulseGenerator": "an Inport, with the pulses in the stimulus",
    "FromWorkspace": "an Inport, with the numbers in the stimulus",
    "SignalGenerator": "an Inport, with the wave in the stimulus",
}


def of_type(kind: str) -> str:
    """The remedy of a block type that isn't in the library."""
    if kind in IMPORTED:
        return f"{IMPORT} {IMPORTED[kind]}"
    return BY_HAND.get(kind, "rebuild it of blocks of the library")


def of_type_text(text: str) -> str:
    """The remedy of a type that isn't read."""
    if text.startswith("Inherit"):
        return f"{IMPORT} puts the type there where a driver or a reader decides it; else declare one"
    if text in ("double", "single", "half"):
        return "declare a fixed-point type"
    if re.search("[A-Za-z_]", re.sub("^fixdt|^[su]fix[0-9]|true|false", "", text)):
        return f"{IMPORT} evaluates names and expressions"
    return "take bits that are allowed, and scale by a power of two without a bias"


# Parts of a number that no name is meant by.
WORDS_OF_NUMBERS = re.compile(r"[0-9.][eE][+-]?[0-9]|\b(?:true|false|inf)\b")


DECIMALS = ("Gain", "Value", "InitialCondition", "InitialOutput", "Threshold")


def of_number(name: str, text: str) -> str:
    """The remedy of a number, list or time that isn't read."""
    if re.search(r"[A-Za-z_*/^():']", WORDS_OF_NUMBERS.sub("", text)):
        return f"{IMPORT} evaluates names and expressions"
    if re.search(r"[.0-9][ \t,]+[+-]?[.0-9][^;]*;|;[^;]*[.0-9][ \t,]+[+-]?[.0-9]", text):
        return "write each row of the matrix as a list of its own"
    if "\n" in text:
        return "write the list on one line"
    if name in DECIMALS and re.search("[1-9][0-9]{18}|[.][0-9]{19}|[1-9][0-9.]{19}", text):
        return "round it to 18 digits"
    return "write what is allowed"


# Parameters of which each value that is allowed is a word.
OF_WORDS = (
    "RndMeth", "SaturateOnIntegerOverflow", "OutputWhenDisabled", "StatesWhenEnabling", "OutPortSampleTimeOpt", "Deterministic",
    "Operator", "Criteria", "ConvertRealWorld", "BusSelectionMode", "ShowOutputPort",
)  # fmt: skip
# Those that the usual tool has a port for in place of a value.
BY_PORT = ("DelayLengthSource", "InitialConditionSource", "ExternalReset", "ShowEnablePort")
TIMES = ("SampleTime", "OutPortSampleTime", "SystemSampleTime")


def of_parameter(name: str, text: str) -> str:
    """The remedy of a parameter that isn't read, by its name and value."""
    if name.endswith("DataTypeStr"):
        return of_type_text(text)
    if name == "Inputs" and text in ("1", "+", "-"):
        return f"{IMPORT} rebuilds a Sum of elements"
    if name == "Inputs" and "/" in text:
        return "divide by a constant with a Gain, or by powers of two with a conversion"
    if name == "Multiplication":
        return "write the rows of the matrix as Gains and Sums of their own"
    if name in BY_PORT:
        return "take the length and the initial value from the dialog, and reset in an enabled subsystem"
    if name in OF_WORDS:
        return "choose one of these"
    if name == "OutPortSampleTime" and text == "-1":
        return "declare the period of the output"
    if name in TIMES and not re.search("[A-Za-z/*]", text):
        return "take a period above 0 without an offset"
    if name == "Inputs" and re.fullmatch(r"[0-9]+|[*]+", text) and text != "1":
        return "put blocks of fewer inputs one behind the other"
    return of_number(name, text)
