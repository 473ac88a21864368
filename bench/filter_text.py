"""The text of a model of a finite impulse response filter of 32 taps, of unit delays, gains and one sum."""

import sys

sys.dont_write_bytecode = True
from sample_text import block, line

# A low-pass filter: the numbers of its left half, which the right half mirrors.
HALF = [-9, -17, -22, -12, 18, 66, 112, 120, 58, -81, -265, -412, -404, -119, 487, 1344]
TAPS = HALF + HALF[::-1]


def model_text(name: str, rows: list[str]) -> str:
    return "\n".join(["Model {", f'  Name "{name}"', "  System {"] + rows + ["  }", "}", ""])


def filter_model() -> str:
    rows = block("Inport", "u", ("OutDataTypeStr", "fixdt(1,16,0)"))
    lines = []
    for k, tap in enumerate(TAPS):
        source = f"x{k}" if k else "u"
        if k:
            rows += block("UnitDelay", source)
            lines += line(f"x{k - 1}" if k > 1 else "u", source, 1)
        rows += block("Gain", f"p{k}", ("Gain", tap), ("ParamDataTypeStr", "fixdt(1,16,0)"), ("OutDataTypeStr", "fixdt(1,32,0)"))
        lines += line(source, f"p{k}", 1) + line(f"p{k}", "S", k + 1)
    rows += block("Sum", "S", ("Inputs", len(TAPS)), ("OutDataTypeStr", "fixdt(1,40,0)")) + block("Outport", "y")
    return model_text("fir", rows + lines + line("S", "y", 1))
