"""What Yosys makes of a module for two families of devices."""

import json
import os
import re
import shutil
import tempfile

from others import ran
from subset import module_of
from written import Failed

# By family the command, and by what is counted the cells and how many each counts for.
FAMILIES = {
    "ice40": ("synth_ice40 -dsp", {"luts": "SB_LUT4", "ffs": "SB_DFF.*", "dsps": "SB_MAC16"}),
    "xilinx": ("synth_xilinx -flatten", {"luts": "LUT[1-6]|INV|SRL.*", "ffs": "FD[RSCP]E", "dsps": "DSP48E1"}),
}


def synthesised(text: str, family: str) -> dict[str, int]:
    """Lookup tables, flip-flops and blocks of multipliers; fails where Yosys isn't installed."""
    if shutil.which("yosys") is None:
        raise Failed("Yosys is not installed (--text leaves it out)")
    command, cells = FAMILIES[family]
    with tempfile.TemporaryDirectory() as folder:
        with open(os.path.join(folder, "module.v"), "w", encoding="latin-1") as file:
            file.write(text)
        script = f"read_verilog module.v; {command} -top {module_of(text).name}; tee -q -o counts stat -json"
        ran(["yosys", "-q", "-p", script], folder)
        with open(os.path.join(folder, "counts"), encoding="utf-8") as file:
            counted = json.load(file)["design"]["num_cells_by_type"]
    return {name: sum(count for cell, count in counted.items() if re.fullmatch(form, cell)) for name, form in cells.items()}
