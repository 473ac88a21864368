"""Other Verilog tools, where they are installed."""

import os
import shutil
import subprocess
from typing import Any

from written import Failed

# The status of a comparison where no other tool is there.
NOTHING = 77
LANGUAGE = ["--language", "1364-2005", "-Wno-fatal"]
ICARUS, VERILATOR, YOSYS = ["iverilog", "vvp"], ["verilator"], ["yosys", "iverilog", "vvp"]


def ran(words: list[str], folder: str) -> "subprocess.CompletedProcess[str]":
    done = subprocess.run(words, cwd=folder, capture_output=True, text=True)
    if done.returncode != 0:
        raise Failed(f"{words[0]} failed:\n{done.stdout}{done.stderr}")
    return done


def run(words: list[str], folder: str) -> str:
    """What a tool writes on standard output."""
    return ran(words, folder).stdout


def warnings_of(words: list[str], folder: str) -> str:
    """What it writes on standard error."""
    return ran(words, folder).stderr


def icarus(folder: str, top: str, sources: list[str]) -> str:
    """What a module prints in Icarus Verilog."""
    run(["iverilog", "-g2005", "-s", top, "-o", f"{top}.vvp", *sources], folder)
    return run(["vvp", "-n", f"{top}.vvp"], folder)


def verilator(folder: str, top: str, sources: list[str]) -> str:
    """What it prints in Verilator."""
    run(["verilator", "--binary", "--timing", "--build-jobs", "0", *LANGUAGE, "--top-module", top, *sources], folder)
    return run([os.path.join(folder, f"obj_dir/V{top}")], folder)


def installed(tools: dict[str, Any]) -> dict[str, Any]:
    """Of tools by name, each with the commands that it needs as its last part, those that are there; the others are named."""
    found = {}
    for name, tool in tools.items():
        missing = [word for word in tool[-1] if shutil.which(word) is None]
        if missing:
            print(f"skipped: {name}, for want of {', '.join(missing)}")
        else:
            found[name] = tool
    if not found:
        print("nothing was compared")
    return found
