"""C++ that steps a model of one input over a stimulus, and a generated module as Verilator compiles it."""

import os
import subprocess
import sys

sys.dont_write_bytecode = True
from measure import verilated_commands

# Reads a stimulus of one column, steps a model and writes its response.
MAIN = r"""
#include <charconv>
#include <cstdint>
#include <cstdio>
#include <string>
#include <vector>
static int16_t wrapped(int64_t value) { return int16_t(uint16_t(value)); }
CODE
int main(int argc, char **argv) {
    std::FILE *file = std::fopen(argv[1], "rb");
    std::string text;
    std::vector<char> part(1 << 20);
    for (size_t got; (got = std::fread(part.data(), 1, part.size(), file)) > 0;) text.append(part.data(), got);
    Model model;
    std::string out;
    const char *at = text.data(), *end = at + text.size();
    for (uint64_t sample = 0; at < end; ++sample) {
        int64_t input = 0;
        at = std::from_chars(at, end, input).ptr + 1;
        model.step(sample, input, out);
        if (out.size() > 1 << 20) std::fwrite(out.data(), 1, out.size(), stdout), out.clear();
    }
    std::fwrite(out.data(), 1, out.size(), stdout);
}
"""

PUT = r"""
static void put(std::string &out, int64_t value) {
    char digits[24];
    out.append(digits, std::to_chars(digits, digits + 24, value).ptr - digits);
}
"""

# The module that `generate` writes of a model, as Verilator compiles it, driven clock by clock. A clock
# is one sample: the empty plan has one clock for each.
DRIVEN = r"""
#include "Vfx_model.h"
template <int width> static int64_t of(uint64_t bits) { return int64_t(bits << (64 - width)) >> (64 - width); }
struct Model {
    Vfx_model top;
    Model() {
        top.clk_enable = top.reset = 1;
        top.eval();
        clock();
        top.reset = 0;
    }
    void clock() {
        top.clk = 1;
        top.eval();
        top.clk = 0;
    }
    void step(uint64_t sample, int64_t input, std::string &out) {
        top.INPUT = input;
        top.eval();
        OUTPUTS
        out += '\n';
        clock();
    }
};
"""


def put(folder: str, name: str, text: str) -> str:
    """Writes a file, and gives its path."""
    path = os.path.join(folder, name)
    with open(path, "w") as file:
        file.write(text)
    return path


def stepped(code: str) -> str:
    """The program that steps the `Model` of this code."""
    return MAIN.replace("CODE", PUT + code)


def value(width: int, port: str) -> str:
    """Code that puts a signed output of so many bits."""
    return f"put(out, of<{width}>(top.{port}));"


def verilated(folder: str, verilog: str, port: str, outputs: str) -> tuple[list[list[str]], list[str]]:
    """The commands that compile a generated text with this input and code that puts its outputs, and the
    one that runs it, once compiled."""
    code = DRIVEN.replace("INPUT", port).replace("OUTPUTS", outputs)
    made, run = verilated_commands(folder, verilog, put(folder, "driver.cpp", stepped(code)))
    subprocess.run(made[-1], check=True, capture_output=True)
    return made, run
