"""Models that `simulate` is measured on, each with the same model as C++ in the way one would write it by
hand: chains of gains, biquads, a CIC decimator, vectors in loops, and words of 120 bits."""

import sys
from dataclasses import dataclass

sys.dont_write_bytecode = True
from driven import value
from filter_text import model_text
from sample_text import WORD, block, line

FACTOR = "fixdt(1,16,14)"


@dataclass(frozen=True)
class Case:
    """A model of one input of 16 bits, `In`, the same model as C++, how many samples it is given, and the
    code that puts the outputs of its module."""

    name: str
    model: str
    code: str
    samples: int
    outputs: str


def root_input(word: str) -> list[str]:
    return block("Inport", "In", ("OutDataTypeStr", word), ("SampleTime", "1"))


def quoted(numbers: list[int]) -> str:
    return ", ".join(map(str, numbers))


def gain(name: str, factor: int, word: str = WORD) -> list[str]:
    """A Gain of `factor` / 2^14."""
    return block("Gain", name, ("Gain", factor / 2**14), ("ParamDataTypeStr", FACTOR), ("OutDataTypeStr", word))


def gains(count: int, samples: int) -> Case:
    """So many gains one behind another, of factors near 1."""
    factors = [(-1) ** place * (16384 - 37 * (place % 11)) for place in range(count)]
    rows, lines = root_input(WORD), []
    for place, factor in enumerate(factors):
        rows += gain(f"G{place}", factor)
        lines += line(f"G{place - 1}" if place else "In", f"G{place}", 1)
    rows += block("Outport", "Out")
    lines += line(f"G{count - 1}", "Out", 1)
    code = f"""
struct Model {{
    void step(uint64_t, int64_t in, std::string &out) {{
        static const int64_t factors[{count}] = {{{quoted(factors)}}};
        int64_t value = in;
        for (int k = 0; k < {count}; ++k) value = wrapped((value * factors[k]) >> 14);
        put(out, value);
        out += '\\n';
    }}
}};
"""
    return Case(f"a chain of {count} gains", model_text("gains", rows + lines), code, samples, value(16, "Out"))


# Of each biquad: what its two kept values are fed back by, and what its output is made of.
BIQUAD = {"A1": -21299, "A2": 9830, "B0": 3277, "B1": 6554, "B2": 3277}
BIQUADS = 4


def biquads(samples: int) -> Case:
    """Four biquads one behind another, each with two delays in a loop."""
    rows, lines, source = root_input(WORD), [], "In"
    typed = ("OutDataTypeStr", WORD)
    for number in range(BIQUADS):
        own = {name: f"{name}_{number}" for name in [*BIQUAD, "W", "D1", "D2", "Y"]}
        for name, factor in BIQUAD.items():
            rows += gain(own[name], factor)
        rows += block("Sum", own["W"], ("Inputs", "+--"), typed) + block("Sum", own["Y"], ("Inputs", "+++"), typed)
        rows += block("UnitDelay", own["D1"]) + block("UnitDelay", own["D2"])
        lines += line(source, own["W"], 1) + line(own["A1"], own["W"], 2) + line(own["A2"], own["W"], 3)
        lines += line(own["W"], own["D1"], 1) + line(own["D1"], own["D2"], 1)
        lines += line(own["D1"], own["A1"], 1) + line(own["D2"], own["A2"], 1)
        lines += line(own["W"], own["B0"], 1) + line(own["D1"], own["B1"], 1) + line(own["D2"], own["B2"], 1)
        for port, name in enumerate(["B0", "B1", "B2"], 1):
            lines += line(own[name], own["Y"], port)
        source = own["Y"]
    rows += block("Outport", "Out")
    lines += line(source, "Out", 1)
    numbers = "; ".join(f"static const int64_t {name} = {factor}" for name, factor in BIQUAD.items())
    code = f"""
struct Model {{
    int64_t first[{BIQUADS}] = {{}}, second[{BIQUADS}] = {{}};
    static int64_t times(int64_t value, int64_t factor) {{ return wrapped((value * factor) >> 14); }}
    void step(uint64_t, int64_t in, std::string &out) {{
        {numbers};
        int64_t value = in;
        for (int k = 0; k < {BIQUADS}; ++k) {{
            int64_t w = wrapped(value - times(first[k], A1) - times(second[k], A2));
            value = wrapped(times(w, B0) + times(first[k], B1) + times(second[k], B2));
            second[k] = first[k];
            first[k] = w;
        }}
        put(out, value);
        out += '\\n';
    }}
}};
"""
    return Case(f"{BIQUADS} biquads", model_text("biquads", rows + lines), code, samples, value(16, "Out"))


STAGES = 4
DOWN = 8


def cic(samples: int) -> Case:
    """Four integrators, one number of eight, and four differences."""
    word = ("OutDataTypeStr", "fixdt(1,32,0)")
    rows, lines, source = root_input("fixdt(1,16,0)"), [], "In"
    for number in range(STAGES):
        rows += block("Sum", f"I{number}", ("Inputs", "++"), word) + block("UnitDelay", f"D{number}")
        lines += line(source, f"I{number}", 1) + line(f"D{number}", f"I{number}", 2) + line(f"I{number}", f"D{number}", 1)
        source = f"I{number}"
    rows += block("RateTransition", "Down", ("OutPortSampleTime", DOWN))
    lines += line(source, "Down", 1)
    source = "Down"
    for number in range(STAGES):
        rows += block("Sum", f"C{number}", ("Inputs", "+-"), word) + block("UnitDelay", f"E{number}")
        lines += line(source, f"C{number}", 1) + line(source, f"E{number}", 1) + line(f"E{number}", f"C{number}", 2)
        source = f"C{number}"
    rows += block("Outport", "Out")
    lines += line(source, "Out", 1)
    code = f"""
struct Model {{
    uint32_t sums[{STAGES}] = {{}}, last[{STAGES}] = {{}};
    void step(uint64_t sample, int64_t in, std::string &out) {{
        uint32_t value = uint32_t(in);
        for (int k = 0; k < {STAGES}; ++k) value = sums[k] += value;
        if (sample % {DOWN} == 0) {{
            for (int k = 0; k < {STAGES}; ++k) {{
                uint32_t before = last[k];
                last[k] = value;
                value -= before;
            }}
            put(out, int32_t(value));
        }} else {{
            out += '-';
        }}
        out += '\\n';
    }}
}};
"""
    outputs = f"if (sample % {DOWN} == 0) {value(32, 'Out')} else out += '-';"
    return Case(f"a CIC decimator of {STAGES} stages", model_text("cic", rows + lines), code, samples, outputs)


WIDTH = 1024


def vectors(samples: int) -> Case:
    """A vector of products of the input, added up in a vector of sums; the first element is shown."""
    factors = [(37 * place) % 257 - 128 for place in range(WIDTH)]
    word = ("OutDataTypeStr", "fixdt(1,32,0)")
    rows = root_input("fixdt(1,16,0)")
    rows += block("Gain", "G", ("Gain", "[" + " ".join(map(str, factors)) + "]"), ("ParamDataTypeStr", "fixdt(1,16,0)"), word)
    rows += block("Sum", "S", ("Inputs", "++"), word) + block("UnitDelay", "D")
    rows += block("Demux", "P", ("Outputs", f"[1 {WIDTH - 1}]")) + block("Terminator", "T") + block("Outport", "Out")
    lines = line("In", "G", 1) + line("G", "S", 1) + line("D", "S", 2) + line("S", "D", 1) + line("S", "P", 1) + line("P", "Out", 1)
    lines += [row.replace("SrcPort 1", "SrcPort 2") for row in line("P", "T", 1)]
    code = f"""
struct Model {{
    int32_t sums[{WIDTH}] = {{}};
    void step(uint64_t, int64_t in, std::string &out) {{
        static const int32_t factors[{WIDTH}] = {{{quoted(factors)}}};
        for (int k = 0; k < {WIDTH}; ++k) sums[k] = int32_t(uint32_t(sums[k]) + uint32_t(int32_t(in) * factors[k]));
        asm volatile("" : : "g"(sums) : "memory");
        put(out, sums[0]);
        out += '\\n';
    }}
}};
"""
    return Case(f"vectors of {WIDTH} elements", model_text("vectors", rows + lines), code, samples, value(32, "Out"))


WIDE = 32


def wide(samples: int) -> Case:
    """Sums of 120 bits one behind another, each of its own last sum, and the highest 64 bits of the last."""
    word = ("OutDataTypeStr", "fixdt(1,120,0)")
    rows, lines, source = root_input("fixdt(1,16,0)"), [], "In"
    for number in range(WIDE):
        rows += block("Sum", f"S{number}", ("Inputs", "++"), word) + block("UnitDelay", f"D{number}")
        lines += line(source, f"S{number}", 1) + line(f"D{number}", f"S{number}", 2) + line(f"S{number}", f"D{number}", 1)
        source = f"S{number}"
    rows += block("DataTypeConversion", "High", ("OutDataTypeStr", "fixdt(1,64,-56)")) + block("Outport", "Out")
    lines += line(source, "High", 1) + line("High", "Out", 1)
    code = f"""
struct Model {{
    __int128 sums[{WIDE}] = {{}};
    static __int128 wrapped120(__int128 value) {{ return __int128((unsigned __int128)value << 8) >> 8; }}
    void step(uint64_t, int64_t in, std::string &out) {{
        __int128 value = in;
        for (int k = 0; k < {WIDE}; ++k) value = sums[k] = wrapped120(sums[k] + value);
        put(out, int64_t(value >> 56));
        out += '\\n';
    }}
}};
"""
    return Case(f"{WIDE} sums of 120 bits", model_text("wide", rows + lines), code, samples, value(64, "Out"))


def cases() -> list[Case]:
    """All of them."""
    return [gains(1000, 100_000), gains(19_998, 5_000), biquads(1_000_000), cic(1_000_000), vectors(50_000), wide(200_000)]
