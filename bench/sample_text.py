"""The text of a model of so many chained blocks of mixed kinds, by a congruential sequence: delays, sums,
gains, products and switches, then a rate transition and two outputs."""

MULTIPLIER = 6364136223846793005
INCREMENT = 1442695040888963407
WORD = "fixdt(1,16,8)"


def block(kind, name, *parameters):
    rows = ["    Block {", f"      BlockType {kind}", f'      Name "{name}"']
    return rows + [f'      {key} "{value}"' for key, value in parameters] + ["    }"]


def line(source, end, port):
    rows = ["    Line {", f'      SrcBlock "{source}"', "      SrcPort 1"]
    return rows + [f'      DstBlock "{end}"', f"      DstPort {port}", "    }"]


def chained(number, choice):
    """A block and the names of what it reads, `before` for the block before it."""
    name = f"B{number}"
    word = ("OutDataTypeStr", WORD)
    if number % 4 == 0:
        return block("UnitDelay", name, ("InitialCondition", "1")), ["before"]
    if choice == 0:
        return block("Sum", name, word), ["before", "In"]
    if choice == 1:
        gain = (("Gain", "0.75"), ("ParamDataTypeStr", "fixdt(1,16,14)"), word)
        return block("Gain", name, *gain), ["before"]
    if choice == 2:
        return block("Product", name, word), ["before", "In"]
    return block("Switch", name, word), ["before", "In", "In"]


def sample_text(count):
    """The MDL text of the model of this many chained blocks."""
    state = count
    blocks = block("Inport", "In", ("OutDataTypeStr", WORD), ("SampleTime", "1"))
    lines = []
    before = "In"
    for number in range(1, count + 1):
        state = (MULTIPLIER * state + INCREMENT) % 2**64
        rows, sources = chained(number, state // 2**33 % 4)
        blocks += rows
        for port, source in enumerate(sources, 1):
            lines += line(before if source == "before" else source, f"B{number}", port)
        before = f"B{number}"
    blocks += block("RateTransition", "Down", ("OutPortSampleTime", "2"))
    blocks += block("Outport", "Out") + block("Outport", "Slow", ("Port", "2"))
    lines += line(before, "Down", 1) + line(before, "Out", 1) + line("Down", "Slow", 1)
    head = ["Model {", '  Name "sample"', "  System {"]
    return "\n".join(head + blocks + lines + ["  }", "}"]) + "\n"
