"""A Verilog module that drives a written text by its stimulus, and the response in what it prints."""

from typing import Iterator

from written import MODULE, Case, bits, inputs_of, instance, last_clock, outputs_of, stalls


def words_of(case: Case) -> Iterator[str]:
    """By sample the bits of all inputs, one behind the other; between hits an input holds its number."""
    held = [0] * len(inputs_of(case))
    for sample, row in enumerate(case.rows):
        for place, port in enumerate(inputs_of(case)):
            if sample % port.period == 0:
                held[place] = bits(port, row[place])
        yield "".join(f"{number:0{port.width}b}" for port, number in zip(inputs_of(case), held)) or "0"


def bench(case: Case, words: str, name: str = "bench", module: str = MODULE, pauses: bool = False) -> str:
    """A module that resets the other for one row, drives it clock by clock with the words of a file, and
    prints each hit of an output as the bench's name, the sample, the output's name and the number. With
    pauses a text that can stall does so in the row of the reset, and for a row before each clock, with the
    inputs of that clock."""
    cycles, samples = case.cycles, len(case.rows)
    names = ", ".join(port.name for port in inputs_of(case))
    width = sum(port.width for port in inputs_of(case)) or 1
    pauses = pauses and stalls(case)
    lines = [f"module {name};"] + instance(case, module)
    lines += [f"  reg [{width - 1}:0] words [0:{max(samples, 1) - 1}];", "  integer clock;", "  initial begin"]
    lines += [f'    $readmemb("{words}", words);', "    clk = 0; reset = 1;"]
    if stalls(case):
        lines.append(f"    clk_enable = {0 if pauses else 1};")
    lines += ["    #1 clk = 1;", "    #1 clk = 0; reset = 0;"]
    lines.append(f"    for (clock = 0; clock < {last_clock(case)}; clock = clock + 1) begin")
    if names:
        lines.append(f"      if (clock % {cycles} == 0) {{{names}}} = clock / {cycles} < {samples} ? words[clock / {cycles}] : 0;")
    if pauses:
        lines += ["      clk_enable = 0;", "      #1 clk = 1;", "      #1 clk = 0; clk_enable = 1;"]
    lines.append("      #1;")
    for port in outputs_of(case):
        since = f"(clock - {port.latency})"
        due = f"{since} >= 0 && {since} % {cycles * port.period} == 0 && {since} / {cycles} < {samples}"
        lines.append(f'      if ({due}) $display("{name} %0d {port.name} %0d", {since} / {cycles}, {port.name});')
    return "\n".join(lines + ["      clk = 1;", "      #1 clk = 0;", "    end", "  end", "endmodule", ""])


def response(case: Case, printed: str, name: str = "bench") -> list[list[str]]:
    """The lines of a text's response, of what benches printed."""
    found = {}
    for words in map(str.split, printed.splitlines()):
        if len(words) == 4 and words[0] == name:
            found[int(words[1]), words[2]] = words[3]
    return [[found.get((sample, port.name), "-") for port in outputs_of(case)] for sample in range(len(case.rows))]
