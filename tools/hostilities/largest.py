"""Time and memory of the largest legal inputs, and of models that ask for more than their length."""

import os
import resource

from .calls import STDERR, STDOUT, limited
from .texts import TOP, held

MOST = 16777216
MEGABYTE = 1048576
OUTPUTS = [(os.POSIX_SPAWN_OPEN, number, "/dev/null", os.O_WRONLY, 0) for number in (STDOUT, STDERR)]


def block(kind, name, *lines):
    return f'Block {{\nBlockType {kind}\nName "{name}"\n' + "".join(line + "\n" for line in lines) + "}\n"


def line(source, target, port=1):
    return f'Line {{\nSrcBlock "{source}"\nDstBlock "{target}"\nDstPort {port}\n}}\n'


def model(*parts):
    return ("Model {\nSystem {\n" + "".join(parts) + "}\n}\n").encode()


INT8 = 'OutDataTypeStr "int8"'
PARAM = 'ParamDataTypeStr "int8"'


def chain(kind, count, *lines):
    """So many blocks one behind the other, between an input and an output."""
    blocks = [block("Inport", "B0", INT8)] + [block(kind, f"B{one}", *lines) for one in range(1, count + 1)] + [block("Outport", f"B{count + 1}")]
    return model(*blocks, *[line(f"B{one}", f"B{one + 1}") for one in range(count + 1)])


def padded(text, length=MOST):
    """The same model, as long as a file may be, by annotations that are passed over."""
    note = b'Annotation {\nName "%s"\n}\n' % (b"n" * 4000)
    head, tail = text[: text.rindex(b"}\n}\n")], b"}\n}\n"
    room = length - len(text)
    return head + note * (room // len(note)) + b"#" * (room % len(note) - 1) + b"\n" + tail


def nested(depth, name, count):
    """So many blocks in a subsystem that stands as deep, each on the way with a name of so many bytes."""
    inner = "".join(block("Ground", f"g{one}") for one in range(count))
    for place in range(depth):
        inner = f'Block {{\nBlockType SubSystem\nName "{"s" * name}{place}"\nSystem {{\n{inner}}}\n}}\n'
    return model(inner)


def long_name(length):
    """One block whose name fills the file."""
    return model(block("Ground", "g" * length))


def fan(inputs, outputs):
    """Inputs, of which the first feeds all outputs; without one a Constant does."""
    source = "u0" if inputs else "c"
    blocks = [block("Inport", f"u{one}", INT8, f'Port "{one + 1}"') for one in range(inputs)] or [block("Constant", "c", INT8)]
    blocks += [block("Outport", f"y{one}", f'Port "{one + 1}"') for one in range(outputs)]
    return model(*blocks, *[line(source, f"y{one}") for one in range(outputs)])


HEAD = "(* fx_cycles = 1 *) module m (input wire clk, input wire reset, (* fx_period = 1 *) input wire a, (* fx_period = 1, fx_latency = 0 *) output wire y);\n"


def linked(length, first, link, last):
    """A Verilog text of this length of names, each with the value of the next, which is declared before."""
    parts, size, count = [HEAD, first], len(HEAD), 0
    while size < length - 300:
        parts.append(link(count, count + 1))
        size += len(parts[-1])
        count += 1
    return "".join([*parts, last(count), "endmodule\n"]).encode()


def wires(length):
    return linked(length, "wire w0; assign y = w0;\n", lambda one, other: f"wire w{other}; assign w{one} = w{other};\n", lambda one: f"assign w{one} = a;\n")


def registered(one, value):
    return f"always @ (posedge clk) begin if (reset) r{one} <= 1'd0; else r{one} <= {value}; end\n"


def registers(length):
    return linked(length, "reg r0; assign y = r0;\n", lambda one, other: f"reg r{other}; " + registered(one, f"r{other}"), lambda one: registered(one, "a"))


def trees(length):
    """A Verilog text of long expressions, one of some 8 MB, and each other half as long."""
    tree, parts, size = "a", [], 0
    while len(tree) < 8000000:
        parts.append(tree)
        tree = f"({tree}&{tree})"
    text = [HEAD, f"assign y = {tree};\n"]
    for number, part in enumerate(reversed(parts)):
        size = sum(map(len, text))
        if size + len(part) < length - 100:
            text.append(f"wire w{number}; assign w{number} = {part};\n")
    return "".join([*text, "endmodule\n"]).encode()


def braces(length):
    """A Verilog text of concatenations of one operand, each in another, and of wires that have them."""
    depth = 250
    link = lambda one, other: f"wire w{other}; assign w{one} = {'{' * depth}w{other}{'}' * depth};\n"
    return linked(length - 2 * depth, "wire w0; assign y = w0;\n", link, lambda one: f"assign w{one} = a;\n")


def shown(outputs, late=0, early=0):
    """A Verilog text without inputs, whose outputs are numbers, so many samples late but for some at the front."""
    ports = "".join(f", (* fx_period = 1, fx_latency = {0 if one < early else late} *) output wire y{one}" for one in range(outputs))
    return ("(* fx_cycles = 1 *) module m (input wire clk, input wire reset" + ports + ");\n" + "".join(f"assign y{one} = 1'd1;\n" for one in range(outputs)) + "endmodule\n").encode()


def items(length):
    """One-bit wires that nothing drives but a constant."""
    count = (length - len(HEAD) - 40) // 29
    return (HEAD + "".join(f"wire w{one:07};assign w{one:07}=a;\n" for one in range(count))[: length - len(HEAD) - 40].rsplit("\n", 1)[0] + "\nassign y = a;\nendmodule\n").encode()


def cases():
    """What is tried, its words, and what its files are made by: the largest legal inputs."""
    delays = lambda: chain("UnitDelay", 19998)
    gains = lambda: chain("Gain", 19998, INT8, PARAM)
    for what, text in (("19,998 delays in a chain", delays), ("19,998 gains in a chain", gains), ("the same gains with annotations", lambda: padded(gains()))):
        for command, second in (("check", "-"), ("simulate", "s"), ("generate", "-")):
            yield what, (command, "m", second), {"m": text, "s": lambda: b"5\n" * 10}
    yield "19,998 gains in a chain, 256 plans", ("explore", "m", "1..16,0..15"), {"m": gains}
    yield "a name of 16,777,116 bytes", ("check", "m", "-"), {"m": lambda: long_name(MOST - 100)}
    for what, text in (("wires in a chain", wires), ("registers in a chain", registers), ("wires from the input", items), ("long expressions", trees), ("nested concatenations", braces)):
        yield f"Verilog of {what}", ("replay", "m", "s"), {"m": lambda text=text: text(MOST), "s": lambda: b"1\n"}
    yield "16,666,666 rows without inputs, 3 outputs", ("simulate", "m", "s"), {"m": lambda: fan(0, 3), "s": lambda: b"\n" * (50000000 // 3)}
    yield "50,000 rows without inputs, 1,000 outputs", ("simulate", "m", "s"), {"m": lambda: fan(0, 1000), "s": lambda: b"\n" * 50000}
    yield "16,666,666 rows without inputs, 3 outputs", ("replay", "m", "s"), {"m": lambda: shown(3), "s": lambda: b"\n" * (50000000 // 3)}
    yield "50,000 rows without inputs, 1,000 outputs", ("replay", "m", "s"), {"m": lambda: shown(1000), "s": lambda: b"\n" * 50000}
    yield "the same outputs 49,999 samples late", ("replay", "m", "s"), {"m": lambda: shown(1000, 49999), "s": lambda: b"\n" * 50000}
    yield "the same but one", ("replay", "m", "s"), {"m": lambda: shown(1000, 49999, 1), "s": lambda: b"\n" * 50000}
    yield "8,333,333 rows of an input, 5 outputs", ("simulate", "m", "s"), {"m": lambda: fan(1, 5), "s": lambda: b"7\n" * (50000000 // 6)}
    yield "8,388 rows of 1,000 inputs", ("simulate", "m", "s"), {"m": lambda: fan(1000, 1), "s": lambda: (b"7 " * 999 + b"7\n") * (MOST // 2000)}
    yield "8,388,608 rows of an input", ("replay", "m", "s"), {"m": lambda: held(os.path.join(TOP, "examples", "unit_delay.v")), "s": lambda: b"7\n" * (MOST // 2)}


def deep():
    """Models that ask for more than their length: deep subsystems with long names."""
    for name, count in ((100, 2000), (1000, 2000), (4000, 2000)):
        yield f"{count:,} blocks below 63 subsystems with names of {name:,} bytes", ("check", "m", "-"), {"m": lambda name=name, count=count: nested(63, name, count)}


def run(program, options, say):
    say("largest: processor time and memory of the largest legal inputs")
    say("  | input | bytes | call | status | s | MB | MB for a MB of files |\n  |---|---|---|---|---|---|---|")
    wrong = 0
    for what, words, files in [*cases(), *deep()]:
        for name, text_of in files.items():
            program.make(name, text_of)
        answer = limited({resource.RLIMIT_AS: options.room * MEGABYTE}, lambda: program.end(program.begin(words, OUTPUTS)))
        size = sum(os.path.getsize(program.at(name)) for name in files)
        say(f"  | {what} | {size:,} | {words[0]} | {answer.status} | {answer.seconds:.1f} | {answer.kilobytes / 1024:.0f} | {answer.kilobytes * 1024 / size:.0f} |")
        wrong += answer.status not in (0, 1)
    return wrong
