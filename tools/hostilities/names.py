"""Names that begin alike, against names of the same length that differ at once: in no table of names may
they cost much more."""

from .calls import fault_of
from .largest import HEAD, INT8, PARAM, block, line, model

COUNT = 20000
SHARED = 200
MOST_TIMES = 2
TRIES = 3


def alike(number):
    return "n" * SHARED + f"{number:05}"


def apart(number):
    return f"n{number:05}" + "n" * (SHARED - 1)


def gains(name):
    """An input, gains of it, and an output that shows the first of them."""
    last = COUNT - 1
    blocks = [block("Inport", name(0), INT8), *[block("Gain", name(one), INT8, PARAM) for one in range(1, last)], block("Outport", name(last))]
    return model(*blocks, *[line(name(0), name(one)) for one in range(1, last)], line(name(1), name(last)))


def plan(name):
    """A register behind each gain."""
    return "".join(f'pipeline "{name(one)}" 1\n' for one in range(1, COUNT - 1)).encode()


def wires(name):
    """Wires that show the next one each, and the last one the input."""
    parts = [HEAD, *[f"wire {name(one)};\n" for one in range(COUNT)], f"assign y = {name(0)};\n"]
    parts += [f"assign {name(one)} = {name(one + 1)};\n" for one in range(COUNT - 1)]
    return "".join([*parts, f"assign {name(COUNT - 1)} = a;\n", "endmodule\n"]).encode()


CASES = (
    ("blocks", ("check", "m", "-"), {"m": gains}),
    ("blocks and lines of a plan", ("check", "m", "p"), {"m": gains, "p": plan}),
    ("wires", ("replay", "v", "s"), {"v": wires, "s": lambda _name: b"1\n"}),
)


def seconds_of(program, words, files, name):
    """The least processor time of some calls over files with such names, and what is wrong with one."""
    for file, text_of in files.items():
        program.make(file, lambda: text_of(name))
    answers = [program.run(*words) for _ in range(TRIES)]
    faults = [fault for fault in (fault_of(words[0], answer, {0}) for answer in answers) if fault]
    return min(answer.seconds for answer in answers), faults


def run(program, _options, say):
    say(f"names: {COUNT:,} names that share {SHARED} bytes, against as many that differ at once")
    wrong = 0
    for what, words, files in CASES:
        (slow, faults), (fast, others) = (seconds_of(program, words, files, name) for name in (alike, apart))
        faults += others
        if slow > MOST_TIMES * fast:
            faults.append(f"more than {MOST_TIMES} times as long")
        wrong += len(faults)
        say(f"  {what}, {' '.join(words)}: {slow:.2f} s against {fast:.2f} s" + "".join(f"; {fault}" for fault in faults))
    return wrong
