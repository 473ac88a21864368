"""Mutated texts by the ten thousand: the cases of `texts`, answered by the program of the gate that calls
`run` over files in memory (`crates/tests_top`), so that no process starts for a call."""

import os
import subprocess
import time

from .calls import Answer
from .texts import TOP, Seeds, Tally, case_of, keep, tried

# So many cases are answered by one process, which has so long.
TOGETHER = 200
MOST_WALL_SECONDS = 60
ESCAPES = [chr(byte) if 32 <= byte < 127 and byte not in b"\\`" else f"\\x{byte:02x}" for byte in range(256)]


def row(name, text):
    """The row that puts a file in."""
    return f"file = {name}`" + "".join(map(ESCAPES.__getitem__, text)) + "\n"


def answers_of(path, asked):
    """What the rows of texts and calls answer, or None where the program has no end or another than it should."""
    rows = []
    for number, (texts, calls) in enumerate(asked):
        rows += [row(name, text) for name, text in texts.items()]
        for place, words in enumerate(calls):
            rows.append(f"run {number} {place}\nrun {' '.join(words)}\n")
    rows.append("run end\n")
    try:
        ran = subprocess.run([path], input="".join(rows).encode(), capture_output=True, timeout=MOST_WALL_SECONDS)
    except subprocess.TimeoutExpired:
        return None
    if ran.returncode:
        return None
    answers, at = [], 0
    for number, (_, calls) in enumerate(asked):
        answers.append([])
        for place, words in enumerate(calls):
            # a row that is no call, with its line of usage, tells which call's answer follows
            marked = b"run %d %d\nstatus 2\nusage: " % (number, place)
            asked_for = b"\nrun " + " ".join(words).encode() + b"\nstatus "
            begun = ran.stdout.find(asked_for, at)
            if not ran.stdout.startswith(marked, at) or b"\n" in ran.stdout[at + len(marked) : begun]:
                return None
            end = ran.stdout.index(b"\n", begun + len(asked_for))
            status = int(ran.stdout[begun + len(asked_for) : end])
            following = b"run %d %d\n" % ((number, place + 1) if place + 1 < len(calls) else (number + 1, 0))
            at = ran.stdout.find(following if (number, place) != (len(asked) - 1, len(calls) - 1) else b"run end\n", end)
            answers[-1].append(answer(status, ran.stdout[end + 1 : at]))
    return answers


def answer(status, told):
    """The answer of a call: its output stands before a bar, and its message alone."""
    if status == 0:
        return Answer(status, told.removesuffix(b"|\n"), b"", 0.0, 0)
    return Answer(status, b"", told, 0.0, 0)


class Batch:
    """Trials that are under way, by their numbers."""

    def __init__(self, path, tally, cases, program):
        self.path, self.tally, self.cases, self.program = path, tally, cases, program
        self.faults = {}

    def step(self, asked):
        """Sends each trial its answers, and gives those that ask for more."""
        answers = answers_of(self.path, [wanted for _, _, wanted in asked])
        if answers is None and len(asked) == 1:
            self.faults[asked[0][0]] = ["the program has no answer"]
            return []
        if answers is None:
            half = len(asked) // 2
            return self.step(asked[:half]) + self.step(asked[half:])
        more = []
        for (number, trial, (_, calls)), found in zip(asked, answers):
            # an output with more bytes than those files have room for is tried by processes
            if any(one.status == 4 for one in found):
                texts, _, trial_of = self.cases[number]
                self.faults[number] = tried(self.program, self.tally, f"case {number}", trial_of(texts))
                continue
            for words, one in zip(calls, found):
                self.faults.setdefault(number, []).extend(self.tally.take(f"case {number}", words, one))
            try:
                more.append((number, trial, trial.send(found)))
            except StopIteration as end:
                self.faults[number] += end.value
        return more


def run(program, options, say):
    """Tries so many cases. Each is known by the seed and its number, as in `texts`."""
    path = os.path.abspath(options.rows or os.path.join(TOP, "crates", "tests_top", "out", "tests_top"))
    seeds = Seeds(program, options.texts or [os.path.join(TOP, "examples")])
    say(f"many: {len(seeds.models)} models and {len(seeds.verilogs)} Verilog texts, seed {options.seed}")
    tally, wrong, start, done = Tally(), 0, time.monotonic(), 0
    while done < options.cases and time.monotonic() - start < options.seconds:
        numbers = range(done, min(options.cases, done + TOGETHER))
        cases = {number: case_of(seeds, options.seed, number) for number in numbers}
        batch = Batch(path, tally, cases, program)
        trials = {number: trial(texts) for number, (texts, _, trial) in cases.items()}
        asked = [(number, trial, next(trial)) for number, trial in trials.items()]
        while asked:
            asked = batch.step(asked)
        for number, faults in batch.faults.items():
            if faults:
                wrong += 1
                texts, name, _ = cases[number]
                say(f"  case {number}, {name}: " + "; ".join(faults))
                keep(options.keep, number, texts)
        done = numbers.stop
    say(f"  {done} cases, {tally.statuses.total()} calls, {wrong} cases with a fault, {time.monotonic() - start:.0f} s")
    tally.say(say)
    return wrong
