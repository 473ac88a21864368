"""Mutated texts: no crash, no hang, a status that the command may end with, nothing on standard output
but with status 0, and commands that agree with each other."""

import collections
import glob
import os
import random
import re
import time

from .calls import fault_of
from .mutants import MOST_BYTES, mutant, shrunk

MOST_SECONDS = 2.0
MOST_CLOCKS = 200_000
MOST_OF_FILE = 16_777_216
TOP = os.path.dirname(os.path.dirname(os.path.dirname(os.path.abspath(__file__))))


def held(path):
    with open(path, "rb") as file:
        return file.read()


class Seeds:
    """Models with their plans and stimuli, and Verilog texts with stimuli."""

    def __init__(self, program, folders):
        self.models, self.verilogs = [], []
        for path in sorted(found for folder in folders for found in glob.glob(os.path.join(folder, "**", "*.mdl"), recursive=True)):
            self.add(program, path)
        for path in sorted(found for folder in folders for found in glob.glob(os.path.join(folder, "**", "*.v"), recursive=True)):
            stimulus = beside(path, ".stim")
            if stimulus is not None and os.path.getsize(path) <= MOST_BYTES:
                self.verilogs.append((held(path), stimulus))
        self.texts = {
            "model": [model for model, _, _ in self.models],
            "plan": [plan for _, plan, _ in self.models],
            "stimulus": [stimulus for _, _, stimulus in self.models],
            "verilog": [verilog for verilog, _ in self.verilogs],
        }

    def add(self, program, path):
        """A model, and the text that is generated of it, where there is one."""
        model, plan, stimulus = held(path), beside(path, ".plan") or b"cycles 2\n", beside(path, ".stim") or b""
        if len(model) > MOST_BYTES:
            return
        self.models.append((model, plan, stimulus))
        program.put("m", model)
        program.put("p", plan)
        made = program.run("generate", "m", "p")
        if made.status == 0 and len(made.out) <= MOST_BYTES:
            self.verilogs.append((made.out, stimulus))


def beside(path, ending):
    """The file of a case with this ending: of the same name, or the only one of its folder."""
    folder = os.path.dirname(path)
    found = [os.path.splitext(path)[0] + ending] + sorted(glob.glob(os.path.join(glob.escape(folder), "*" + ending)))[:1]
    return next((held(one) for one in found if os.path.isfile(one)), None)


class Tally:
    """What the calls over texts came to."""

    def __init__(self):
        self.statuses = collections.Counter()
        self.seconds = (0.0, "")
        self.kilobytes = (0, "")

    def take(self, label, words, answer):
        """Counts a call, and gives what is wrong with its answer alone."""
        self.statuses[words[0], answer.status] += 1
        self.seconds = max(self.seconds, (answer.seconds, f"{label}, {words[0]}"))
        self.kilobytes = max(self.kilobytes, (answer.kilobytes, f"{label}, {words[0]}"))
        fault = fault_of(words[0], answer)
        if fault is None and answer.seconds > MOST_SECONDS:
            fault = f"{answer.seconds:.1f} s"
        return [] if fault is None else [f"{' '.join(words)}: {fault}"]

    def say(self, say):
        say("  statuses: " + ", ".join(f"{command} {status}: {count}" for (command, status), count in sorted(self.statuses.items())))
        say(f"  most time {self.seconds[0]:.2f} s ({self.seconds[1]}), most memory {self.kilobytes[0] / 1024:.0f} MB ({self.kilobytes[1]})")


# A trial yields texts by the words that name them, with calls over these, is sent the answers, and
# returns what is wrong with all of them together.


def shortened(verilog, stimulus):
    """The stimulus with as many rows as a replay has time for: it takes as long as its clocks."""
    cycles = re.search(rb"fx_cycles = ([0-9]{1,4})", verilog)
    rows = MOST_CLOCKS // max(1, int(cycles[1] if cycles else 1))
    lines = stimulus.split(b"\n", rows)
    return stimulus if len(lines) <= rows else b"".join(line + b"\n" for line in lines[:rows])


def models(texts):
    """The calls over a model, a plan and a stimulus."""
    faults = []
    calls = [("check", "m", "p"), ("generate", "m", "p"), ("simulate", "m", "s"), ("stream", "m", "p")]
    checked, made, simulated, streamed = yield texts, calls
    if (checked.status, checked.err) != (made.status, made.err):
        faults.append(f"check: {checked.status} {checked.err!r}, generate: {made.status} {made.err!r}")
    # rule 14 is of a stream alone
    if (streamed.status, streamed.err) != (made.status, made.err) and (made.status or not streamed.err.startswith(b"rule 14 ")):
        faults.append(f"stream: {streamed.status} {streamed.err!r}, generate: {made.status} {made.err!r}")
    # rules 10 to 13 are of a plan
    refused = checked.status == 5 or re.match(rb"rule [1-9] ", checked.err)
    if refused and (checked.status, checked.err) != (simulated.status, simulated.err):
        faults.append(f"check: {checked.status} {checked.err!r}, simulate: {simulated.status} {simulated.err!r}")
    # delays of many elements may make a text that is too long for a file
    is_short = len(made.out) <= MOST_OF_FILE and shortened(made.out, texts["s"]) == texts["s"]
    if made.status == simulated.status == 0 and is_short:
        (replayed,) = yield {"g": made.out, "s": texts["s"]}, [("replay", "g", "s")]
        if (replayed.status, replayed.out) != (0, simulated.out):
            faults.append(f"replay of what generate wrote: {replayed.status} {replayed.err!r}, another response than simulate's")
    return faults


def verilogs(texts):
    """The call over a Verilog text and a stimulus."""
    yield {**texts, "s": shortened(texts["v"], texts["s"])}, [("replay", "v", "s")]
    return []


def tried(program, tally, label, trial):
    """The faults of a trial, each call of which is a process."""
    faults = []
    try:
        texts, calls = next(trial)
        while True:
            for name, text in texts.items():
                program.put(name, text)
            answers = [program.run(*words) for words in calls]
            for words, answer in zip(calls, answers):
                faults += tally.take(label, words, answer)
            texts, calls = trial.send(answers)
    except StopIteration as end:
        return faults + end.value


def case_of(seeds, seed, number):
    """Texts by the words that name them, with the one that is mutated, and how they are tried."""
    rng = random.Random(f"{seed} {number}")
    kind = rng.choice(["model"] * 8 + ["verilog"] * 8 + ["plan"] * 2 + ["stimulus"] * 2)
    if kind == "verilog" or (kind == "stimulus" and rng.random() < 0.5):
        verilog, stimulus = rng.choice(seeds.verilogs)
        texts, names, trial = {"v": verilog, "s": stimulus}, {"verilog": "v", "stimulus": "s"}, verilogs
    else:
        model, plan, stimulus = rng.choice(seeds.models)
        texts, names, trial = {"m": model, "p": plan, "s": stimulus}, {"model": "m", "plan": "p", "stimulus": "s"}, models
    name = names[kind]
    texts[name] = mutant(rng, texts[name], kind, seeds.texts[kind])
    return texts, name, trial


def run(program, options, say):
    """Tries so many cases. Each is known by the seed and its number."""
    seeds = Seeds(program, options.texts or [os.path.join(TOP, "examples")])
    say(f"texts: {len(seeds.models)} models and {len(seeds.verilogs)} Verilog texts, seed {options.seed}")
    tally, wrong, start, done = Tally(), 0, time.monotonic(), 0
    for number in [options.case] if options.case is not None else range(options.cases):
        if time.monotonic() - start > options.seconds:
            break
        texts, name, trial = case_of(seeds, options.seed, number)
        label = f"case {number}"
        faults = tried(program, tally, label, trial(texts))
        done += 1
        if not faults:
            continue
        wrong += 1
        say(f"  {label}, {name}: " + "; ".join(faults))
        kind = faults[0].split(":")[0]
        again = lambda text: any(fault.startswith(kind) for fault in tried(program, tally, label, trial({**texts, name: text})))
        keep(options.keep, number, {**texts, name: shrunk(texts[name], again)})
    say(f"  {done} cases, {tally.statuses.total()} calls, {wrong} cases with a fault, {time.monotonic() - start:.0f} s")
    tally.say(say)
    return wrong


def keep(folder, number, texts):
    """The texts of a case with a fault, the mutated one shrunk."""
    if folder:
        for name, text in texts.items():
            path = os.path.join(folder, f"case_{number}.{name}")
            os.makedirs(folder, exist_ok=True)
            with open(path, "wb") as file:
                file.write(text)
