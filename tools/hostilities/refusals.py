"""Calls of the allocator and of the system that are refused, one after another."""

import os
import shutil
import subprocess

from .calls import Answer, fault_of
from .largest import chain
from .texts import TOP, held

SOURCE = os.path.join(os.path.dirname(os.path.abspath(__file__)), "refuse.c")
# The examples that are called: one clock, a pipeline, shared multipliers, two rates.
EXAMPLES = ["unit_delay", "pipelined_gain", "three_products", "pipelined_to_slow"]


def library_of(program, say):
    """The library that refuses, or None without a compiler of C."""
    compiler = shutil.which("cc")
    if compiler is None:
        say("  no cc: nothing is refused")
        return None
    path = program.at("refuse.so")
    subprocess.run([compiler, "-O2", "-shared", "-fPIC", "-o", path, SOURCE, "-ldl"], check=True)
    return path


def runs_of(program):
    """The words of the calls, each over its files."""
    for name in EXAMPLES:
        for ending, short in ((".mdl", "m"), (".stim", "s"), (".plan", "p")):
            path = os.path.join(TOP, "examples", name + ending)
            program.put(f"{name}.{short}", held(path) if os.path.isfile(path) else b"")
        made = program.run("generate", f"{name}.m", f"{name}.p")
        program.put(f"{name}.v", made.out)
        yield "check", f"{name}.m", f"{name}.p"
        yield "simulate", f"{name}.m", f"{name}.s"
        yield "generate", f"{name}.m", f"{name}.p"
        # rule 14 refuses a model with ports of slower periods
        if program.run("stream", f"{name}.m", f"{name}.p").status == 0:
            yield "stream", f"{name}.m", f"{name}.p"
        yield "replay", f"{name}.v", f"{name}.s"
        yield "flatten", f"{name}.v"
    yield "explore", f"{EXAMPLES[2]}.m", "3..4,0..1"
    yield "sample", "1"


class Refused:
    """Calls with a refusal."""

    def __init__(self, program, library, say):
        self.program, self.library, self.say = program, library, say
        self.wrong = 0

    def answer(self, words, kind, number, how):
        told = self.program.at("told")
        environment = {"LD_PRELOAD": self.library, "REFUSE": f"{kind} {number} {how}", "TOLD": told}
        answer = self.program.run(*words, environment=environment)
        return answer, int(self.program.got("told") or 0) if os.path.isfile(told) else 0

    def count(self, words, kind):
        """How many calls of a kind there are."""
        return self.answer(words, kind, 1 << 40, "once")[1]

    def blame(self, text):
        self.wrong += 1
        if self.wrong <= 50:
            self.say(f"  {text}")

    def each(self, words, kind, how, judged, most):
        """Refuses each call of a kind, or as many as are to be tried, and counts the answers."""
        total = self.count(words, kind)
        statuses = {}
        for number in range(1, min(total, most) + 1):
            answer, _ = self.answer(words, kind, number, how)
            statuses[answer.status] = statuses.get(answer.status, 0) + 1
            fault = judged(answer)
            if fault is not None:
                self.blame(f"{' '.join(words)}, {kind} {number} {how}: {fault}")
        return total, statuses


def is_whole(answer, whole):
    return (answer.status, answer.out, answer.err) == (whole.status, whole.out, whole.err)


def want_of_memory(words, answer, whole):
    """A refused allocation ends the call with status 1 and no output, or changes nothing."""
    return None if is_whole(answer, whole) else fault_of(words[0], answer, {1})


def shown(statuses):
    return ", ".join(f"{count} of status {status}" for status, count in sorted(statuses.items()))


def memory(program, options, say):
    say("memory: each allocation refused in turn, all from one on, each thread, and less and less room")
    library = library_of(program, say)
    if library is None:
        return 0
    refused = Refused(program, library, say)
    for words in runs_of(program):
        whole = program.run(*words)
        for how in ("once", "on"):
            total, statuses = refused.each(words, "memory", how, lambda answer: want_of_memory(words, answer, whole), options.most)
            say(f"  {' '.join(words)}: {total} allocations, {how}: {shown(statuses)}")
    for words in long_runs_of(program):
        whole = program.run(*words)
        for how in ("once", "on"):
            total, statuses = refused.each(words, "thread", how, lambda answer: want_of_memory(words, answer, whole), options.most)
            say(f"  {' '.join(words)}: {total} threads, {how}: {shown(statuses)}")
        refused.wrong += less_room(program, words, whole, say)
    return refused.wrong


def long_runs_of(program):
    """The words of calls that take more memory, and of those that have threads."""
    program.put("delays", chain("UnitDelay", 19998))
    program.put("text", program.run("generate", "delays", "-").out)
    program.put("few", b"5\n6\n")
    yield "check", "delays", "-"
    yield "simulate", "delays", "few"
    yield "generate", "delays", "-"
    yield "stream", "delays", "-"
    yield "replay", "text", "few"
    yield "flatten", "text"
    yield "explore", f"{EXAMPLES[2]}.m", "1..128,0..3"
    yield "sample", "20"


def in_room(program, words, room):
    """The call with so many kilobytes of memory."""
    limiter = ["/bin/sh", "-c", f'ulimit -v {room}; exec "$0" "$@"', program.path, *words]
    found = subprocess.run(limiter, cwd=program.folder, stdin=subprocess.DEVNULL, capture_output=True)
    return Answer(found.returncode, found.stdout, found.stderr, 0.0, 0)


def less_room(program, words, whole, say):
    """The call in less and less room, until the program can't be loaded."""
    wrong, statuses, room = 0, {}, 262144
    while room > 2500:
        answer = in_room(program, words, room)
        if answer.status not in (0, 1) and b"shared" in answer.err:
            break
        statuses[answer.status] = statuses.get(answer.status, 0) + 1
        fault = want_of_memory(words, answer, whole)
        if fault is not None:
            wrong += 1
            say(f"  {' '.join(words)} in {room} kB: {fault}")
        room -= max(97, room // 15)
    say(f"  {' '.join(words)}, in less and less room down to {room} kB: {shown(statuses)}")
    return wrong


def calls(program, options, say):
    say("calls: each open, read and write refused, cut short or interrupted in turn")
    library = library_of(program, say)
    if library is None:
        return 0
    refused = Refused(program, library, say)
    for words in runs_of(program):
        whole = program.run(*words)
        found = []
        for kind, hows in (("open", ("once", "again")), ("read", ("once", "again", "short")), ("write", ("once", "on", "again", "short"))):
            for how in hows:
                total, statuses = refused.each(words, kind, how, lambda answer: refusal(words, answer, whole, kind, how), options.most)
                found.append(f"{kind} {how} ({total}): {shown(statuses)}")
        say(f"  {' '.join(words)}: " + "; ".join(found))
    return refused.wrong


def refusal(words, answer, whole, kind, how):
    """What a refused call of the system may come to. Of the files that `explore` and `sample` open one is
    the system's, which says how many processors there are, and which it does without."""
    if how == "short" and not is_whole(answer, whole):
        return f"a call cut short changes the answer: status {answer.status}"
    if is_whole(answer, whole):
        is_done_without = how in ("short", "again") or kind == "open" and words[0] in ("explore", "sample")
        return None if is_done_without else "a refused call changes nothing"
    if kind != "write":
        return fault_of(words[0], answer, {3})
    if not whole.out.startswith(answer.out) or answer.out == whole.out:
        return "the output is no beginning"
    return fault_of(words[0], answer, {4}) if answer.err or how != "on" else None
