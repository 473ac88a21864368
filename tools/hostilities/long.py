"""Texts of the greatest length, and one byte longer, in each place."""

import os

from .calls import fault_of
from .texts import TOP, held

MOST = 16777216
PLACES = {"check": ["m", "p"], "simulate": ["m", "s"], "generate": ["m", "p"], "replay": ["v", "s"], "explore": ["m"], "flatten": ["v"], "stream": ["m", "p"]}
# The status of a text of the greatest length that is this byte throughout, by the word that it stands for.
ALIKE = {
    b"\0": {"m": 5, "p": 6, "s": 6, "v": 8},
    b"\n": {"m": 7, "p": 0, "s": 6, "v": 8},
    b" ": {"m": 7, "p": 0, "s": 6, "v": 8},
    b"a": {"m": 7, "p": 6, "s": 6, "v": 8},
    b"#": {"m": 7, "p": 0, "s": 6, "v": 8},
    b'"': {"m": 5, "p": 6, "s": 6, "v": 8},
    b"[": {"m": 5, "p": 6, "s": 6, "v": 8},
    b"(": {"m": 5, "p": 6, "s": 6, "v": 8},
    b"9": {"m": 7, "p": 6, "s": 6, "v": 8},
    b"\\": {"m": 5, "p": 6, "s": 6, "v": 8},
}
# The same of a text that is these bytes again and again, behind those of the good text.
BEHIND = {"m": (b"# so\n", 0), "p": (b"# so\n", 0), "s": (b"7\n", 0), "v": (b"\n\n", 0)}


def run(program, _options, say):
    say("long: texts of 16,777,217 and of 16,777,216 bytes in each place")
    goods = {word: held(os.path.join(TOP, "examples", "unit_delay" + ending)) for word, ending in (("m", ".mdl"), ("s", ".stim"), ("v", ".v"))}
    goods["p"] = b""
    wrong = calls = 0
    for word, text in goods.items():
        program.put(word, text)

    def tried(what, command, place, statuses, line=None):
        nonlocal wrong, calls
        words = [command, *PLACES[command]] + ["1..2,0..1"] * (command == "explore")
        words[1 + place] = "long"
        answer = program.run(*words)
        calls += 1
        fault = fault_of(command, answer, statuses)
        if fault is None and line is not None and answer.err != line:
            fault = f"{answer.err!r}"
        if fault is not None:
            wrong += 1
            say(f"  {what}, {' '.join(words)}: {fault}")
        else:
            say(f"  {what}, {' '.join(words)}: status {answer.status}, {answer.seconds:.2f} s, {answer.kilobytes / 1024:.0f} MB")

    def in_each(what, statuses, line=None, only=None):
        for command, words in PLACES.items():
            for place, word in enumerate(words):
                if only is None or word == only:
                    tried(what, command, place, {statuses[word]} if isinstance(statuses, dict) else statuses, line)

    for length in (MOST + 1, 2 * MOST):
        program.make("long", lambda: bytes(length))
        in_each(f"{length} zeros", {9}, b"long: %d bytes, at most %d\n" % (MOST + 1, MOST))
    for byte, statuses in ALIKE.items():
        program.make("long", lambda: byte * MOST)
        in_each(f"{MOST} times {byte!r}", statuses)
    for word, (part, status) in BEHIND.items():
        program.make("long", lambda: goods[word] + part * ((MOST - len(goods[word])) // len(part)))
        in_each(f"a good text with {part!r} behind it", {status}, only=word)
    say(f"  {calls} calls, {wrong} with a fault")
    return wrong
