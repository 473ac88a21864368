"""Odd words, and files that are no files."""

import os

from .calls import fault_of
from .texts import TOP, held

FILES = {"check": 2, "simulate": 2, "generate": 2, "replay": 2, "explore": 1, "flatten": 1, "stream": 2, "sample": 0}
NUMBERS = ["", "-", "0", "5001", "01", "+1", "-1", "1 ", " 1", "1\n", "1.0", "1e3", "5000x", "4294967297", "18446744073709551617", "\udcff", "é", "9" * 100000]
RANGES = ["", "-", "1..1", "1..1,0..0,", "0..1,0..0", "2..1,0..0", "1..1025,0..0", "1..1,0..65", "01..1,0..0", "1..1,0..0 ", " 1..1,0..0", "1..1024,0..64", "1..99999999999999999999,0..0", "+1..1,0..0", "1..1,-1..0", "1...1,0..0", "1..1,0..0\n", "\udcff", "é..1,0..0", "1" * 100000]


def places(program):
    """Words that name no file whose bytes could be a text, by what they are."""
    name = program.at("nothing")
    loop = program.at("loop")
    if not os.path.islink(loop):
        os.symlink("loop", loop)
        os.mkdir(program.at("folder"))
        os.mkfifo(program.at("fifo"))
        program.put("shut", b"Model {\n}\n")
        os.chmod(program.at("shut"), 0)
    found = {"no file": name, "no word": "", "a folder": program.at("folder"), "a loop of links": loop, "a long name": "n" * 300, "a long path": "/" + "n/" * 3000, "a blank": " ", "a file as folder": program.at("m") + "/m", "an option": "--help", "memory": "/proc/self/mem"}
    if os.geteuid():
        found["a shut file"] = program.at("shut")
    return found


def run(program, _options, say):
    say("words: odd words and files")
    for word, ending in (("m", ".mdl"), ("s", ".stim"), ("v", ".v")):
        program.put(word, held(os.path.join(TOP, "examples", "unit_delay" + ending)))
    program.put("p", b"")
    good = {"check": ["m", "p"], "simulate": ["m", "s"], "generate": ["m", "p"], "replay": ["v", "s"], "explore": ["m", "1..1,0..0"], "flatten": ["v"], "stream": ["m", "p"], "sample": ["1"]}
    wrong = calls = 0

    def tried(what, words, statuses, command="check"):
        nonlocal wrong, calls
        calls += 1
        answer = program.run(*[os.fsencode(word) for word in words])
        fault = fault_of(command, answer, statuses)
        if fault is not None:
            wrong += 1
            say(f"  {what}, {[word[:40] for word in words]}: {fault}")

    for command, words in good.items():
        tried("good", [command, *words], {0}, command)
        for what, word in places(program).items():
            for place in range(FILES[command]):
                tried(what, [command, *words[:place], word, *words[place + 1 :]], {3}, command)
        for what, word, statuses in (("nothing", "/dev/null", {0, 6, 7, 8}), ("no end", "/dev/zero", {9})):
            for place in range(FILES[command]):
                tried(what, [command, *words[:place], word, *words[place + 1 :]], statuses, command)
        for place in range(FILES[command]):
            # words that aren't all UTF-8 are no command, whether or not a file has such a name
            tried("no text", [command, *words[:place], "\udcff\udcfe", *words[place + 1 :]], {2}, command)
        for some in ([command], [command, *words[:-1]], [command, *words, "x"], [command.upper(), *words], ["", command, *words], [command + " ", *words], [command + "\n", *words], ["\udcff", *words]):
            tried("no command", some, {2}, command)
    tried("no words", [], {2})
    for word in RANGES:
        tried("a range", ["explore", "m", word], {2, 0, 7} if word == "1..1024,0..64" else {2}, "explore")
    for word in NUMBERS:
        tried("a number", ["sample", word], {2}, "sample")
    tried("many words", ["check"] * 20000, {2})
    tried("a long word", ["check", "m" * 100000, "-"], {3})
    tried("the plan", ["check", "m", "-"], {0})
    tried("no plan", ["simulate", "m", "-"], {3}, "simulate")
    say(f"  {calls} calls, {wrong} with a fault")
    return wrong
