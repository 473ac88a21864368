"""Bugs planted in a module's text: one place of it changed, of which rules say where it stands and as what.

A rule knows the grammar of the Verilog subset (docs/FORMATS.md) and no text: of a text that is written otherwise
it finds the places as well. Not each change is a bug, as a number that no output depends on.
"""

import random
import re
from dataclasses import dataclass
from enum import Enum
from typing import Callable, Iterator, Optional

from belongs import CONTROLS, DEFINES
from estimate import needed
from subset import module_of


class Plant(Enum):
    """What is wrong with a text."""

    LATER = "a latency a clock more"
    EARLIER = "a latency a clock less"
    RESET = "a reset value's last bit"
    RESET_SIGN = "a reset value's first bit"
    STALL = "a register that takes while the module stands still"
    ENABLE = "an enable that is turned"
    ALWAYS = "an enable that is left out"
    PASSED = "a register that is passed by"
    SLOT = "a slot"
    SIGN = "a sign"
    ORDER = "the order of a difference"
    FACTOR = "a product that is a sum"
    RELATION = "a relation that is turned"
    BOUND = "a relation's bound"
    EQUALITY = "an equality that is turned"
    GATE = "a gate"
    CHOICE = "the order of a choice"
    CONSTANT = "a constant's last bit"
    SIGNED = "a net without its sign"
    WIDTH = "a net a bit too narrow"
    PLACE = "bits a place off"
    INPUT = "an input in another's place"
    OUTPUT = "an output's bits"
    TOLD = "a clock that is always told"


@dataclass(frozen=True)
class Edit:
    """A part of a text, and what is to stand there."""

    begin: int
    end: int
    text: str


Rule = Callable[[str], Iterator[Edit]]
NUMBER = r"(\d+)'(s?)d(\d+)"
TAKING = r"else if \(([^;\n]*)\) (?=\w+ <= )"
CLOSING = {"(": ")", "{": "}"}


def expression_end(text: str, at: int) -> int:
    """Where the expression ends that begins at a place."""
    found = re.compile(r"\$?[\w']+(\[[^\]]*\])?").match(text, at)
    if found and text[found.end() : found.end() + 1] != "(":
        return found.end()
    at = found.end() if found else at
    left, right, depth = text[at], CLOSING.get(text[at], ""), 0
    while at < len(text):
        depth += (text[at] == left) - (text[at] == right)
        at += 1
        if depth == 0:
            break
    return at


def parts_of(text: str, mark: str, *marks: str) -> Iterator[list[tuple[int, int]]]:
    """Where the operands stand of each expression in brackets with these marks between them."""
    for found in re.finditer(r"\(", text):
        at, places = found.end(), []
        for between in (mark, *marks, ")"):
            end = expression_end(text, at)
            places.append((at, end))
            if not text.startswith(between, end):
                break
            at = end + len(between)
        else:
            yield places


def replaced(form: str, otherwise: Callable[[re.Match[str]], Optional[str]]) -> Rule:
    """Each match of a form as something else, where that is given."""

    def rule(text: str) -> Iterator[Edit]:
        for found in re.finditer(form, text):
            other = otherwise(found)
            if other is not None:
                yield Edit(*found.span(), other)

    return rule


def swapped(mark: str, *marks: str) -> Rule:
    """The last two operands of each such expression exchanged."""

    def rule(text: str) -> Iterator[Edit]:
        for *_, left, right in parts_of(text, mark, *marks):
            yield Edit(left[0], right[1], text[slice(*right)] + text[left[1] : right[0]] + text[slice(*left)])

    return rule


def turned(mark: str, other: str) -> Rule:
    """An operator of two operands as another one."""

    def rule(text: str) -> Iterator[Edit]:
        for left, right in parts_of(text, f" {mark} "):
            yield Edit(left[1], right[0], f" {other} ")

    return rule


def any_of(*rules: Rule) -> Rule:
    return lambda text: (edit for rule in rules for edit in rule(text))


def exchanged(*pairs: str) -> Rule:
    """An operator exchanged for the other of its pair, both ways."""
    return any_of(*(turned(*way) for left, right in map(str.split, pairs) for way in ((left, right), (right, left))))


def flipped(before: str, bit: Callable[[int], int]) -> Rule:
    """A bit of each number behind a form turned, by the number's width."""

    def otherwise(found: re.Match[str]) -> str:
        width, sign, value = found.groups()[-3:]
        return f"{found[0][: found.start(found.lastindex - 2) - found.start()]}{width}'{sign}d{int(value) ^ 1 << bit(int(width))}"

    return replaced(before + NUMBER, otherwise)


def stepped(by: int) -> Rule:
    return replaced(r"fx_latency = (\d+)", lambda found: f"fx_latency = {int(found[1]) + by}" if int(found[1]) + by >= 0 else None)


def passed(text: str) -> Iterator[Edit]:
    """A register's next value in place of the register, where an assignment reads it."""
    for register, following in re.findall(r"\b(\w+) <= (\w+);", text):
        for line in re.finditer(rf"assign (?!{following}\b)\w+ = ([^;\n]*\b{register}\b[^;\n]*);", text):
            for read in re.finditer(rf"\b{register}\b(?!\[)", line[1]):
                yield Edit(line.start(1) + read.start(), line.start(1) + read.end(), following)


def exchanged_input(text: str) -> Iterator[Edit]:
    """An input of the same form in place of another, where it is read."""
    ports = re.findall(r"input wire ((?:signed )?(?:\[\d+:0\] )?)(\w+)", text)
    for form, name in ports:
        others = [it for of, it in ports if of == form and it != name and not {it, name} & {"clk", "reset", "clk_enable"}]
        for read in re.finditer(rf"= [^;\n]*?\b({name})\b", text):
            for it in others[:1]:
                yield Edit(*read.span(1), it)


def lower(found: re.Match[str]) -> Optional[str]:
    """A select one place further down."""
    places = [int(place) - 1 for place in found[2].split(":")]
    return f"{found[1]}[{':'.join(map(str, places))}]" if min(places) >= 0 else None


RULES: dict[Plant, Rule] = {
    Plant.LATER: stepped(1),
    Plant.EARLIER: stepped(-1),
    Plant.RESET: flipped(r"if \(reset\) \w+ <= ", lambda width: 0),
    Plant.RESET_SIGN: flipped(r"if \(reset\) \w+ <= ", lambda width: width - 1),
    Plant.STALL: replaced(r"(else if \([^;\n]*)\bclk_enable\b", lambda found: f"{found[1]}1'd1"),
    Plant.ENABLE: replaced(TAKING, lambda found: f"else if ((! {found[1]})) "),
    Plant.ALWAYS: replaced(TAKING, lambda found: "else "),
    Plant.PASSED: passed,
    Plant.SLOT: flipped(" == ", lambda width: 0),
    Plant.SIGN: exchanged("+ -"),
    Plant.ORDER: swapped(" - "),
    Plant.FACTOR: turned("*", "+"),
    Plant.RELATION: exchanged("< >", "<= >="),
    Plant.BOUND: exchanged("< <=", "> >="),
    Plant.EQUALITY: exchanged("== !="),
    Plant.GATE: exchanged("& |", "&& ||", "^ &"),
    Plant.CHOICE: swapped(" ? ", " : "),
    Plant.CONSTANT: flipped(r"(?:assign \w+ = |<= (?!\d+'s?d\d+;\s*else))[^;\n]*?", lambda width: 0),
    Plant.SIGNED: replaced(r"\b(wire|reg) signed (?=\[\d+:0\] \w+;)", lambda found: f"{found[1]} "),
    Plant.WIDTH: replaced(r"\[(\d+):0\] (?=\w+;)", lambda found: f"[{int(found[1]) - 1}:0] "),
    Plant.PLACE: any_of(replaced(r"\b(\w+)\[(\d+(?::\d+)?)\](?! *\w)", lower), flipped(" (?:<<|>>>?) ", lambda width: 0)),
    Plant.INPUT: exchanged_input,
    Plant.OUTPUT: replaced(r"assign (?!fx_|ce_out\b)(\w+) = ([^;\n]+);", lambda found: f"assign {found[1]} = (~ {found[2]});"),
    Plant.TOLD: replaced(r"assign ce_out = [^;\n]+;", lambda found: "assign ce_out = 1'd1;"),
}


def defined_at(text: str, place: int) -> Optional[str]:
    """The net that the line of a place declares or drives."""
    end = text.find("\n", place)
    found = DEFINES.search(text[text.rfind("\n", 0, place) + 1 : end if end >= 0 else len(text)])
    return next(filter(None, found.groups()), None) if found else None


def planted(plant: Plant, text: str, chance: random.Random) -> Optional[str]:
    """The text with one place of this kind changed, where it has one on which an output depends."""
    counting = {None, *CONTROLS} | needed(module_of(text))
    edits = [edit for edit in RULES[plant](text) if defined_at(text, edit.begin) in counting]
    if not edits:
        return None
    edit = chance.choice(edits)
    return text[: edit.begin] + edit.text + text[edit.end :]


def all_planted(text: str, first: int, chance: random.Random, rounds: int = 2) -> Iterator[tuple[Plant, str]]:
    """Texts with a bug each, kind by kind, begun with the kind of a number."""
    kinds = list(Plant)
    for at in range(rounds * len(kinds)):
        kind = kinds[(first + at) % len(kinds)]
        changed = planted(kind, text, chance)
        if changed is not None:
            yield kind, changed
