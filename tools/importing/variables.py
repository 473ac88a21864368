"""Variables from a `.m` script of assignments or from `.json`."""

import json
import re
from collections.abc import Iterator
from fractions import Fraction

from .expressions import evaluate
from .functions import Fault, matrix
from .report import NotText
from .values import Matrix, Value, row, scalar

ASSIGNMENT = re.compile(r"\s*([A-Za-z]\w*(?:\.[A-Za-z]\w*)*)\s*=(?!=)\s*(.+)", re.S)


class Script:
    """Parts a script into statements, each with its line, without comments."""

    def __init__(self) -> None:
        self.line, self.begun, self.depth, self.skipped = 0, 1, 0, 0
        self.pieces: list[str] = []

    def end(self) -> Iterator[tuple[int, str]]:
        yield self.begun, "".join(self.pieces)
        self.pieces = []

    def signs(self, source: str) -> Iterator[tuple[int, str]]:
        """Takes a line of the script, and gives the statements that end in it."""
        quoted, last = False, "".join(self.pieces)[-1:]
        for place, sign in enumerate(source):
            if quoted:
                quoted = sign != "'"
            elif sign == "%":
                break
            elif source.startswith("...", place):
                self.pieces.append(" ")
                return
            elif sign in ";," and self.depth == 0:
                yield from self.end()
                last = ""
                continue
            else:
                quoted = sign == "'" and not re.match(r"[\w)\]'.]", last)
                self.depth += (sign in "[(") - (sign in "])")
            self.begun = self.begun if self.pieces else self.line
            self.pieces.append(sign)
            last = sign
        if self.depth > 0:
            self.pieces.append(";")
        else:
            yield from self.end()

    def statements(self, text: str) -> Iterator[tuple[int, str]]:
        for source in text.split("\n"):
            self.line += 1
            if source.strip() in ("%{", "%}"):
                self.skipped += 1 if source.strip() == "%{" else -1
            elif self.skipped == 0:
                yield from self.signs(source)
        yield from self.end()


def assign(text: str, names: dict[str, Value]) -> list[tuple[int, str, str]]:
    """Takes the assignments of a script into `names`; gives each other statement with its line, and why."""
    passed = []
    for line, statement in Script().statements(text):
        if not statement.strip():
            continue
        found = ASSIGNMENT.fullmatch(statement)
        try:
            if not found:
                raise Fault("no assignment to a name")
            names[found[1]] = evaluate(found[2], names)
        except Fault as fault:
            if found:
                names.pop(found[1], None)
            passed.append((line, statement.strip(), str(fault)))
    return passed


def of_json(value: object) -> Value:
    """A number, a text that is evaluated, or a list of numbers or of rows."""
    if isinstance(value, bool):
        return scalar(value)
    if isinstance(value, (Fraction, int)):
        return scalar(Fraction(value))
    if isinstance(value, str):
        return evaluate(value, {})
    if isinstance(value, list) and value:
        if all(isinstance(it, list) for it in value):
            return Matrix(tuple(tuple(matrix(of_json(it)).rows[0][0] for it in line) for line in value))
        return row([matrix(of_json(it)).rows[0][0] for it in value])
    raise Fault("neither a number, a text, nor a list of these")


def read(name: str, text: str, names: dict[str, Value]) -> list[tuple[int, str, str]]:
    """Takes the variables of a file into `names`; gives what is passed over, as `assign` does."""
    if not name.endswith(".json"):
        return assign(text, names)
    try:
        found = json.loads(text, parse_float=Fraction, parse_int=Fraction)
    except (ValueError, RecursionError) as fault:
        raise NotText(f"{name}: not JSON: {fault}") from fault
    if not isinstance(found, dict):
        raise NotText(f"{name}: no object of names")
    passed = []
    for key, value in found.items():
        try:
            names[key] = of_json(value)
        except Fault as fault:
            passed.append((1, key, str(fault)))
    return passed
