"""What is told of a model: a log of what was done, and what can't be rewritten."""

import os
import sys
from dataclasses import dataclass, field

sys.path.insert(0, os.path.dirname(os.path.dirname(os.path.abspath(__file__))))
from mdl import shown

# The most characters of a value that are shown.
LONGEST = 120


@dataclass(frozen=True)
class Place:
    """A line of a file or of a part of a package, and what stands there."""

    line: int
    part: str = ""
    path: str = "model"

    def __str__(self) -> str:
        part = f"{self.part} " if self.part else ""
        path = self.path if self.path == "model" else shown(self.path)
        return f"{part}line {self.line}: {path}"


class Refusal(Exception):
    """What can't be rewritten: the parameter and its value, why, and what would do."""

    def __init__(self, why: str, remedy: str, parameter: str = "", value: str = ""):
        super().__init__(why)
        self.why, self.remedy, self.parameter, self.value = why, remedy, parameter, value

    def told(self) -> str:
        value = self.value if len(self.value) <= LONGEST else self.value[: LONGEST - 3] + "..."
        said = f"{self.parameter} {shown(value)}: " if self.parameter else ""
        return f"{said}{self.why}; {self.remedy}"


class NotText(Exception):
    """A file that isn't of any form that is read: why."""


class NotYet(Exception):
    """A type, a width or a period that isn't known so far: whose."""


@dataclass
class Report:
    """Lines of the log and refusals, each with its place."""

    done: list[tuple[Place, str]] = field(default_factory=list)
    refused: list[tuple[Place, str]] = field(default_factory=list)

    def tell(self, place: Place, said: str) -> None:
        if (place, said) not in self.done:
            self.done.append((place, said))

    def refuse(self, place: Place, refusal: Refusal) -> None:
        if (place, refusal.told()) not in self.refused:
            self.refused.append((place, refusal.told()))

    @staticmethod
    def lines(told: list[tuple[Place, str]]) -> list[str]:
        ordered = sorted(told, key=lambda it: (it[0].part, it[0].line))
        return [f"{place}: {said}" for place, said in ordered]
