"""Sections of a model's file, and the strict reader of classic MDL text."""

import re
from collections.abc import Iterator
from dataclasses import dataclass, field

from .report import NotText

NAME = r"[A-Za-z0-9_.$]+"
BLANKS = " \t\r"
STRING = re.compile(r'"((?:[^"\\]|\\.)*)"')
ESCAPES = {r"\n": "\n", r"\t": "\t", r"\"": '"', r"\\": "\\"}
BEGINS = re.compile(rf"({NAME})[{BLANKS}]*{{")
PARAMETER = re.compile(rf"({NAME})(?:[{BLANKS}]+(.*))?", re.S)


@dataclass
class Section:
    """A section with its first parameter of each name, the line of each, and the sections in it."""

    name: str
    line: int
    part: str = ""
    parameters: dict[str, str] = field(default_factory=dict)
    lines: dict[str, int] = field(default_factory=dict)
    sections: list["Section"] = field(default_factory=list)

    def get(self, name: str, default: str = "") -> str:
        return self.parameters.get(name, default)

    def all(self, name: str) -> list["Section"]:
        return [section for section in self.sections if section.name == name]

    def put(self, name: str, value: str, line: int) -> None:
        if name not in self.parameters:
            self.parameters[name], self.lines[name] = value, line

    def inside(self) -> Iterator["Section"]:
        """The section and all that it holds."""
        yield self
        for section in self.sections:
            yield from section.inside()


def strings(text: str, line: int) -> str:
    """The strings of a line, joined."""
    if STRING.sub("", text).strip(BLANKS):
        raise NotText(f"line {line}: not MDL text")
    return "".join(re.sub(r"\\.", lambda it: ESCAPES.get(it[0], it[0]), string) for string in STRING.findall(text))


def brackets(text: str) -> int:
    """By how many brackets a text opens more than it closes, those in strings left out."""
    outside = STRING.sub("", text)
    return outside.count("[") - outside.count("]")


class Reader:
    """Reads the lines of a text, from the first to the last."""

    def __init__(self, text: str, first: int = 1):
        self.lines = enumerate(text.split("\n"), first)
        self.root = Section("", 0)
        self.open = [self.root]
        self.last: str | None = None

    def list_of(self, number: int, value: str) -> str:
        """A list that may go on over further lines."""
        pieces, depth = [value], brackets(value)
        while depth > 0:
            _, further = next(self.lines, (0, None))
            if further is None:
                raise NotText(f"line {number}: a list without an end")
            pieces.append(further.strip(BLANKS))
            depth += brackets(further)
        return "\n".join(pieces)

    def parameter(self, number: int, name: str, value: str) -> None:
        here = self.open[-1]
        if value.startswith('"'):
            value, self.last = strings(value, number), name if name not in here.parameters else ""
        elif value.startswith("["):
            value = self.list_of(number, value)
        here.put(name, value, number)

    def line(self, number: int, text: str) -> None:
        if text.startswith('"') and self.last is not None:
            if self.last:
                self.open[-1].parameters[self.last] += strings(text, number)
            return
        self.last = None
        begins, parameter = BEGINS.fullmatch(text), PARAMETER.fullmatch(text)
        if not text or text.startswith("#"):
            return
        if begins:
            self.open[-1].sections.append(Section(begins[1], number))
            self.open.append(self.open[-1].sections[-1])
        elif text == "}" and len(self.open) > 1:
            self.open.pop()
        elif parameter:
            self.parameter(number, parameter[1], parameter[2] or "")
        else:
            raise NotText(f"line {number}: not MDL text")
        if len(self.open) > 257:
            raise NotText(f"line {number}: sections nest more than 256 deep")

    def read(self) -> Section:
        for number, text in self.lines:
            self.line(number, text.strip(BLANKS))
        if len(self.open) > 1:
            raise NotText(f"line {self.open[-1].line}: the section {self.open[-1].name} has no end")
        return self.root


def read(text: str) -> Section:
    """The sections of a classic MDL text, in a section of their own; raises NotText at a line without a form."""
    return Reader(text).read()
