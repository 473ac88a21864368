"""The command `import`: reads a model and its variables, rewrites it, and tells what was done."""

import argparse
import os
import sys
from fractions import Fraction
from typing import TextIO

import mdl

from . import archive, sections, variables
from .model import Model, build
from .report import NotText, Place, Refusal, Report
from .settings import Settings, short
from .steps import Passes
from .structure import Masks, Tags, comment_out, drop_displays, take_callbacks
from .values import Value
from .writer import Periods, Writer

LARGEST = 1 << 26


def load(path: str) -> bytes:
    with open(path, "rb") as file:
        data = file.read(LARGEST + 1)
    if len(data) > LARGEST:
        raise NotText(f"more than {LARGEST} bytes")
    return data


def text_of(data: bytes) -> str:
    """A text in UTF-8, or in the encoding that its second line of parameters names."""
    try:
        return data.decode("utf-8-sig")
    except UnicodeDecodeError:
        if b"SavedCharacterEncoding" in data and not any(name in data for name in (b"ISO-8859", b"windows-125", b"US-ASCII", b"UTF-8")):
            raise NotText("an encoding of two bytes: save it under UTF-8") from None
        return data.decode("latin-1")


def sections_of(data: bytes) -> sections.Section:
    """The sections of a file of any form."""
    if data.startswith(b"PK"):
        return archive.Package(archive.parts_of_archive(data)).read()
    text = text_of(data)
    if text.startswith(archive.HEAD) or archive.PART.search(text):
        return archive.Package(archive.parts_of_package(text)).read()
    return sections.read(text)


def look_at_model(model: Model, report: Report) -> None:
    """Refuses settings of the whole model that would change types or numbers."""
    for section in model.section.inside():
        if section.name in ("Block", "System"):
            continue
        for name, harmless, holds in mdl.OF_MODEL:
            said = section.get(name)
            if said and said not in harmless:
                report.refuse(Place(section.lines[name], section.part), Refusal(f"not covered: else {holds}", "set " + " or ".join(harmless), name, said))


def rewrite(model: Model, names: dict[str, Value], report: Report) -> None:
    """Takes the model, step by step, into the profile."""
    settings = Settings(report)
    take_callbacks(model, names, report)
    model.root.names = names
    look_at_model(model, report)
    for place, said in model.lost:
        report.tell(place, said)
    originals = [(block, block.place()) for block in model.blocks()]
    comment_out(model, report)
    drop_displays(model, report)
    Tags(model, report).join()
    Masks(settings, report).take(model)
    Passes(model, settings, report).run()
    look_at_ports(model, report)
    told = {place.path for place, _ in report.done + report.refused}
    for block, place in originals:
        if place.path not in told:
            report.tell(place, f"{block.kind}: as it stands")


def look_at_ports(model: Model, report: Report) -> None:
    """Says what the base sample is of inputs that inherit their sample time, and asks for their types."""
    for block in model.root.blocks:
        if block.kind == "Inport" and block.settled:
            if str(block.parameters["OutDataTypeStr"]).startswith("Inherit"):
                report.refuse(block.place("OutDataTypeStr"), Refusal("an input without a type", "declare a type", "OutDataTypeStr", str(block.parameters["OutDataTypeStr"])))
            if not isinstance(block.parameters["SampleTime"], Fraction):
                report.tell(block.place(), "Inport: it inherits its sample time, which is a base sample here")


def parsed(words: list[str]) -> argparse.Namespace:
    parser = argparse.ArgumentParser(prog="tools/import", description="Rewrites a model as it is drawn into the profile that tilecatnip takes.")
    parser.add_argument("model", metavar="MODEL", help="classic MDL text, a .slx, or MDL text that is a package")
    parser.add_argument("--variables", metavar="FILE", action="append", default=[], help="values: a .m script of assignments, or .json")
    parser.add_argument("-o", dest="out", metavar="OUT", help="where the model goes; else to standard output")
    parser.add_argument("--log", metavar="FILE", help="where the log goes; else to standard error")
    return parser.parse_args(words)


def variables_of(paths: list[str], report: Report) -> dict[str, Value]:
    names: dict[str, Value] = {}
    for path in paths:
        for line, statement, why in variables.read(path, text_of(load(path)), names):
            report.tell(Place(line, os.path.basename(path)), f"{short(statement)} is passed over: {why}")
    return names


def put(path: str | None, text: str, otherwise: TextIO) -> None:
    """Writes a text to a file, or where there is none to a stream."""
    if path is None:
        otherwise.write(text)
        return
    with open(path, "w", encoding="utf-8") as file:
        file.write(text)


def imported(data: bytes, path: str, names: dict[str, Value], report: Report) -> str | None:
    """The rewritten text of a model; none where something is refused."""
    model = build(sections_of(data))
    model.name = model.name or os.path.splitext(os.path.basename(path))[0]
    rewrite(model, names, report)
    periods = Periods(model, report)
    if report.refused:
        return None
    return Writer(periods).model(model, f"Rewritten by tools/import from {os.path.basename(path)}.")


def run(words: list[str]) -> int:
    """The status: 0 where the model is written, 1 where something can't be rewritten, 2 where a file can't be read."""
    given, report = parsed(words), Report()
    try:
        text = imported(load(given.model), given.model, variables_of(given.variables, report), report)
        if text is None:
            sys.stderr.write("".join(f"{given.model}: {line}\n" for line in report.lines(report.refused)))
            sys.stderr.write(f"tools/import: {len(report.refused)} places can't be rewritten, and nothing is written\n")
            return 1
        put(given.out, text, sys.stdout)
        put(given.log, "".join(f"{line}\n" for line in report.lines(report.done)), sys.stderr)
    except (OSError, NotText, RecursionError) as fault:
        sys.stderr.write(f"tools/import: {given.model}: {fault}\n")
        return 2
    return 0
