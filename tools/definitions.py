"""The public definitions of the `specs/` folders: what each means, where it comes from, and who cites it.

- What a definition means is the comment right above it. One without a comment shows its type, and a
  record its parts.
- Its source is the last parenthesis of the comment that names one (`own`, or a public source by its
  name), else that of the comment at the head of its file; where neither names one, it is empty.
- `specs/inner` is left out: what stands there only private contracts cite.
"""

import glob
import os
import re
from collections.abc import Iterator
from typing import NamedTuple

TOP = os.path.dirname(os.path.dirname(os.path.abspath(__file__)))
DEFINED = re.compile(r"\s*(?:abbrev pub|unfoldable pub|pub record|pub data)\s+([^\s:(]+)|pub (?!mod |use )([^\s:]+) :")
SOURCES = r"\bown\b|Simulink reference|Fixed-Point Designer|HDL Coder|IEEE 1364-2005"
SOURCE = re.compile(rf"\s*\(([^()]*(?:{SOURCES})[^()]*)\)")
IMPORT = re.compile(r"use Rattle\.(\w+)\.specs\.([\w.]+)\.\{([^}]*)\}")


class Definition(NamedTuple):
    """A public definition: where it stands, and what its comment says."""

    name: str
    path: str
    line: int
    meaning: str
    source: str
    is_bare: bool


def read(path: str) -> str:
    """The text of a file, by its path from the top."""
    with open(os.path.join(TOP, path), encoding="utf-8") as file:
        return file.read()


def crates() -> list[str]:
    """The crates, in the order of crates.txt."""
    heads = [line.split("#")[0].partition(":")[0].split() for line in read("crates.txt").splitlines()]
    return [head[0] for head in heads if head]


def comment_before(lines: list[str], at: int) -> str:
    """The comment that ends right above a line."""
    start = at
    while start > 0 and lines[start - 1].strip().startswith("--"):
        start -= 1
    return " ".join(line.strip().lstrip("-").strip() for line in lines[start:at])


def source_of(comment: str, otherwise: str) -> tuple[str, str]:
    """The comment without the source that stands at its end, and the source that it names."""
    found = list(SOURCE.finditer(comment))
    if not found:
        return comment, otherwise
    last = found[-1]
    rest = comment[last.end():]
    return (comment[:last.start()] + rest if rest in ("", ".") else comment), last.group(1)


def text_of(lines: list[str], at: int) -> list[str]:
    """The lines of a definition: its type, and its body or its fields."""
    name = DEFINED.match(lines[at])
    own = (name[1] or name[2]) if name else ""
    end = at + 1
    while end < len(lines) and (lines[end].startswith((" ", "}")) or lines[end].startswith((own + " ", own + "\n")) or not lines[end].strip()):
        end += 1
    found = lines[at:end]
    while not found[-1].strip():
        found.pop()
    return found


def shape_of(lines: list[str], at: int, name: str) -> str:
    """What stands in the place of a comment: the type of a definition, or the parts of a record."""
    body = text_of(lines, at)
    parts = re.findall(r"^  (?:pub )?([^\s:(]+) :", "\n".join(body[1:]), re.M)
    if re.match(r"pub (record|data) ", body[0]) and parts:
        return f"a {body[0].split()[1]} with " + ", ".join(f"`{part}`" for part in parts)
    told = " ".join(line.strip() for line in body if not line.startswith(name))
    return f"`{told.partition(' : ')[2]}`"


def definitions_of(path: str) -> list[Definition]:
    """The public definitions of a file."""
    lines = read(path).splitlines()
    head = next((at for at, line in enumerate(lines) if not line.startswith("--")), 0)
    _, of_file = source_of(comment_before(lines, head), "")
    found = []
    for at, line in enumerate(lines):
        match = DEFINED.match(line)
        if match is None:
            continue
        name = match[1] or match[2]
        comment = comment_before(lines, at) if at > head else ""
        meaning, source = source_of(comment, of_file)
        meaning = meaning.rstrip(".") if comment else shape_of(lines, at, name)
        found.append(Definition(name, path, at + 1, meaning, source, not comment))
    return found


def all_definitions() -> Iterator[Definition]:
    """The public definitions of all crates, in the order of crates.txt."""
    for crate in crates():
        specs = os.path.join(TOP, "crates", crate, "specs")
        for path in sorted(glob.glob(os.path.join(specs, "**", "*.antt"), recursive=True)):
            if os.path.relpath(path, specs).split(os.sep)[0] != "inner":
                yield from definitions_of(os.path.relpath(path, TOP))


def module_of(path: str) -> tuple[str, str]:
    """The crate of a file of `specs/`, and the name by which others import it."""
    _, crate, _, within = path.removesuffix(".antt").split("/", 3)
    return crate, within.replace("/", ".")


def users_of(definitions: list[Definition]) -> dict[Definition, list[str]]:
    """The files that cite each of the definitions, by their paths; a definition's own file is none."""
    keys = {(*module_of(it.path), it.name): it for it in definitions}
    users: dict[Definition, list[str]] = {it: [] for it in definitions}
    for path in sorted(glob.glob(os.path.join(TOP, "crates/*/*/**/*.*"), recursive=True)):
        if not path.endswith((".antt", ".rt")) or "/out/" in path:
            continue
        place = os.path.relpath(path, TOP)
        for crate, module, names in IMPORT.findall(read(place)):
            for name in names.split(","):
                cited = keys.get((crate, module, name.split(" as ")[0].strip()))
                if cited is not None and place not in users[cited]:
                    users[cited].append(place)
    return users
