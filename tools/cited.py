"""What pages cite of the sources, and whether that stands.

A page cites what it puts between backquotes, outside of fenced blocks: a path, or a name. A path stands
where a file or a folder has it, from the top, from `crates/` or from the folder of a crate, with or
without the ending of a source; `*` fits anything. A name stands where the sources of the crates have it
outside of comments, or the scripts, the launcher or the examples have it. Pages for who proves also name
goals and forms, which no file has: of these only paths, crates, types and names with `_` are looked at.
"""

import functools
import glob
import os
import re

from definitions import TOP, read

# Pages all of whose names are those of the sources, and pages that also name what no file has.
PAGES = ("README.md", "docs/GLOSSARY.md", "docs/HEADLINE.md", "docs/ARCHITECTURE.md", "docs/PROVED.md")
PROVERS = ("docs/PROVING.md", "docs/DECISIONS.md", "docs/proof/*.md")

SPAN = re.compile(r"`([^`\n]+)`")
FENCED = re.compile(r"^```.*?^```$", re.M | re.S)
PATH = re.compile(r"[\w.*-]+(?:/[\w.*-]+)+/?")
NAME = re.compile(r"[A-Za-z]\w*(?:(?:::|-)\w+)*")
DISTINCT = re.compile(r"[A-Z]\w*[a-z]\w*|[a-z]\w*_\w+")
ENDINGS = ("", ".antt", ".rt", ".edit")


@functools.cache
def words() -> frozenset[str]:
    """The words of the sources without their comments, of the scripts, the launcher and the examples."""
    found: set[str] = set()
    for path in glob.glob(os.path.join(TOP, "crates/*/**/*.*"), recursive=True):
        if path.endswith((".antt", ".rt", ".stdin", "stdin")) and "/out/" not in path:
            found.update(re.findall(r"[\w-]+|\w+", re.sub(r"(--|//).*", "", read(path))))
            found.update(os.path.relpath(path, TOP).replace(".", "/").split("/"))
    for pattern in ("tools/**/*", "examples/*", "tilecatnip", ".ci/*", "crates.txt"):
        for path in glob.glob(os.path.join(TOP, pattern), recursive=True):
            if os.path.isfile(path) and not path.endswith((".pyc", ".svg")):
                with open(path, encoding="utf-8", errors="replace") as file:
                    found.update(re.findall(r"[\w-]+|\w+", file.read()))
                found.add(os.path.basename(path))
    found.update(part for word in list(found) for part in word.split("-"))
    return frozenset(found)


@functools.cache
def stands(path: str) -> bool:
    """Whether a file or a folder has this path."""
    if re.search(r"(^|/)out(/|$)", path):
        return True
    return any(glob.glob(os.path.join(TOP, start, path.rstrip("/") + ending)) for start in ("", "crates", "crates/*", "crates/*/*") for ending in ENDINGS)


def faults_of_page(page: str, is_for_provers: bool) -> list[str]:
    """What a page cites and doesn't stand."""
    faults = []
    for span in dict.fromkeys(SPAN.findall(FENCED.sub("", read(page)))):
        if PATH.fullmatch(span):
            is_there = stands(span)
        elif NAME.fullmatch(span) and (not is_for_provers or DISTINCT.fullmatch(span)):
            is_there = all(part in words() for part in span.split("::")) or stands(span)
        else:
            continue
        if not is_there:
            faults.append(f"{page}: `{span}` doesn't stand")
    return faults


def faults_of_index() -> list[str]:
    """The rows of the index by subject that name a file which its crate doesn't have."""
    faults = []
    for subject, crates, files in re.findall(r"^\| ([^|]*) \| (`[^|]*`) \| (`[^|]*`) \|$", read("docs/GLOSSARY.md"), re.M):
        owners, groups = re.findall(r"`(\w+)`", crates), files.split(";")
        named = [(owner, name) for owner, group in zip(owners, groups) for name in re.findall(r"`(\w+)`", group)]
        lacking = [f"{owner}/specs/{name}" for owner, name in named if not stands(f"crates/{owner}/specs/{name}.antt")]
        if lacking or len(owners) != len(groups):
            faults.append(f"docs/GLOSSARY.md, {subject}: " + (", ".join(lacking) or "as many groups of files as crates"))
    return faults


def faults_of_pages() -> list[str]:
    """What the pages cite and doesn't stand."""
    faults = [fault for page in PAGES for fault in faults_of_page(page, False)]
    provers = sorted(os.path.relpath(path, TOP) for pattern in PROVERS for path in glob.glob(os.path.join(TOP, pattern)))
    return faults + faults_of_index() + [fault for page in provers for fault in faults_of_page(page, True)]
