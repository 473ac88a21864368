"""What the program is made of, as `./tilecatnip --inputs` lists it, and what tells that it was touched."""

from __future__ import annotations

import os
import subprocess
from collections.abc import Iterator
from dataclasses import dataclass

PARTS = ("src", "specs", "proofs")


class Unlisted(Exception):
    """The sources can't be listed, or what was listed isn't what a proof read, for this reason."""


@dataclass(frozen=True)
class Stamp:
    """What of a file or folder changes with every change, also with one that is undone."""

    path: str
    inode: int
    size: int
    changed: int


def folders(top: str) -> Iterator[str]:
    """The folders of the sources, links followed."""
    crates = os.path.join(top, "crates")
    for crate in sorted(os.listdir(crates)):
        for part in PARTS:
            for at, _, _ in os.walk(os.path.join(crates, crate, part), followlinks=True):
                yield at


def stamps(top: str) -> list[Stamp]:
    """Of each source, and of each folder of theirs, in which files come and go."""
    paths = [os.path.join(top, name) for name in ("crates.txt", "HANDLES")]
    for at in folders(top):
        paths += [at, *(entry.path for entry in os.scandir(at))]
    return sorted((stamp(path) for path in paths), key=lambda it: it.path)


def stamp(path: str) -> Stamp:
    try:
        found = os.stat(path)
    except OSError as fault:
        raise Unlisted(f"a source can't be looked at: {fault}") from fault
    return Stamp(path, found.st_ino, found.st_size, found.st_ctime_ns)


def linked_folders(top: str) -> list[str]:
    """The folders of the sources that are links, which not every tool follows."""
    crates = os.path.join(top, "crates")
    paths = [crates, *(entry.path for entry in os.scandir(crates)), *folders(top)]
    return sorted(path for path in paths if os.path.islink(path))


def inputs(top: str) -> bytes:
    """The toolchain's line, and the checksum, length and path of each source."""
    done = subprocess.run([os.path.join(top, "tilecatnip"), "--inputs"], stdout=subprocess.PIPE)
    if done.returncode or not done.stdout:
        raise Unlisted("what the program is made of can't be listed")
    return done.stdout


@dataclass(frozen=True)
class Listing:
    """The sources at one time."""

    inputs: bytes
    stamps: list[Stamp]

    def still_holds(self, top: str) -> bool:
        """Whether nothing has been touched since."""
        return inputs(top) == self.inputs and stamps(top) == self.stamps


def listing(top: str) -> Listing:
    """The sources, none of which was touched while they were listed."""
    before = stamps(top)
    found = Listing(inputs(top), before)
    if stamps(top) != before:
        raise Unlisted("a source changed while they were listed: run it again")
    return found


def record(top: str, listed: Listing) -> None:
    """Records that the program that stands in its place was made of these sources."""
    out = os.path.join(top, "crates", "fx_prog", "out")
    with open(os.path.join(out, "fx_prog"), "rb") as program:
        own = subprocess.run(["cksum"], stdin=program, stdout=subprocess.PIPE, check=True).stdout
    if not own:
        raise Unlisted("cksum says nothing of the program")
    with open(os.path.join(out, "inputs.new"), "wb") as file:
        file.write(listed.inputs + own)
    os.replace(file.name, os.path.join(out, "inputs"))
