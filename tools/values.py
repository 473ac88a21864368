"""Tables of real values: of CSV, of WAV and of plain text, in exact fractions."""

import csv
import io
import re
import wave
from fractions import Fraction
from typing import NamedTuple, Optional

from written import Failed

NUMBER = re.compile(r"[+-]?(?:\d{1,30}\.?\d{0,30}|\.\d{1,30})(?:[eE][+-]?\d{1,2})?", re.A)
# The longest file that is read, in bytes.
MOST_BYTES = 1 << 26


class Table(NamedTuple):
    """The names of the columns, if it says them, and the rows; a cell that is empty or `-` has no value."""

    names: Optional[list[str]]
    rows: list[list[Optional[Fraction]]]


def value_of(cell: str, where: str) -> Optional[Fraction]:
    cell = cell.strip()
    if cell in ("", "-"):
        return None
    if not NUMBER.fullmatch(cell):
        raise Failed(f"{where}: {cell[:40]!r} stands in place of a decimal")
    return Fraction(cell)


def of_rows(path: str, rows: list[list[str]]) -> Table:
    """A table of cells, whose first row may name the columns."""
    names = None
    if rows and any(cell.strip() not in ("", "-") and not NUMBER.fullmatch(cell.strip()) for cell in rows[0]):
        names, rows = [cell.strip() for cell in rows[0]], rows[1:]
    first = 2 if names else 1
    return Table(names, [[value_of(cell, f"{path}: row {at}") for cell in row] for at, row in enumerate(rows, first)])


def of_wave(path: str) -> Table:
    """The frames of a WAV file of whole numbers, with full scale 1; 8 bits have no sign there."""
    try:
        with wave.open(path, "rb") as file:
            channels, size, found = file.getnchannels(), file.getsampwidth(), file.readframes(MOST_BYTES)
    except (wave.Error, EOFError) as fault:
        raise Failed(f"{path}: {fault}") from None
    full = 1 << 8 * size - 1
    numbers = [int.from_bytes(found[at : at + size], "little", signed=size > 1) - (128 if size == 1 else 0) for at in range(0, len(found) - size + 1, size)]
    values: list[Optional[Fraction]] = [Fraction(it, full) for it in numbers]
    return Table(None, [values[at : at + channels] for at in range(0, len(values) - channels + 1, channels)])


def table_of(path: str) -> Table:
    """The table of a file by its ending."""
    if path.lower().endswith(".wav"):
        return of_wave(path)
    with open(path, "rb") as file:
        found = file.read(MOST_BYTES + 1)
    if len(found) > MOST_BYTES:
        raise Failed(f"{path}: more than {MOST_BYTES} bytes")
    text = found.decode("utf-8-sig", errors="replace").replace("\0", "?")
    if not path.lower().endswith(".csv"):
        return of_rows(path, [line.split() for line in text.splitlines()])
    mark = next((it for it in "\t;," if it in text.partition("\n")[0]), ",")
    try:
        return of_rows(path, [row for row in csv.reader(io.StringIO(text), delimiter=mark) if row])
    except csv.Error as fault:
        raise Failed(f"{path}: {fault}") from None


def columns_by_name(table: Table, wanted: list[str]) -> list[int]:
    """Where the columns of these names are; without names they stand in this order, and no others."""
    if table.names is None:
        wide = max(map(len, table.rows), default=len(wanted))
        if wide != len(wanted):
            raise Failed(f"there are {wide} columns, and {len(wanted)} elements: {', '.join(wanted)}")
        return list(range(len(wanted)))
    missing = [name for name in wanted if name not in table.names]
    if missing:
        raise Failed(f"there is no column {', '.join(missing)}")
    return [table.names.index(name) for name in wanted]
