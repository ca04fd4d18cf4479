"""The table of docs/GATE.md: what each crate costs the gate, in processor seconds, and what it may cost."""

from __future__ import annotations

import pathlib
import re
from typing import NamedTuple

#: Where the table is, below the top of the repository.
PAGE = "docs/GATE.md"
#: The heads of the columns after the crate's name.
COLUMNS = ("First check", "With tests", "Budget", "Edits", "All edits", "Budget")
#: The name of the row of the sums.
ALL = "all"
ROW = re.compile(r"^    (\w+) +([\d-]+) +([\d-]+) +(\d+)(?: +(\d+) +([\d-]+) +(\d+))?$", re.M)


class Row(NamedTuple):
    """What a crate costs: its first check, its check with tests, and the most that both may cost; the number of its
    must-fail edits, what all of them cost, and the most that they may cost."""

    check: float
    tests: float
    most_of_checks: int
    edits: int = 0
    tries: float = 0
    most_of_tries: int = 0


def read(text: str) -> dict[str, Row]:
    """Returns the rows of the table in the page `text` by crate, without the sums."""
    rows = {}
    for name, *cells in ROW.findall(text):
        check, tests, most_of_checks, edits, tries, most_of_tries = (int(it.strip("-") or 0) for it in cells)
        rows[name] = Row(check, tests, most_of_checks, edits, tries, most_of_tries)
    rows.pop(ALL, None)
    return rows


def read_at(top: pathlib.Path) -> dict[str, Row]:
    """Returns the rows of the table of the repository at `top`, as `read` does."""
    return read((top / PAGE).read_text(encoding="utf-8"))


def head() -> str:
    """Returns the line above the rows."""
    return f"    {'Crate':18} {' '.join(COLUMNS)}"


def line(name: str, row: Row) -> str:
    """Returns the line of a row. A crate without edits has no cells for them."""
    cells = [f"{it:.0f}" if round(it) else "-" for it in (row if row.edits else row[:3])]
    return f"    {name:18}" + "".join(f" {cell:>{len(column)}}" for cell, column in zip(cells, COLUMNS))


def sums(rows: dict[str, Row]) -> Row:
    """Returns the sums of the columns."""
    columns = list(zip(*rows.values())) or [(0,)] * len(COLUMNS)
    return Row(*map(sum, columns))
