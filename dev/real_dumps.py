"""The small heap dumps of virtual machines in bench/real, for tools/check, and what others count in them."""

from __future__ import annotations

import collections
import pathlib
import sys
from typing import Counter

try:
    import lzma
except ImportError:  # a Python that was built without it
    lzma = None  # type: ignore[assignment]

TOP = pathlib.Path(__file__).resolve().parent.parent
sys.path.insert(0, str(TOP / "tools"))
from heap_tools.class_names import CLASSES
from heap_tools.reports import Report, read_text

ROOM = TOP / "bench/real"


class Miscounted(Exception):
    """What a report and the histogram of the same moment count differently."""


def can_unpack() -> bool:
    """Tests whether this Python can unpack the dumps."""
    return lzma is not None


def names() -> list[str]:
    """Returns the names of the dumps, such as `jdk21`."""
    return sorted(path.stem for path in ROOM.glob("*.report"))


def unpack(name: str, path: str) -> bytes:
    """Writes a dump to `path`, and returns the report of the plain marker."""
    with lzma.open(ROOM / f"{name}.hprof.xz") as packed, open(path, "wb") as dump:
        dump.write(packed.read())
    return (ROOM / f"{name}.report").read_bytes()


def read(file: str) -> Report:
    """Returns what the report or the histogram `file` of `ROOM` says."""
    with open(ROOM / file, "rb") as opened:
        found = read_text(opened, file)
    if not found:
        raise Miscounted(f"{file}: no report and no histogram")
    return found[1]


def counts(report: Report) -> Counter[str]:
    """Returns the number of objects by class. A histogram counts the classes themselves as objects of java/lang/Class,
    a report has a row for them."""
    found: Counter[str] = collections.Counter()
    for name, amount in report.rows:
        found["java/lang/Class" if name == CLASSES else name] += amount.objects
    return found


def require_counts(name: str) -> int:
    """Requires that a report has no more objects of a class than the histogram, and that those that it has less of all
    classes are those that it calls unreachable. Returns the number of classes that have the same count in both."""
    report = read(f"{name}.report")
    machine, counted, unreachable = counts(read(f"{name}.histogram")), counts(report), report.unreachable.objects
    less = {one: machine[one] - counted[one] for one in {*machine, *counted} if machine[one] != counted[one]}
    if min(less.values(), default=0) < 0 or sum(less.values()) != unreachable:
        raise Miscounted(f"{name}: {unreachable} are unreachable; the histogram has more by {less}")
    return len(machine) - len(less)
