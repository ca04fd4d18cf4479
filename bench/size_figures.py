#!/usr/bin/env python3
"""Compares what the tools say that objects take in the heap with the virtual machine's own histogram.

usage: size_figures.py DUMP HISTOGRAM, both of one moment

HISTOGRAM is what `jcmd PID GC.class_histogram` printed; other lines before and after it are skipped. Its arrays of
FillerElement, which fill gaps in the heap, are arrays of int in a dump.

Prints a line of a table: the dump, the layout that was found (alignment, headers of instances and of arrays, bytes of a
reference), how many classes have as many objects in both, of how many; the bytes of all objects of the dump, as a part
of those in the histogram; the class objects that the dump lacks, but refers to, and the part with these; how many of
the classes that have as many objects are off by more than 1%; and the seconds and the megabytes of memory that finding
the layout took. Then a line for each class that is off, and one for each that has not as many objects. Exit status 1 if
all together, with what the dump lacks, are off by more than 0.3%, or more than one class in a hundred is.
"""

from __future__ import annotations

import argparse
import os
import pathlib
import re
import sys
import threading
import time
from itertools import dropwhile

TOP = pathlib.Path(__file__).resolve().parent.parent
sys.dont_write_bytecode = True
sys.path.insert(0, str(TOP / "tools"))

from heap_tools.heap_dump import HeapDump  # noqa: E402
from heap_tools.heap_layout import UnknownLayout  # noqa: E402
from heap_tools.heap_sizes import CLASS_OBJECTS, in_rows_of_histogram  # noqa: E402
from heap_tools.object_sizes import ObjectSizes  # noqa: E402
from heap_tools.object_totals import totals_of  # noqa: E402
from heap_tools.reports import Amount, read_histogram  # noqa: E402
from heap_tools.unloaded_classes import unloaded_classes  # noqa: E402

#: The most by which the whole may be off, and a class, and the part of the classes that may be.
WHOLE, ONE, PART = 0.003, 0.01, 0.01
FILLER = "[Ljdk/internal/vm/FillerElement;"


def histogram_of(path: str) -> dict[str, Amount]:
    """Returns the rows of the histogram in a file, by class."""
    with open(path, "rb") as file:
        lines = dropwhile(lambda line: b"#instances" not in line, (line.rstrip(b"\r\n") for line in file))
        kept = []
        for line in lines:
            kept.append(line)
            if line.startswith(b"Total"):
                break
    found = read_histogram(iter(kept), path)
    assert found, f"{path}: no histogram"
    rows: dict[str, Amount] = {}
    for name, amount in found.rows:
        name = "int[]" if name == FILLER else name
        rows[name] = rows.get(name, Amount()).plus(amount)
    return rows


class PeakMemory(threading.Thread):
    """Looks how much memory this process has, without the pages of the dump that it has read, until it is asked for the
    most."""

    def __init__(self) -> None:
        super().__init__(daemon=True)
        self.ends, self.most = threading.Event(), 0
        self.start()

    def run(self) -> None:
        while not self.ends.wait(0.01):
            found = re.search(r"^RssAnon:\s+(\d+) kB$", pathlib.Path("/proc/self/status").read_text(), re.M)
            self.most = max(self.most, int(found[1]) if found else 0)

    def megabytes(self) -> int:
        """Returns the most that was seen."""
        self.ends.set()
        self.join()
        return self.most // 1024


def processor_seconds() -> float:
    """Returns what this process and those that it started have taken of processors."""
    return sum(os.times()[:4])


def compared(dumped: dict[str, Amount], omitted: Amount, there: dict[str, Amount]) -> tuple[str, list[str], bool]:
    """Returns the columns of a comparison, the lines of the classes that are off or have not as many objects, and
    whether it is good. `omitted`: the class objects that the dump lacks."""
    here = {**dumped, CLASS_OBJECTS: dumped[CLASS_OBJECTS].plus(omitted)}
    names = [name for name in {**there, **here} if max(*there.get(name, Amount()), *here.get(name, Amount()))]
    same = [name for name in there if here.get(name, Amount()).objects == there[name].objects]
    off = [name for name in same if abs(here[name].bytes - there[name].bytes) > ONE * there[name].bytes]
    whole = sum(each.bytes for each in there.values())
    without, part = (sum(each.bytes for each in some.values()) / whole for some in (dumped, here))
    lines = [line_of(name, here, there) for name in [*off, *(each for each in names if each not in same)]]
    is_good = abs(part - 1) <= WHOLE and len(off) <= PART * len(same)
    columns = f"{len(same)} of {len(there)} | {without:.5f} | {omitted.objects} | {part:.5f} | {len(off)}"
    return f"| {columns} |", lines, is_good


def line_of(name: str, here: dict[str, Amount], there: dict[str, Amount]) -> str:
    """Returns the line of a class."""
    (objects, taken), (counted, measured) = here.get(name, Amount()), there.get(name, Amount())
    return f"    {name}: {objects} and {counted} objects, {taken} and {measured} bytes"


def main() -> int:
    """Prints the comparison of the files of the command line."""
    parser = argparse.ArgumentParser(description=__doc__, formatter_class=argparse.RawDescriptionHelpFormatter)
    parser.add_argument("dump")
    parser.add_argument("histogram")
    options = parser.parse_args()
    name = pathlib.Path(options.dump).stem
    dump = HeapDump(pathlib.Path(options.dump).read_bytes())
    peak, began, used = PeakMemory(), time.monotonic(), processor_seconds()
    try:
        sizes = ObjectSizes(dump)
    except UnknownLayout as unknown:
        print(f"| {name} | {unknown} |")
        return 1
    took = f"{time.monotonic() - began:.1f} s, {processor_seconds() - used:.1f} s of processors"
    memory = peak.megabytes()
    here = in_rows_of_histogram({each: total.taken for each, total in totals_of(dump, sizes).items()})
    there = histogram_of(options.histogram)
    omitted = unloaded_classes(dump, sizes.is_ascending, there[CLASS_OBJECTS].objects)
    columns, lines, is_good = compared(here, omitted, there)
    layout = sizes.layout
    numbers = f"{layout.alignment}, {layout.header}, {layout.array_header}, {layout.reference}"
    print(f"| {name} | {numbers} {columns} {took}, {memory} MB |")
    for line in lines:
        print(line)
    return 0 if is_good else 1


if __name__ == "__main__":
    sys.exit(main())
