#!/usr/bin/env python3
"""Tests the share in the first line of tools/leaks by the virtual machine's own histograms of the same moments.

usage: share_figures.py BEFORE AFTER LOG

LOG is the virtual machine's log of the run that made both dumps, with `-Xlog:gc,gc+classhisto*=trace`: what
`jcmd PID GC.class_histogram` prints, after the collection with which each live dump begins. heapmark is the binary of
crates/heapmark/out, or what the variable HEAPMARK names.

The growth of the heap is that of the histograms' totals. What the line holds of each class is asked of tools/held, in
both dumps, in objects and bytes of the dump, which are heapmark's. An instance takes as much as in the last histogram;
an array, for each byte that it has in the dump, as much as those by which the class grew.

Prints a row of a table: the dumps, the line's field, how much grew as leaks and as the histograms have it, how much the
line's part of it is, and both shares in percent. Exit status 1 if the shares differ by more than one in a hundred.
"""

from __future__ import annotations

import argparse
import json
import os
import pathlib
import re
import subprocess
import sys
from typing import Any, Dict, Iterable, Tuple

TOP = pathlib.Path(__file__).resolve().parent.parent
sys.dont_write_bytecode = True
sys.path.insert(0, str(TOP / "tools"))
os.environ.setdefault("HEAPMARK", str(TOP / "crates/heapmark/out/heapmark"))

from heap_tools.class_names import family  # noqa: E402
from heap_tools.heap_sizes import in_rows_of_histogram  # noqa: E402
from heap_tools.reports import Amount, read_histogram, read_report  # noqa: E402

#: What there is of each class.
Rows = Dict[str, Amount]
#: The most by which the shares may differ, in percent.
MOST = 1.0
#: What the virtual machine logs of the collection with which a dump begins, and before a histogram.
DUMPED = re.compile(rb"(GC\(\d+\)) Pause Full \(Heap Dump Initiated GC\)")
HISTOGRAM = re.compile(rb"\[gc,classhisto,start\] Class Histogram \(after full gc\)")
#: What is before each line of a histogram: the number of the collection is in it.
HEAD = re.compile(rb"^(?:\[[^]]*\])+ (GC\(\d+\)) ")


def histograms_of(log: str) -> list[Rows]:
    """Returns the histograms in a log that were made as a dump began, by class."""
    lines = pathlib.Path(log).read_bytes().splitlines()
    dumped = {found[1] for found in map(DUMPED.search, lines) if found}
    begins = [at + 1 for at, line in enumerate(lines) if HISTOGRAM.search(line)]
    numbers = [HEAD.match(lines[begin]) for begin in begins]
    return [rows_of(lines[begin:], log) for begin, found in zip(begins, numbers) if found and found[1] in dumped]


def rows_of(lines: list[bytes], log: str) -> Rows:
    """Returns the histogram at the beginning of these lines of a log."""
    kept = []
    for line in lines:
        kept.append(HEAD.sub(b"", line))
        if kept[-1].startswith(b"Total"):
            break
    found = read_histogram(iter(kept), log)
    assert found, f"{log}: no histogram"
    return by_family(found.rows)


def by_family(pairs: Iterable[Tuple[str, Amount]]) -> Rows:
    """Returns the sums of these rows, hidden classes of one family in one."""
    rows: Rows = {}
    for name, amount in pairs:
        rows[family(name)] = rows.get(family(name), Amount()).plus(amount)
    return rows


def document(tool: str, *words: str) -> dict[str, Any]:
    """Returns the JSON document of a tool."""
    command = [sys.executable, str(TOP / "tools" / tool), "--json", *words]
    ran = subprocess.run(command, stdout=subprocess.PIPE, stderr=subprocess.DEVNULL, check=True)
    found: dict[str, Any] = json.loads(ran.stdout)
    return found


def held_by(dump: str, fields: list[str]) -> Rows:
    """Returns what these fields hold of each class, in bytes of the dump."""
    classes = document("held", "--dump-bytes", dump, *fields)["classes"]
    return in_rows_of_histogram(by_family((each["class"], Amount(**each["retained"])) for each in classes))


def report_of(dump: str) -> Rows:
    """Returns heapmark's report, in the rows of a histogram."""
    ran = subprocess.run([os.environ["HEAPMARK"], dump], stdout=subprocess.PIPE, check=True)
    found = read_report(iter(ran.stdout.splitlines()), dump)
    assert found, f"{dump}: no report"
    return in_rows_of_histogram(by_family(found.rows))


def difference(name: str, before: Rows, after: Rows) -> Amount:
    """Returns how much more a class has."""
    return after.get(name, Amount()).minus(before.get(name, Amount()))


def taken(name: str, gained: Amount, reports: tuple[Rows, Rows], histograms: tuple[Rows, Rows]) -> float:
    """Returns what the objects of a class that a field gained take by the histograms: instances as much each as all in
    the last one, arrays for each byte in the dump as much as those by which the class grew."""
    last = histograms[1].get(name, Amount())
    if not (name.endswith("]") or name.startswith("[")):
        return gained.objects * last.bytes / max(1, last.objects)
    in_dump, in_heap = difference(name, *reports).bytes, difference(name, *histograms).bytes
    if in_dump < gained.bytes / 2:  # other arrays became fewer
        in_dump, in_heap = reports[1].get(name, Amount()).bytes, last.bytes
    return gained.bytes * in_heap / max(1, in_dump)


def main() -> int:
    """Prints the comparison of the files of the command line."""
    parser = argparse.ArgumentParser(description=__doc__, formatter_class=argparse.RawDescriptionHelpFormatter)
    for operand in ("before", "after", "log"):
        parser.add_argument(operand)
    options = parser.parse_args()
    before, after = histograms_of(options.log)
    leaks = document("leaks", options.before, options.after)
    line = leaks["lines"][0]
    fields = [each["text"] for each in line["path"][-1]]
    first, last = (held_by(dump, fields) for dump in (options.before, options.after))
    reports = report_of(options.before), report_of(options.after)
    gained = {name: difference(name, first, last) for name in {**first, **last}}
    part = sum(taken(name, amount, reports, (before, after)) for name, amount in gained.items())
    grown = sum(each.bytes for each in after.values()) - sum(each.bytes for each in before.values())
    ours, theirs = line["share_percent"], 100 * part / grown
    held = line["retained"]["bytes"] - line["before"]["bytes"]
    name = pathlib.Path(options.after).stem.partition("-")[0]
    columns = [f"{leaks['growth']['bytes'] / 1e6:.2f}", f"{grown / 1e6:.2f}", f"{held / 1e6:.2f}", f"{part / 1e6:.2f}"]
    print(f"| {name} | `{', '.join(fields)}` | {' | '.join(columns)} | {ours:.1f} | {theirs:.1f} |")
    return 0 if abs(ours - theirs) <= MOST else 1


if __name__ == "__main__":
    sys.exit(main())
