#!/usr/bin/env python3
"""Tests the figures and the path of the first line of tools/leaks by another marker, on two or more dumps.

PLAIN is the plain marker, built as bench/README.md says. heapmark and retained are the binaries of crates/, or what the
variables HEAPMARK and RETAINED name; tools/leaks runs with these. Then copies of the first dump and of the last one are
written to files: as leaks asks them (weak references, and calls that are running, cut as it says), and without the
fields of the first line. PLAIN reads them, and its totals must give what the line shows: the objects and bytes more,
the share, and what was held before and after. For each step `A > B` of the line's path, a copy without A must lose no
more if B is cut, too. Then `held` is asked what hangs by A, in the dump as it is: at least what hangs by B, or a line
says what hangs by each.

Prints a line: `same` or what differs, the first line's field, and how many runs it took. Exit status 1 if
a figure or a step of the path is wrong.
"""

from __future__ import annotations

import argparse
import contextlib
import io
import os
import pathlib
import subprocess
import sys
import tempfile
from collections.abc import Sequence

TOP = pathlib.Path(__file__).resolve().parent.parent
sys.dont_write_bytecode = True
sys.path[:0] = [str(TOP / "dev"), str(TOP / "tools")]
for NAME in ("heapmark", "retained"):
    os.environ.setdefault(NAME.upper(), str(TOP / f"crates/{NAME}/out/{NAME}"))

from changed_copy import changes_of, write_copy  # noqa: E402
from heap_tools.candidates import Candidate, joint_name  # noqa: E402
from heap_tools.commands import held  # noqa: E402
from heap_tools.comparison import Comparison, comparison_of, dumps_of  # noqa: E402
from heap_tools.console import Progress  # noqa: E402
from heap_tools.dump_side import DumpSide  # noqa: E402
from heap_tools.faults import Fault  # noqa: E402
from heap_tools.heapmark import Heapmark  # noqa: E402
from heap_tools.leak_answer import Answer, answer_of  # noqa: E402
from heap_tools.leak_lines import Line  # noqa: E402
from heap_tools.leak_options import Options  # noqa: E402
from heap_tools.probe import GrowthProbe, Probe  # noqa: E402
from heap_tools.reports import Amount, Report, read_report  # noqa: E402

#: What a line shows: what was held before and after, and the share of the growth in percent.
Figures = tuple[Amount, Amount, int]


def report_of(plain: str, side: DumpSide, candidates: Sequence[Candidate] = ()) -> Report:
    """Returns the plain marker's report of a copy of the dump as it is asked, without these candidates."""
    changes = changes_of(side.runs.dump, [*side.cut, *side.places(candidates)])
    with tempfile.NamedTemporaryFile(dir=os.environ.get("TMPDIR")) as file:
        write_copy(side.runs.dump, file.fileno(), changes, side.roots)
        ran = subprocess.run([plain, file.name], stdout=subprocess.PIPE, stderr=subprocess.DEVNULL, check=True)
    report = read_report(ran.stdout.splitlines(), plain)
    assert report, f"{plain}: no report"
    return report


def figures(plain: str, probe: GrowthProbe, line: Line) -> tuple[Figures, Figures]:
    """Returns what the line shows, and the same by the plain marker."""
    totals = []
    for each in (probe.earlier, probe):
        base, without = report_of(plain, each.side), report_of(plain, each.side, line.held.candidates)
        totals.append((base.total(probe.families), base.total(probe.families).minus(without.total(probe.families))))
    (was, before), (now, after) = totals
    unit = probe.unit
    share = 100 * unit.of(after.minus(before)) / max(1, unit.of(now.minus(was)))
    return (line.before, line.held.amount, round(line.share)), (before, after, round(share))


def wrong_steps(plain: str, probe: GrowthProbe, line: Line) -> list[str]:
    """Returns the steps of the line's path of which the upper one does not hold all that the lower one does."""
    found: list[str] = []
    path = [*line.above, line.held]
    for upper, lower in zip(path, path[1:]):
        alone, both = (
            report_of(plain, probe.side, candidates).reachable
            for candidates in (upper.candidates, [*upper.candidates, *lower.candidates])
        )
        if alone != both:
            found.append(f"{joint_name(upper.candidates)} > {joint_name(lower.candidates)}")
    return found


def hangs_by(path: str, candidates: Sequence[Candidate], follows_weak: bool) -> int:
    """Returns the bytes that held says hang by these candidates."""
    if any(each.kind in ("local", "thread", "threads") for each in candidates):
        texts = [str(each) for each in candidates]
    else:
        texts = [", ".join(map(str, candidates))]
    found = []
    for text in texts:
        with contextlib.redirect_stderr(io.StringIO()):
            difference = held.difference(path, text, follows_weak)
        found.append(difference.whole.reachable.bytes - difference.without.reachable.bytes if difference.without else 0)
    return max(found)


def compared(paths: Sequence[str]) -> tuple[Comparison, Answer, Heapmark]:
    """Asks the dumps as tools/leaks does without options. Returns what was asked, the answer and what ran heapmark."""
    heapmark, progress, options = Heapmark(), Progress("leaks"), Options()
    comparison = comparison_of(dumps_of(paths, heapmark, progress), options)
    return comparison, answer_of(comparison.probe, options.bounds, comparison.probes_between), heapmark


def main() -> int:
    """Does what the top of this file says, and returns the exit status."""
    parser = argparse.ArgumentParser(description=__doc__, formatter_class=argparse.RawDescriptionHelpFormatter)
    parser.add_argument("plain", metavar="PLAIN", help="the plain marker, built")
    parser.add_argument("dumps", metavar="DUMP", nargs="+", help="two or more dumps, the earliest first")
    given = parser.parse_args()
    if len(given.dumps) < 2:
        parser.error("two dumps or more")
    plain, words = given.plain, given.dumps
    with contextlib.redirect_stderr(io.StringIO()):
        comparison, answer, heapmark = compared(words)
    runs = heapmark.runs + heapmark.retained.runs
    if not answer.lines:
        print(f"no line, {runs} runs")
        return 1
    probe, line = comparison.probe, answer.lines[0]
    shown, plainly = figures(plain, probe, line)
    wrong = [] if shown == plainly else [f"line {shown}, plain marker {plainly}"]
    wrong += [f"false path {step}" for step in wrong_steps(plain, probe, line)]
    path, notes = [*line.above, line.held], []
    for upper, lower in zip(path, path[1:]):
        try:
            sizes = [hangs_by(words[-1], each.candidates, comparison.follows_weak) for each in (upper, lower)]
        except Fault as fault:
            notes.append(f"held: {fault}")
            continue
        if sizes[0] < sizes[1]:
            notes.append(f"held alone: {sizes[0]:,} bytes by {joint_name(upper.candidates)}, {sizes[1]:,} below it")
    verdict = "DIFFERS: " + "; ".join(wrong) if wrong else "same"
    print("; ".join([verdict, f"{runs} runs", *notes, line.path()]))
    return 1 if wrong else 0


if __name__ == "__main__":
    sys.exit(main())
