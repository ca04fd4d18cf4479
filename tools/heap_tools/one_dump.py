"""What fills the heap of one dump: the lines, and what is in the first."""

from dataclasses import dataclass
from typing import List, Optional, Tuple

from heap_tools.class_objects import require_objects
from heap_tools.comparison import calls_without_line, families_asked
from heap_tools.dump_runs import DumpRuns
from heap_tools.dump_side import Several
from heap_tools.heap_dump import HeapDump
from heap_tools.leak_answer import Answer
from heap_tools.leak_lines import Line
from heap_tools.leak_options import Options
from heap_tools.probe import Probe, Retained, RunningCalls, nothing_between
from heap_tools.reports import Amount, Report, Row, Unit
from heap_tools.weak_growth import Followed, followed_of
from heap_tools.what_counts import PASSING, Way, WhatCounts, sides_of, without_running_calls

#: The share of what is reachable from which on the first line is shown, in percent.
AT_LEAST = 20


@dataclass(frozen=True)
class HeapQuestion:
    """A dump, what asks it, which weak references are followed, what counts, and how much of what is asked for only
    running calls hold that do not."""

    runs: DumpRuns
    probe: Probe
    followed: Followed
    way: Way
    in_calls: Amount

    @property
    def dump(self) -> HeapDump:
        """The records of the dump."""
        return self.runs.dump

    def running_calls(self, least: float) -> Optional[RunningCalls]:
        """Returns what asks the same if running calls count. Returns None if they do anyway, or if only they hold less
        than `least` percent."""
        probe = self.probe
        if probe.unit.percent(self.in_calls, probe.growth) < least:
            return None

        def without(cut: Several) -> Probe:
            (side,) = sides_of([self.runs], self.way._replace(calls=None), cut)
            return Probe(side, probe.families, probe.unit)

        return RunningCalls(probe.growth, without, nothing_between)


@dataclass(frozen=True)
class HeapAnswer:
    """What was asked, and what was found."""

    question: HeapQuestion
    found: Answer

    @property
    def lines(self) -> List[Line]:
        """The lines."""
        return self.found.lines

    @property
    def contents(self) -> List[Row]:
        """What the first line retains, class by class, the largest first."""
        return contents_of(self.lines[0].held, self.question.probe.unit) if self.lines else []


def question_of(runs: DumpRuns, options: Options) -> HeapQuestion:
    """Returns what asks a dump. Calls that are running do not count, nor do weak references, unless the user follows
    them or they hold most. Shares are of all that is reachable."""
    families, unit, counts = families_asked(options, runs), options.unit, WhatCounts([runs])
    unseen, most = min(PASSING, options.bounds.others), calls_without_line(options)
    usual = None if options.weak else counts.usual_way(families, unit, unseen, most)
    followed, way, base = (Followed(), usual, None) if usual else best_way(counts, families, options)
    (side,) = counts.sides(way)
    in_calls = base.total(families).minus(side.base.total(families)) if base else Amount()
    return HeapQuestion(runs, Probe(side, families, unit, runs.report.total(families)), followed, way, in_calls)


def best_way(counts: WhatCounts, families: Optional[List[str]], options: Options) -> Tuple[Followed, Way, Report]:
    """Returns which weak references are followed in a dump, which of all ways is best, and the report with running
    calls. Raises `Fault` if no object of a class is reachable then that the user asks for."""
    followed, (base,) = followed_of(counts, families, options.unit, options.weak)
    if families:
        require_objects(families[0], counts.dumps[0], base)
    whole, most = options.unit.of(base.total(families)), calls_without_line(options)
    way = without_running_calls(counts, followed.follows, [base], families, options.unit, whole, most)
    return followed, way, base


def contents_of(held: Retained, unit: Unit) -> List[Row]:
    """Returns what is retained, class by class, the largest first."""
    rows = [Row(name, amount) for name, amount in held.lost.items()]
    return sorted(rows, key=lambda row: (-unit.of(row.amount), -unit.other.of(row.amount), row.name))
