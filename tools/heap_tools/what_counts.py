"""What counts in dumps: which weak references are followed, and whether local variables are.

Calls run while a dump is made, and their local variables lead into what fields hold: they mostly do not count. So it is
asked at once what each candidate holds if they do not, nor weak references, and if these leave hardly anything out of
what heapmark found, nothing else is asked. If they do, one run for each dump shows what is reachable by each way to
count.
"""

import enum
from typing import Dict, List, NamedTuple, Optional, Sequence, Tuple, Union

from heap_tools.candidates import FIELD, WEAK, Candidates
from heap_tools.dump_runs import DumpRuns
from heap_tools.dump_side import DumpSide, Several, ask, ask_places
from heap_tools.held_table import HeldTable
from heap_tools.label_text import Place, class_of
from heap_tools.reports import Report, Unit
from heap_tools.weak_kinds import WeakKind, weak_kind_of

#: Local variables that hold at most this share of what is asked for, in percent, are those of calls that are running.
PASSING = 5.0


class Calls(enum.Enum):
    """Which calls do not count."""

    ALL = enum.auto()
    OF_JDK = enum.auto()


class Weak(enum.Enum):
    """Whether weak references are followed, if not those of one kind are."""

    NONE = enum.auto()
    ALL = enum.auto()


class Way(NamedTuple):
    """A way to count: which weak references are followed, and the local variables of which calls do not count."""

    follows: Union[Weak, WeakKind] = Weak.NONE
    calls: Optional[Calls] = None


#: All ways.
WAYS_TO_COUNT = [
    Way(follows, calls)
    for follows in (*Weak, WeakKind.FINAL, WeakKind.PHANTOM, WeakKind.WEAK)
    for calls in (None, *Calls)
]


#: The ways of which one leaves hardly anything out in most dumps.
USUAL_WAYS = [Way(calls=calls) for calls in Calls]


class WhatCounts:
    """Some dumps, and what is reachable in them by each way to count. `sides` has those that were asked by a way what
    each candidate holds."""

    def __init__(self, dumps: Sequence[DumpRuns]) -> None:
        self.dumps = dumps
        self._asked: Dict[Way, List[DumpSide]] = {}
        self._tables: List[Tuple[DumpSide, HeldTable]] = []

    def sides(self, way: Way) -> List[DumpSide]:
        """Returns the dumps as they are asked by a way: what each candidate holds is known."""
        if way not in self._asked:
            self._asked[way] = sides_of(self.dumps, way)
        return self._asked[way]

    def reports(self, way: Way) -> List[Report]:
        """Returns the reports of the dumps by a way: one run for each dump shows those by all ways."""
        if not self._tables:
            sides = [side_of(each, Way(Weak.ALL)) for each in self.dumps]
            tables = ask_places([(side, [cut_by(side, each) for each in WAYS_TO_COUNT]) for side in sides])
            self._tables = list(zip(sides, tables))
        return [side.report_without(table, WAYS_TO_COUNT.index(way)) for side, table in self._tables]

    def _bases(self, way: Way) -> List[Report]:
        return [side.base for side in self.sides(way)]

    def usual_way(
        self, families: Optional[List[str]], unit: Unit, unseen: float, most: float = PASSING
    ) -> Optional[Way]:
        """Returns the first of the usual ways by which in no dump more than `unseen` percent is lost of what grew of
        these families, or of all that is reachable, or in one dump of the whole. Returns None if there is none, or a
        way before it loses no more than `most` percent of what this one leaves."""
        known: List[List[Report]] = []
        for way in USUAL_WAYS:
            bases, growth = self._bases(way), grown(self._bases(way), families, unit)
            every = [each.report for each in self.dumps]  # whose arrays are padded as the first table says
            if growth > 0 and 100 * most_lost(every, bases, families, unit) <= unseen * growth:
                is_first = all(100 * most_lost(bases, less, families, unit) > most * growth for less in known)
                return way if is_first else None
            known.append(bases)
        return None


def side_of(runs: DumpRuns, way: Way) -> DumpSide:
    """Returns a dump as it is asked by a way. The list of a loader's classes holds what is held anyway, too: so classes
    that are never unloaded are roots."""
    candidates = Candidates(runs.dump, runs.report, way.follows is not Weak.NONE)
    side = DumpSide(runs, candidates, candidates.not_counted(), runs.dump.lasting_classes())
    return DumpSide(runs, candidates, [*side.cut, *cut_by(side, way)], side.roots)


def sides_of(dumps: Sequence[DumpRuns], way: Way, cut: Several = ()) -> List[DumpSide]:
    """Returns dumps as they are asked by a way, without some candidates: what each other one holds is known, and what
    all fields of a class do."""
    sides = [side_of(each, way).without(cut) for each in dumps]
    groups = first_groups(sides[-1])
    ask([(side, groups) for side in sides])
    return sides


def cut_by(side: DumpSide, way: Way) -> List[Place]:
    """Returns the places of the references that a way does not follow."""
    calls = side.candidates.calls_of_jdk() if way.calls is Calls.OF_JDK else side.candidates.locals()
    running = [place for each in calls for place in each.places] if way.calls else []
    return [*weak_places(side, way.follows), *running]


def weak_places(side: DumpSide, follows: Union[Weak, WeakKind]) -> List[Place]:
    """Returns the places of the weak references that are not followed."""
    every = side.candidates.places((FIELD, WEAK)) if follows is not Weak.ALL else ()
    return [each for each in every if weak_kind_of(side.runs.dump, class_of(each)) is not follows]


def first_groups(side: DumpSide) -> List[Several]:
    """Returns all groups of which it is asked in one run: each candidate alone, all threads, all static fields, these
    with all fields, the fields of one kind that a class declares, and those that a class with few instances has."""
    candidates = side.candidates
    statics, fields, threads = candidates.statics(), candidates.every_field(), candidates.all_threads()
    alike = [*candidates.statics_alike(), *candidates.threads_alike()]
    single = [*statics, *candidates.locals(), *candidates.threads(), *alike, *fields]
    few = candidates.few()
    every: List[Several] = [
        [threads],
        statics,
        [*statics, threads, *fields],
        few,
        [it for it in few if it.kind != FIELD],
    ]
    kin = [group for group in candidates.kin().values() if len(group) > 1]
    return [*([each] for each in single), *every, *kin, *candidates.units().values()]


def without_running_calls(
    counts: WhatCounts,
    follows: Union[Weak, WeakKind],
    bases: Sequence[Report],
    families: Optional[List[str]],
    unit: Unit,
    whole: int,
    most: float = PASSING,
) -> Way:
    """Returns the way without the local variables of all calls, if in none of the dumps, of which `bases` are the
    reports with them, more than `most` percent of `whole` is lost by that; else without those of the JDK's calls, under
    the same condition; else with all."""
    for calls in Calls:
        if 100 * most_lost(bases, counts.reports(Way(follows, calls)), families, unit) <= most * whole:
            return Way(follows, calls)
    return Way(follows)


def most_lost(bases: Sequence[Report], less: Sequence[Report], families: Optional[List[str]], unit: Unit) -> int:
    """Returns the most of these families, or of all if they are None, that one of the reports `less` lacks of that in
    `bases`."""
    return max(unit.of(base.total(families)) - unit.of(it.total(families)) for base, it in zip(bases, less))


def grown(reports: Sequence[Report], families: Optional[List[str]], unit: Unit) -> int:
    """Returns how much more the last dump has of these families than the first, or one dump at all; or of all that is
    reachable if they are None."""
    *before, last = (unit.of(each.total(families)) for each in reports)
    return last - sum(before[:1])
