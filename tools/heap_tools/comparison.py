"""What `leaks` asks about the growth between dumps of one program."""

import functools
from dataclasses import dataclass
from typing import List, NamedTuple, Optional, Sequence, TypeVar

from heap_tools.class_growth import growths
from heap_tools.class_lookup import family_of
from heap_tools.class_names import CLASSES, family
from heap_tools.console import Progress
from heap_tools.direct_buffers import BUFFER, direct_memory, more_direct_memory
from heap_tools.dump_runs import DumpRuns
from heap_tools.faults import NOTHING, UNREADABLE, Fault
from heap_tools.gzip_dump import forget
from heap_tools.heap_bytes import measure
from heap_tools.heapmark import Heapmark
from heap_tools.humanize import counted, more_are
from heap_tools.leak_options import Options
from heap_tools.omissions import more_unreachable
from heap_tools.plain_dumps import is_dump
from heap_tools.dump_side import DumpSide, Several, ask
from heap_tools.probe import GrowthProbe, Probe, RunningCalls
from heap_tools.reports import Amount, Report, Unit
from heap_tools.same_program import Taken, other_main, other_program, wrong_order
from heap_tools.weak_growth import MUCH_WEAKLY_HELD, Followed, followed_of
from heap_tools.what_counts import PASSING, Way, WhatCounts, grown, side_of, sides_of, without_running_calls

#: A dump, or its number.
Dump = TypeVar("Dump")
#: How many dumps between the first and the last are asked what the lines hold in them.
BETWEEN = 3
#: How many dumps are read at the same time.
READ_AT_ONCE = 2


class NoGrowth(Fault):
    """Ends `leaks` without a line, since nothing grew, or not enough: `whole` is how much is reachable of what is asked
    for, `growth` how much more than before. It is no fault if the user allows a growth."""

    def __init__(self, text: str, whole: Amount, growth: Amount, is_allowed: bool) -> None:
        super().__init__(0 if is_allowed else NOTHING, text)
        self.whole, self.growth = whole, growth


class Asked(NamedTuple):
    """What is counted: objects of these families, or all that is reachable, in a unit. `why`: in words why it is not
    what the user asked for."""

    families: Optional[List[str]]
    unit: Unit
    why: Sequence[str] = ()


@dataclass(frozen=True)
class Comparison:
    """The dumps of a command line, the earliest first, what asks the first and the last, which weak references are
    followed, and what counts. `why`: in words what was decided about the question. `growth`: how much more is asked for
    than in the first, with running calls."""

    dumps: Sequence[DumpRuns]
    probe: GrowthProbe
    followed: Followed
    way: Way
    why: Sequence[str]
    growth: Amount

    @property
    def first(self) -> DumpRuns:
        """The first dump."""
        return self.dumps[0]

    @property
    def last(self) -> DumpRuns:
        """The last dump."""
        return self.dumps[-1]

    @property
    def follows_weak(self) -> bool:
        """Tests whether some weak references are followed."""
        return self.followed.is_any

    @property
    def weak_words(self) -> str:
        """A text on what grew and is held by weak references that are not followed, empty if that is little."""
        held, whole = (self.probe.unit.of(each) for each in (self.followed.amount, self.probe.growth))
        if 100 * held < MUCH_WEAKLY_HELD * whole:
            return ""
        return f"{more_are(*self.followed.amount)} held by soft, weak, final or phantom references alone: see --weak"

    @property
    def between(self) -> List[DumpRuns]:
        """Returns some dumps between the first and the last: at most `BETWEEN`."""
        return spread(self.dumps[1:-1], BETWEEN)

    def probes_between(self, groups: Sequence[Several], cut: Several, way: Optional[Way] = None) -> List[Probe]:
        """Returns what knows what `groups` hold in the dumps between, without what is `cut`: by the way in which these
        dumps count, or by another `way`."""
        sides = [side_of(each, way or self.way).without(cut) for each in self.between]
        ask([(side, groups) for side in sides])
        return [Probe(side, self.probe.families, self.probe.unit) for side in sides]

    def running_calls(self, least: float) -> Optional[RunningCalls]:
        """Returns what asks the same if running calls count. Returns None if they do anyway, or if only they hold less
        than `least` percent of what grew."""
        unit, probe = self.probe.unit, self.probe
        if not self.way.calls or unit.percent(self.growth.minus(probe.growth), self.growth) < least:
            return None

        way = self.way._replace(calls=None)

        def without(cut: Several) -> Probe:
            first, last = sides_of((self.first, self.last), way, cut)
            return GrowthProbe(first, last, probe.families, unit)

        return RunningCalls(self.growth, without, functools.partial(self.probes_between, way=way))


def dumps_of(paths: Sequence[str], heapmark: Heapmark, progress: Progress) -> List[DumpRuns]:
    """Returns the dumps at `paths`. Those that will not be asked are measured, and have no content then, so that not
    all are in memory. Raises `Fault` if one cannot be read, if they are the same, not in the order of their times, or
    seem to be of two programs."""
    dumps: List[DumpRuns] = []
    asked = {0, *spread(range(1, len(paths) - 1), BETWEEN), len(paths) - 1}
    while len(dumps) < len(paths):
        begin = len(dumps)
        some = paths[begin : begin + READ_AT_ONCE]
        progress.show(f"reading {counted(begin + len(some), 'dump')} of {len(paths)}")
        # If one is none, the fault of the first that has one is raised.
        dumps += DumpRuns.of_several(heapmark, some if all(map(is_dump, some)) else some[:1], "leaks")
        for number in range(begin, len(dumps)):
            if number not in asked:
                measure(dumps[number].dump)
                dumps[number].dump.forget()
                forget(paths[number])
    require_one_program(dumps)
    return dumps


def require_one_program(dumps: Sequence[DumpRuns]) -> None:
    """Raises `Fault` if dumps are the same, not in the order of their times, or seem to be of two programs."""
    first, last = dumps[0], dumps[-1]
    why = wrong_order([Taken(each.path, each.dump.time) for each in dumps])
    pairs = zip(dumps, dumps[1:])
    same = (f"{it.path}: the same file as {was.path}" for was, it in pairs if was.dump.is_same(it.dump))
    why = why or next(same, None)
    if why:
        raise Fault(UNREADABLE, why)
    few = other_program(*(map(family, each.dump.names.values()) for each in (first, last)))
    few = few or other_main(first.dump, last.dump)
    if few:
        raise Fault(UNREADABLE, f"{last.path}: another program? it has {few} of {first.path}")


def comparison_of(dumps: Sequence[DumpRuns], options: Options) -> Comparison:
    """Returns what asks dumps about the growth. Calls that are running do not count, nor do weak references, unless the
    user follows them or those of one kind alone hold most of the growth."""
    counts, asked = WhatCounts((dumps[0], dumps[-1])), Asked(families_asked(options, dumps[-1]), options.unit)
    return by_usual_way(dumps, counts, asked, options) or by_best_way(dumps, counts, asked, options)


def by_usual_way(dumps: Sequence[DumpRuns], counts: WhatCounts, asked: Asked, options: Options) -> Optional[Comparison]:
    """Returns what asks dumps by a usual way, if that leaves out less than a line must hold. Returns None if not, or if
    more is to be known of what it leaves out."""
    if options.weak or options.more_than is not None:
        return None
    unseen = min(PASSING, options.bounds.others)
    way = counts.usual_way(asked.families, asked.unit, unseen, calls_without_line(options))
    reports = [side.base for side in counts.sides(way)] if way else []
    if way is None or with_direct_memory(counts.dumps, reports, asked) != asked:
        return None
    return _comparison(dumps, counts.sides(way), Followed(), way, asked, reports)


def by_best_way(dumps: Sequence[DumpRuns], counts: WhatCounts, asked: Asked, options: Options) -> Comparison:
    """Returns what asks dumps by that of all ways that is best. Raises `NoGrowth` if nothing grew."""
    followed, reports = followed_of(counts, asked.families, asked.unit, options.weak)
    require_more([each.total(asked.families) for each in reports], options)
    asked = with_growth(reports, with_direct_memory(counts.dumps, reports, asked), dumps)
    growth, most = grown(reports, asked.families, asked.unit), calls_without_line(options)
    way = without_running_calls(counts, followed.follows, reports, asked.families, asked.unit, growth, most)
    return _comparison(dumps, counts.sides(way), followed, way, asked, reports)


def calls_without_line(options: Options) -> float:
    """Returns up to which share in percent running calls may hold what they do: what holds less than line 1 must is no
    line, and nothing below it is."""
    return max(PASSING, options.bounds.first - 1)


def _comparison(
    dumps: Sequence[DumpRuns],
    ends: Sequence[DumpSide],
    followed: Followed,
    way: Way,
    asked: Asked,
    reports: Sequence[Report],
) -> Comparison:
    """Returns what asks dumps, of which the first and the last are `ends` by a way, and have `reports` with running
    calls, or without them if they hold hardly anything."""
    first, last = ends
    for each in dumps[1:-1]:
        each.learn(last.written)
    probe = GrowthProbe(first, last, asked.families, asked.unit)
    was, now = (each.total(asked.families) for each in reports)
    why = [*filter(None, [followed.why]), *asked.why]
    return Comparison(dumps, probe, followed, way, why, now.minus(was))


def families_asked(options: Options, runs: DumpRuns) -> Optional[List[str]]:
    """Returns the family that the user asks for, or None if that is the whole heap. Raises `Fault` if the dump has none
    of that name."""
    return None if options.of_class is None else [family_of(options.of_class, runs.dump, runs.report)]


def with_direct_memory(ends: Sequence[DumpRuns], reports: Sequence[Report], asked: Asked) -> Asked:
    """Returns the question about direct buffers if all is asked for, and the heap grew by less than their memory. Looks
    for those of the first dump only if the last one has more."""
    growth, after = max(0, grown(reports, asked.families, asked.unit)), direct_memory(ends[1].dump)
    before = direct_memory(ends[0].dump) if after.bytes > growth else after
    if asked.families is not None or asked.unit is not Unit.BYTES or after.bytes - before.bytes <= growth:
        return asked
    why = f"{more_direct_memory(before, after)}: the heap grew by less; {only_of(BUFFER)}"
    return Asked([BUFFER], Unit.OBJECTS, [why])


def with_growth(reports: Sequence[Report], asked: Asked, dumps: Sequence[DumpRuns]) -> Asked:
    """Returns the question about the classes of which there are more objects, if what is asked for did not grow. Raises
    `Fault` if there are none."""
    families, unit, why = asked
    if grown(reports, families, unit) > 0:
        return asked
    what = families[0] if families else "reachable"
    was, now = (unit.of(each.total(families)) for each in reports)
    text = f"{what}: {counted(was, unit.noun)}, then {now:,}: no growth"
    found = [each.name for each in growths(reports) if each.amount.objects > 0]
    wanted = families or [name for name in found if name != CLASSES]
    more = [name for name in found if name in wanted]
    if not more:
        text += f"; {missing_words(dumps)}" if max(unreachable_growth(dumps)) > 0 else ""
        first, last = (each.total(families) for each in reports)
        raise NoGrowth(text, last, last.minus(first), is_allowed=False)
    so = only_of("it" if families else "the classes that grew")
    return Asked(more, Unit.OBJECTS, [*why, f"{text}; {so}"])


def only_of(classes: str) -> str:
    """Returns in words what lines count if that is not what the user asked for: their bytes, too, are only those of
    these classes, so that all figures of a line, a document and a page are of the same objects."""
    return f"so only objects of {classes} count, and shares are of their number"


def require_more(reachable: Sequence[Amount], options: Options) -> None:
    """Raises `NoGrowth` if the user allows a growth, and what is asked for grew by no more. `reachable` is how much of
    it is in the first dump, and in the last."""
    first, last = reachable
    if options.more_than is not None and last.bytes - first.bytes <= options.more_than:
        what, grew = options.of_class or "reachable", f"{counted(first.bytes, 'byte')}, then {last.bytes:,}"
        text = f"{what}: {grew}: not more than {counted(options.more_than, 'byte')} more"
        raise NoGrowth(text, last, last.minus(first), is_allowed=True)


def unreachable_growth(dumps: Sequence[DumpRuns]) -> Amount:
    """Returns how much more is unreachable in the last dump than in the first."""
    return dumps[-1].report.unreachable.minus(dumps[0].report.unreachable)


def missing_words(dumps: Sequence[DumpRuns]) -> str:
    """Returns a text for the user: how much more is unreachable, why, and what shows it."""
    return f"{more_unreachable(unreachable_growth(dumps))}: see grown with jmap -histo:live"


def spread(dumps: Sequence[Dump], most: int) -> List[Dump]:
    """Returns at most `most` of `dumps`, as far apart from each other as from the ends."""
    count = min(len(dumps), most)
    return [dumps[(2 * number + 1) * len(dumps) // (2 * count)] for number in range(count)]
