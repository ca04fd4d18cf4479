"""Dumps whose tables and reports are found in this process, not by heapmark and retained."""

from typing import Dict, List, Sequence, Set

from heap_tools.dump_runs import DumpRuns
from heap_tools.dump_side import DumpSide, ask
from heap_tools.heap_dump import HeapDump
from heap_tools.heapmark import Heapmark
from heap_tools.held_table import HeldTable
from heap_tools.label_text import Labels, Place
from heap_tools.probe import GrowthProbe, Probe, Retained
from heap_tools.reports import Amount, Report, Row, Unit
from heap_tools.retained_program import LabelledDump, RetainedProgram
from heap_tools.what_counts import Way, first_groups, side_of, sides_of
from tests.support.dump_writer import DumpWriter
from tests.support.labelled_heap import LabelledHeap


class InProcess(RetainedProgram):
    """Stands in for retained on dumps that this process knows, by their paths. `texts` are those that it got."""

    def __init__(self) -> None:
        super().__init__()
        self.heaps: Dict[str, LabelledHeap] = {}
        self.texts: List[Labels] = []

    def tables(self, dumps: Sequence[LabelledDump]) -> List[HeldTable]:
        """Returns the table of each dump."""
        self.runs += len(dumps)
        self.texts += [dump.labels for dump in dumps]
        return [self.heaps[dump.path].table(dump.labels) for dump in dumps]


#: What all dumps of a test are asked by.
RETAINED = InProcess()


class MarkedRuns(DumpRuns):
    """A dump whose report is made in this process."""

    def __init__(self, dump: HeapDump) -> None:
        heapmark, self.heap = Heapmark(), LabelledHeap(dump)
        heapmark.retained = RETAINED
        path = f"dump {len(RETAINED.heaps)} of a test"
        RETAINED.heaps[path] = self.heap
        super().__init__(heapmark, path, self.report_of(self.reachable()), dump)

    def reachable(self, cut: Sequence[Place] = (), roots: Sequence[int] = ()) -> Set[int]:
        """Returns the objects that are reachable without the references that are cut. `roots` are roots, too."""
        return set(self.heap.sets(Labels(cut, roots)))

    def report_of(self, marked: Set[int]) -> Report:
        """Returns the report of which these are the reachable objects."""
        rows: Dict[str, Amount] = {}
        for key in marked:
            name, size = self.heap.rows[key]
            rows[name] = rows.get(name, Amount()).plus(Amount(1, size))
        whole = Amount(len(marked), sum(self.heap.rows[key][1] for key in marked))
        every = Amount(len(self.heap.rows), sum(size for _, size in self.heap.rows.values()))
        return Report([Row(*each) for each in rows.items()], whole, every.minus(whole))


def marked(dump: DumpWriter) -> MarkedRuns:
    """Returns a dump that is marked in this process."""
    return MarkedRuns(HeapDump(dump.bytes()))


def lost(side: DumpSide, held: Retained) -> Set[int]:
    """Returns the objects that are reachable in a side, and not without what holds something."""
    runs = side.runs
    assert isinstance(runs, MarkedRuns)
    cut = [*side.cut, *side.places(held.candidates)]
    return runs.reachable(side.cut, side.roots) - runs.reachable(cut, side.roots)


def side_with_all(runs: DumpRuns) -> DumpSide:
    """Returns a dump in which weak references are not followed, and local variables are. All that is asked in the first
    run is known."""
    side = side_of(runs, Way())
    ask([(side, first_groups(side))])
    return side


def probe_of(dump: DumpWriter) -> Probe:
    """Returns what asks a dump who holds its bytes."""
    return Probe(side_with_all(marked(dump)), None, Unit.BYTES)


def growth_of(before: DumpWriter, after: DumpWriter) -> GrowthProbe:
    """Returns what asks two dumps who holds the growth of their bytes."""
    first, last = sides_of([marked(before), marked(after)], Way())
    return GrowthProbe(first, last, None, Unit.BYTES)


def held_by(probe: Probe, name: str) -> Retained:
    """Returns what the field or static field of this name holds."""
    every = [*probe.candidates.statics(), *probe.candidates.fields(probe.base)]
    return probe.retained([next(each for each in every if each.name == name)])
