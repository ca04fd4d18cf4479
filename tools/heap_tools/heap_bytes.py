"""Whether bytes are those of the heap, as the virtual machine counts, or those of the dump."""

from typing import List, NamedTuple, Optional, Sequence, Union
from weakref import WeakKeyDictionary

from heap_tools.dump_runs import DumpRuns
from heap_tools.heap_dump import HeapDump
from heap_tools.heap_layout import UnknownLayout
from heap_tools.humanize import plural, size
from heap_tools.object_sizes import ObjectSizes, RowSizes, Unsure
from heap_tools.parallel import shared
from heap_tools.reports import Report

#: No virtual machine writes a dump with fewer objects: of such a one it is not said that its layout is not known.
FEWEST_OF_HEAP = 3000
#: The part of the heap from which on it is said that it is not sure what some objects take.
UNSURE = 0.001


#: The sizes in a dump, or why its layout is not known.
Measured = Union[RowSizes, str]
#: Those of dumps that were measured before others were read.
KNOWN: "WeakKeyDictionary[HeapDump, Measured]" = WeakKeyDictionary()


class Counted(NamedTuple):
    """Dumps whose reports are in bytes of one kind, and why these are not those of the heap, empty if they are, or if
    the user wants others."""

    dumps: List[DumpRuns]
    words: str

    @property
    def dump(self) -> DumpRuns:
        """The dump, if there is one."""
        return self.dumps[0]


def counted_in_heap(dumps: Sequence[DumpRuns], dump_bytes: bool) -> Counted:
    """Returns the dumps with reports in bytes of the heap, or as they are, if `dump_bytes` is set, or if the layout of
    one of them is not known."""
    if dump_bytes:
        return Counted([*dumps], "")
    found: List[RowSizes] = []
    for each, sizes in zip(dumps, _sizes_of(dumps)):
        if isinstance(sizes, str):
            return Counted([*dumps], unknown_words(each.path, each.report, sizes))
        found.append(sizes)
    counted = [each.in_heap(sizes.like(found[-1])) for each, sizes in zip(dumps, found)]
    return Counted(counted, doubt_words(found[-1], counted[-1].report))


def measure(dump: HeapDump) -> None:
    """Finds the sizes in a dump now, since its content will be forgotten."""
    KNOWN[dump] = _sizes_or_why(dump)


def _sizes_of(dumps: Sequence[DumpRuns]) -> List[Measured]:
    """Returns the sizes in each dump, or why its layout is not known: of an earlier one roughly if it has the layout of
    the last, by which the rows of both are counted. Dumps are looked into at once."""

    def sizes_of(some: List[DumpRuns]) -> List[Measured]:
        return [_sizes_or_why(each.dump, each is not dumps[-1]) for each in some]

    found = [each for part in shared(sizes_of, [*dumps], least=1) for each in part]
    layouts = [it if isinstance(it, str) else it.layout for it in found]
    return [it if of == layouts[-1] else _sizes_or_why(each.dump) for each, it, of in zip(dumps, found, layouts)]


def _sizes_or_why(dump: HeapDump, is_rough: bool = False) -> Measured:
    """Returns the sizes in a dump, or why its layout is not known."""
    if dump in KNOWN:
        return KNOWN[dump]
    try:
        return ObjectSizes(dump, is_rough).rows
    except UnknownLayout as unknown:
        return str(unknown)


def layout_words(sizes: Optional[RowSizes]) -> str:
    """Says what bytes are, if `sizes` are known."""
    if sizes is None:
        return ""
    return f"bytes are those of the heap, by its layout ({sizes.layout.words()}); --dump-bytes counts those of the dump"


def doubt_words(sizes: Optional[RowSizes], report: Optional[Report]) -> str:
    """Says of how many bytes of a report in heap bytes it is not sure, unless that is little of it."""
    return unsure_words(sizes.unsure(report.rows), report.reachable.bytes) if sizes and report else ""


def unsure_words(unsure: Unsure, whole: int) -> str:
    """Says of how many classes it is not sure what they take, unless that is little of `whole` bytes."""
    if unsure.bytes < UNSURE * whole or not unsure.bytes:
        return ""
    what = f"the objects of {unsure.classes:,} {plural(unsure.classes, 'class')} take"
    return f"it is not sure what {what}, since no neighbour shows it: up to {size(unsure.bytes)} more or less"


def unknown_words(path: str, report: Report, why: str) -> str:
    """Says that bytes are those of the dump `path`, unless it has few objects."""
    if report.reachable.objects + report.unreachable.objects < FEWEST_OF_HEAP:
        return ""
    return f"bytes are those of the dump, not of the heap, whose layout {path} does not show: {why}"
