"""Files of several kinds in bytes of one kind, so that they can be compared."""

import os
from dataclasses import replace
from typing import Dict, List, NamedTuple, Sequence, Tuple

from heap_tools.class_names import CLASSES
from heap_tools.dump_runs import read_dump
from heap_tools.faults import UNREADABLE, Fault
from heap_tools.gzip_dump import forget
from heap_tools.heap_bytes import doubt_words, unknown_words
from heap_tools.heap_layout import UnknownLayout
from heap_tools.heap_sizes import CLASS_OBJECTS
from heap_tools.object_totals import shapes_of
from heap_tools.object_sizes import ObjectSizes, RowSizes
from heap_tools.reports import Amount, Report, Row
from heap_tools.snapshots import Snapshot
from heap_tools.unloaded_classes import unloaded_classes

#: The rows of a report, and of a histogram, that are another row where both are compared: class objects are objects of
#: their class, and arrays that fill gaps in the heap are arrays of int in a dump.
JOINED = {CLASSES: CLASS_OBJECTS, "[Ljdk/internal/vm/FillerElement;": "int[]"}


def in_common_bytes(snapshots: Sequence[Snapshot], dump_bytes: bool) -> Tuple[List[Snapshot], str]:
    """Returns files whose bytes can be compared, and what there is to say about them. Dumps
    are in bytes of the heap, but not beside a saved report, not if the layout of one is not known, and not if
    `dump_bytes` is set. Raises `Fault` if histograms, whose bytes are the heap's, are among others that are not."""
    found, words = [*snapshots], ""
    if not dump_bytes and all(each.kind != "report" for each in snapshots):
        found, words = _in_heap(snapshots)
    histogram = next((each for each in found if each.kind == "histogram"), None)
    other = next((each for each in found if not each.report.in_heap), None)
    if histogram and other:
        text = f"{histogram.path}: a histogram: its bytes are not those of {other.path}, a {other.kind}"
        raise Fault(UNREADABLE, text)
    if histogram and any(each.kind != "histogram" for each in found):
        found = [each._replace(report=_joined(each.report)) for each in found]
    return found, words


class _Measured(NamedTuple):
    """What the rows of a dump take in the heap, and the class objects that a histogram beside it has and the dump
    lacks."""

    sizes: RowSizes
    omitted: Amount


def _in_heap(snapshots: Sequence[Snapshot]) -> Tuple[List[Snapshot], str]:
    """Returns dumps in bytes of the heap, beside histograms; or all as they are, if the layout of one is not known."""
    dumps = [each for each in snapshots if each.kind == "dump"]
    if not all(os.path.isfile(each.path) for each in dumps):
        return [*snapshots], ""
    found: Dict[str, _Measured] = {}
    for each in dumps:
        try:
            found[each.path] = _measured(each, len(dumps) < len(snapshots))
        except UnknownLayout as unknown:
            return [*snapshots], unknown_words(each.path, each.report, str(unknown))
    last = found[dumps[-1].path].sizes if dumps else None
    counted = [_counted(each, found[each.path], last) if last and each in dumps else each for each in snapshots]
    reports = [each.report for each in counted if each.kind == "dump"]
    return counted, doubt_words(last, reports[-1] if reports else None)


def _measured(snapshot: Snapshot, beside_histogram: bool) -> _Measured:
    """Returns what a dump has in the heap. Beside a histogram, which has the sizes of all objects, all are read."""
    dump = read_dump(snapshot.path, snapshot.state, snapshot.report)
    forget(snapshot.path)
    sizes = ObjectSizes(dump)
    if not beside_histogram:
        return _Measured(sizes.rows, Amount())
    omitted = unloaded_classes(dump, sizes.is_ascending, snapshot.report.unresolved)
    return _Measured(sizes.of_all(shapes_of(dump)), omitted)


def _counted(snapshot: Snapshot, measured: _Measured, last: RowSizes) -> Snapshot:
    """Returns a dump in bytes of the heap, in rows that the last dump has, too, as by its sizes. The omitted class
    objects are in their class's row, but not in the totals, which are heapmark's."""
    report = measured.sizes.like(last).report(snapshot.report)
    omitted = [Row(CLASS_OBJECTS, measured.omitted)] if measured.omitted.objects else []
    return snapshot._replace(report=replace(report, rows=[*report.rows, *omitted]))


def _joined(report: Report) -> Report:
    """Returns a report with the rows that reports and histograms have both."""
    rows: Dict[str, Amount] = {}
    for name, amount in report.rows:
        name = JOINED.get(name, name)
        rows[name] = rows.get(name, Amount()).plus(amount)
    kept = [Row(*each) for each in rows.items()]
    return Report(kept, report.reachable, report.unreachable, report.unresolved, report.in_heap)
