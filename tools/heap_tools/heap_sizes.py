"""What the classes of a dump take in the heap: what is reachable, what is not, and all."""

from collections import defaultdict
from typing import Callable, Dict, List, NamedTuple, Optional

from heap_tools.class_names import CLASSES, package
from heap_tools.dump_runs import DumpRuns
from heap_tools.heap_layout import STACK, Layout, UnknownLayout
from heap_tools.object_sizes import ObjectSizes, Unsure
from heap_tools.object_totals import Total, totals_of
from heap_tools.reports import Amount, Report, Row
from heap_tools.unloaded_classes import unloaded_classes

#: The row of a histogram for the class objects, which a report has in two rows.
CLASS_OBJECTS = "java/lang/Class"
#: The package of the classes that have none, and of arrays of primitive values.
NO_PACKAGE = "(no package)"


class ClassSize(NamedTuple):
    """All objects of a class, or of a package, and those of them that are unreachable."""

    name: str
    every: Amount
    unreachable: Amount

    @property
    def reachable(self) -> Amount:
        """The objects that are reachable."""
        return self.every.minus(self.unreachable)

    def plus(self, other: "ClassSize") -> "ClassSize":
        """Returns the objects of both, under this name."""
        return ClassSize(self.name, self.every.plus(other.every), self.unreachable.plus(other.unreachable))


class HeapSizes(NamedTuple):
    """The classes of a dump, and the layout by which their sizes were found, or why it is not known. Then bytes are
    those of the dump. `omitted`: class objects that the heap has and the dump lacks. `unsure`: of how much it is not
    sure."""

    classes: List[ClassSize]
    omitted: Amount
    layout: Optional[Layout]
    why_unknown: str
    unsure: Unsure = Unsure(0, 0)

    @property
    def in_dump(self) -> ClassSize:
        """All objects of the dump."""
        return _sum("", self.classes)

    @property
    def every(self) -> Amount:
        """All objects of the heap."""
        return self.in_dump.every.plus(self.omitted)

    @property
    def stacks(self) -> Amount:
        """The objects that have the stacks of virtual threads that wait."""
        return next((each.every for each in self.classes if each.name == STACK), Amount())


def sizes_in(runs: DumpRuns) -> HeapSizes:
    """Returns what the classes of a dump take. Walks over all objects."""
    sizes, why = None, ""
    try:
        sizes = ObjectSizes(runs.dump)
    except UnknownLayout as unknown:
        why = str(unknown)
    totals = totals_of(runs.dump, sizes)
    taken = in_rows_of_histogram({name: total.taken for name, total in totals.items()})
    reachable = in_rows_of_histogram(_reachable(runs.report, totals, sizes))
    found = [ClassSize(name, it, it.minus(reachable.get(name, Amount()))) for name, it in taken.items() if it.objects]
    omitted = unloaded_classes(runs.dump, sizes.is_ascending, runs.report.unresolved) if sizes else Amount()
    if sizes is None:
        return HeapSizes(_sorted(found), omitted, None, why)
    unsure = sizes.rows.unsure(Row(name, amount) for name, amount in taken.items())
    return HeapSizes(_sorted(found), omitted, sizes.layout, "", unsure)


def in_rows_of_histogram(rows: Dict[str, Amount]) -> Dict[str, Amount]:
    """Returns rows of a report as a histogram has them: class objects are objects of `java/lang/Class`."""
    found = {name: amount for name, amount in rows.items() if name != CLASSES}
    found[CLASS_OBJECTS] = found.get(CLASS_OBJECTS, Amount()).plus(rows.get(CLASSES, Amount()))
    return found


def _reachable(report: Report, totals: Dict[str, Total], sizes: Optional[ObjectSizes]) -> Dict[str, Amount]:
    """Returns what the reachable objects of each row take: all, if all are reachable; else the same for each byte that
    they have in the dump as for the others, besides what each object takes."""
    found: Dict[str, Amount] = {}
    for name, amount in report.by_name().items():
        total = totals.get(name, Total())
        if sizes is None:
            found[name] = amount
        elif amount == total.written:
            found[name] = total.taken
        else:
            taken, most = sizes.rows.of(name, amount).bytes, sizes.rows.of(name, total.written).bytes
            share = total.taken.bytes / max(1, most)  # which makes the mean padding that of all objects
            found[name] = Amount(amount.objects, min(total.taken.bytes, round(share * taken)))
    return found


def sizes_by_package(classes: List[ClassSize]) -> List[ClassSize]:
    """Returns the sums of packages. An array counts for the package of its elements."""
    found: Dict[str, List[ClassSize]] = defaultdict(list)
    for each in classes:
        found[package(each.name) or NO_PACKAGE].append(each)
    return _sorted([_sum(name, several) for name, several in found.items()])


def _sum(name: str, several: List[ClassSize]) -> ClassSize:
    whole = ClassSize(name, Amount(), Amount())
    for each in several:
        whole = whole.plus(each)
    return whole


def _sorted(classes: List[ClassSize], amount: Callable[[ClassSize], Amount] = lambda it: it.every) -> List[ClassSize]:
    """Returns classes, the one that takes most first."""
    return sorted(classes, key=lambda it: (-amount(it).bytes, -amount(it).objects, it.name))


def unreachable_first(classes: List[ClassSize]) -> List[ClassSize]:
    """Returns the classes that have unreachable objects, the one of which these take most first."""
    return _sorted([each for each in classes if each.unreachable.objects], lambda it: it.unreachable)
