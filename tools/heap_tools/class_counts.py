"""Of which loaders there are more classes: a loader that is kept keeps its classes, and generated classes pile up."""

from collections import defaultdict
from typing import Counter, Dict, List, NamedTuple, Set

from heap_tools.class_names import class_pattern_of
from heap_tools.heap_dump import HeapDump
from heap_tools.heap_objects import HeapObjects
from heap_tools.humanize import counted
from heap_tools.reports import Report

#: The least number of classes more that is said: a program loads some hundred of them as it goes on, each once.
MANY = 100
#: From how many loaders of one class on it is said of one dump that they are many, and up to how many classes each, on
#: average. A loader for each module of a server is one of some hundred, and has dozens of classes; what makes a class
#: at run time, such as a script or a template, needs one loader with one class, and perhaps one within that.
MANY_LOADERS, FEW_CLASSES = 1000, 2
#: The loader of the JDK's own classes, which is no object.
MACHINE_LOADER = "the virtual machine"


class ClassCount(NamedTuple):
    """How many classes loaders of one class have in the first dump and in the last, how many such loaders there are in
    both, and the pattern that the names of most classes have of which there are more."""

    loader: str
    before: int
    after: int
    loaders_before: int
    loaders: int
    pattern: str

    @property
    def more(self) -> int:
        """How many more classes there are."""
        return self.after - self.before

    def __str__(self) -> str:
        loaders = f" ({counted(self.loaders_before, 'loader')}, then {self.loaders:,})" if self.loaders > 1 else ""
        most = f", most like {self.pattern}" if self.pattern else ""
        return (
            f"{counted(self.more, 'class')} more of {self.loader}{loaders}: {self.before:,}, then {self.after:,}{most}"
        )


def grown_class_counts(first: HeapDump, last: HeapDump) -> List[ClassCount]:
    """Returns of which loaders there are at least `MANY` classes more, those with most first. Looks for the loaders
    only if there are so many more in all."""
    if len(last.classes) - len(first.classes) < MANY:
        return []
    before, after = _by_loader(first), _by_loader(last)
    found = []
    for loader, classes in after.items():
        was = before.get(loader, _Classes())
        if classes.number - was.number >= MANY:
            counts = classes.number, len(was.loaders), len(classes.loaders)
            found.append(ClassCount(loader, was.number, *counts, usual(classes.patterns, was.patterns)))
    return sorted(found, key=lambda each: (-each.more, each.loader))


def many_loaders_words(dump: HeapDump, report: Report) -> List[str]:
    """Returns in words of which classes a dump has `MANY_LOADERS` loaders or more with few classes each, those with
    most first. `report` is that of the dump: they have to be reachable. Looks for the loaders only if there are
    `MANY_LOADERS` in all."""
    if len({each.loader for each in dump.classes.values()}) < MANY_LOADERS:
        return []
    many = [
        (name, it)
        for name, it in _by_loader(dump).items()
        if MANY_LOADERS <= min(len(it.loaders), report.amount(name).objects)
        and it.number <= FEW_CLASSES * len(it.loaders)
    ]
    return [_loaders_words(name, it) for name, it in sorted(many, key=lambda each: (-len(each[1].loaders), each[0]))]


def _loaders_words(name: str, found: "_Classes") -> str:
    """Returns in words how many loaders of one class there are, and what most of their classes are called."""
    pattern = usual(found.patterns, Counter())
    most = f", most like {pattern}" if pattern else ""
    classes = counted(found.number, "class")
    return f"{len(found.loaders):,} loaders {name} have {classes}{most}: metadata of each is outside the heap"


class _Classes:
    """The classes of the loaders of one class: the loaders, and how many classes have names of each pattern."""

    def __init__(self) -> None:
        self.loaders: Set[int] = set()
        self.patterns: Counter[str] = Counter()

    @property
    def number(self) -> int:
        """How many classes there are."""
        return sum(self.patterns.values())


def _by_loader(dump: HeapDump) -> Dict[str, _Classes]:
    """Returns the classes of a dump by the class of their loader."""
    objects = HeapObjects(dump)
    places = objects.places_of({each.loader for each in dump.classes.values()} - {0})
    found: Dict[str, _Classes] = defaultdict(_Classes)
    for class_id, each in dump.classes.items():
        loader = objects.class_name(places[each.loader]) if each.loader in places else MACHINE_LOADER
        found[loader].loaders.add(each.loader)
        found[loader].patterns[class_pattern_of(dump.names[class_id])] += 1
    return found


def usual(after: Counter[str], before: Counter[str]) -> str:
    """Returns the pattern of which there are most more, empty if that is less than half of what came."""
    more = after - before
    pattern, count = more.most_common(1)[0]
    return pattern if 2 * count >= sum(more.values()) else ""
