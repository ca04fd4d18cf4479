"""How many elements the containers have to which fields lead: those of the JDK, and arrays of references."""

from typing import Dict, Iterable, List, Optional, Sequence, Set, Tuple

from heap_tools import hprof_format as hprof
from heap_tools.candidates import FIELD, STATIC, Candidate
from heap_tools.heap_objects import HeapObjects
from heap_tools.object_parts import FieldUses
from heap_tools.probe import Probe

#: The number of elements that a container keeps, as an int.
NUMBERS = {
    ("java/util/ArrayList", "size"),
    ("java/util/EnumMap", "size"),
    ("java/util/HashMap", "size"),
    ("java/util/Hashtable", "count"),
    ("java/util/IdentityHashMap", "size"),
    ("java/util/LinkedList", "size"),
    ("java/util/PriorityQueue", "size"),
    ("java/util/TreeMap", "size"),
    ("java/util/Vector", "elementCount"),
    ("java/util/WeakHashMap", "size"),
    ("java/util/concurrent/ArrayBlockingQueue", "count"),
    ("java/util/concurrent/LinkedBlockingDeque", "count"),
    ("java/util/concurrent/PriorityBlockingQueue", "size"),
    ("java/util/concurrent/ScheduledThreadPoolExecutor$DelayedWorkQueue", "size"),
    ("java/util/concurrent/atomic/AtomicInteger", "value"),
}
#: The parts of a number of elements that several threads add to: a long, beside those of the cells of an array.
STRIPES = {
    ("java/util/concurrent/ConcurrentHashMap", "baseCount"),
    ("java/util/concurrent/ConcurrentHashMap$CounterCell", "value"),
    ("java/util/concurrent/atomic/Striped64", "base"),
    ("java/util/concurrent/atomic/Striped64$Cell", "value"),
}
#: What has the elements of a container, or the rest of their number.
INNER = {
    ("java/util/ArrayDeque", "elements"),
    ("java/util/Collections$SetFromMap", "m"),
    ("java/util/Collections$SynchronizedCollection", "c"),
    ("java/util/Collections$SynchronizedMap", "m"),
    ("java/util/Collections$UnmodifiableCollection", "c"),
    ("java/util/Collections$UnmodifiableMap", "m"),
    ("java/util/HashSet", "map"),
    ("java/util/TreeSet", "m"),
    ("java/util/concurrent/ConcurrentHashMap", "counterCells"),
    ("java/util/concurrent/ConcurrentHashMap$CollectionView", "map"),
    ("java/util/concurrent/ConcurrentSkipListMap", "adder"),
    ("java/util/concurrent/ConcurrentSkipListSet", "m"),
    ("java/util/concurrent/CopyOnWriteArrayList", "array"),
    ("java/util/concurrent/CopyOnWriteArraySet", "al"),
    ("java/util/concurrent/DelayQueue", "q"),
    ("java/util/concurrent/LinkedBlockingQueue", "count"),
    ("java/util/concurrent/atomic/Striped64", "cells"),
}
#: The arrays of cells that add to a number.
CELLS = {"[Ljava/util/concurrent/ConcurrentHashMap$CounterCell;", "[Ljava/util/concurrent/atomic/Striped64$Cell;"}
#: How far the elements of a container, or their number, may be in it: a set, its map, the adder of that, its cells.
DEEPEST = 5
#: Of how many containers at most the elements are counted: of more, the number of the field's instances says it.
MOST_CONTAINERS = 1000


def counts_of(objects: HeapObjects, containers: Iterable[int]) -> Dict[int, int]:
    """Returns how many elements those of the objects with these identifiers have that are containers. Walks over all
    objects once for each step into them."""
    found: Dict[int, int] = {}
    # What is read next: identifiers, and the containers to whose numbers they add.
    owners = {each: [each] for each in containers if each}
    for _ in range(DEEPEST):
        inner: Dict[int, List[int]] = {}
        for key, at in objects.places_of(owners).items():
            is_array = objects.dump.bytes[at] == hprof.OBJECT_ARRAY
            number, following = _of_array(objects, at) if is_array else _of_instance(objects, at)
            for owner in owners[key] if number is not None or following else ():
                found[owner] = found.get(owner, 0) + (number or 0)
                for each in following:
                    inner.setdefault(each, []).append(owner)
        owners = inner
    return found


def _of_array(objects: HeapObjects, at: int) -> Tuple[Optional[int], List[int]]:
    """Returns the number of elements of an array of references, or the identifiers of the cells that add to one."""
    elements = [each for each in objects.elements_of(at) if each]
    are_cells = objects.dump.names.get(objects.dump.id(at + 9 + objects.dump.id_size)) in CELLS
    return (None, elements) if are_cells else (len(elements), [])


def _of_instance(objects: HeapObjects, at: int) -> Tuple[Optional[int], List[int]]:
    """Returns the number of elements that an instance keeps, None if it keeps none, and the identifiers of what adds to
    it."""
    dump, inner = objects.dump, []
    number: Optional[int] = None
    for owner, place, field in objects.fields_of(objects.class_of(at)):
        name = dump.names[owner], field.name
        if (field.kind, name in NUMBERS) == (hprof.INT, True):
            number = dump.number(at + place, 4)
        elif (field.kind, name in STRIPES) == (hprof.LONG, True):
            number = dump.number(at + place, 8, signed=True)
        elif name in INNER and dump.id(at + place):
            inner.append(dump.id(at + place))
    return number, inner


def element_counts(probe: Probe, lines: Sequence[Sequence[Candidate]]) -> List[Optional[int]]:
    """Returns how many elements the containers have to which the field of each line leads in the dump that `probe`
    asks. None of several fields, a local variable and threads, of too many instances or some that are unreachable, and
    if what a field leads to is no container."""
    objects = HeapObjects(probe.runs.dump)
    single = [each[0] for each in lines if len(each) == 1 and each[0].kind in (FIELD, STATIC)]
    uses = FieldUses(objects, [each for each in single if each.kind == FIELD])
    targets = {each.key: containers_of(probe, each, uses) for each in single}
    known = counts_of(objects, (each for of_field in targets.values() for each in of_field))
    counts = [[known.get(each) for each in targets.get(line[0].key, ())] if len(line) == 1 else [] for line in lines]
    return [sum(filter(None, each)) if each and None not in each else None for each in counts]


def containers_of(probe: Probe, field: Candidate, uses: FieldUses) -> Set[int]:
    """Returns the identifiers of that to which a field leads, none if that is not asked."""
    if field.kind == STATIC:
        return probe.candidates.values_of_static(field.key)
    values = uses.of(field).values
    if len(values) > min(MOST_CONTAINERS, probe.instances([field])):
        return set()
    return {uses.objects.dump.id(each.value) for each in values}
