"""A sample of the objects of a heap dump, each with its neighbour in the heap.

Virtual machines write objects in one of two orders. Where identifiers ascend, the next object of the file is the next
one of the heap, and parts all over the file will do. Where they do not (ZGC and Shenandoah write objects in the order
of their references), all objects of some ranges of addresses are found by a walk over the whole file.
"""

from bisect import bisect_left, bisect_right
from collections import Counter
from functools import reduce
from itertools import chain, islice, tee
from operator import itemgetter, lt, or_, sub
from typing import Counter as Counts
from typing import Dict, Iterable, Iterator, List, NamedTuple, Sequence, Set, Tuple

from heap_tools import hprof_format as hprof
from heap_tools.heap_dump import HeapDump, Span
from heap_tools.object_records import HeapObject, heap_objects, short_spans, some_instances
from heap_tools.parallel import shared
from heap_tools.span_order import ASCENDING, SpanOrder

#: How many objects a sample has, about: enough that the classes which matter are in it.
SAMPLED = 200_000
#: How many times as many objects as a rough sample has, which is enough to see the layout.
ROUGH = 5
#: In how many parts of the file the sample is taken. The first and the last are longer: they have the objects of the
#: virtual machine's start.
PARTS = 40
#: How much of a sample is enough: if the parts have fewer objects, more parts are read.
ENOUGH_SAMPLED = 0.25
#: What is farther from the next object, besides its elements of so many bytes at most, is not taken as its neighbour:
#: there may be others that the dump does not have.
LONGEST, LONGEST_VALUE = 1 << 16, 8
#: The bits of an address within a range, all of whose objects are taken. A range is at least `LONGEST` bytes long.
RANGE_BITS = 16
#: The fewest parts of the file for which a process of its own pays.
FEWEST_SPANS = 16
#: The classes to which OpenJDK adds fields that no dump shows.
WITH_ADDED_FIELDS = frozenset(
    f"java/lang/{name}"
    for name in (
        "ClassLoader",
        "InternalError",
        "Module",
        "StackFrameInfo",
        "String",
        "Thread",
        "VirtualThread",
        "invoke/MemberName",
        "invoke/MethodHandleNatives$CallSiteContext",
        "invoke/ResolvedMethodName",
    )
)
#: The classes of OpenJDK with fields that several threads write, around which the virtual machine leaves room.
WITH_ROOM = frozenset(
    f"java/{name}"
    for name in (
        "lang/Thread",
        "util/concurrent/ConcurrentHashMap$CounterCell",
        "util/concurrent/Exchanger$Node",
        "util/concurrent/ForkJoinPool",
        "util/concurrent/ForkJoinPool$WorkQueue",
        "util/concurrent/SubmissionPublisher$BufferedSubscription",
        "util/concurrent/atomic/Striped64$Cell",
    )
)
#: The classes of OpenJDK of which any heap has objects that are longer if fields begin after those of superclasses.
WITH_FIELDS_APART = frozenset(
    ("java/lang/reflect/Constructor", "java/security/Permissions", "sun/util/locale/LocaleObjectCache$CacheEntry")
)
#: Of the objects of these classes some are always in a sample.
LOOKED_FOR = WITH_ADDED_FIELDS | WITH_ROOM | WITH_FIELDS_APART
#: The parts of the file, or ranges of addresses, that are read at most for the sake of special objects; how many class
#: objects are such; how many objects of a class with added fields are enough; and how many bytes at both ends of the
#: heap are searched for objects of such a class.
MOST_SPECIAL, SOME_CLASSES, ENOUGH, SEARCHED = 32, 8, 3, 16 << 20
#: The bytes of an object besides its values, about.
HEADER = 16
#: What a class object has as the code of its elements' type.
CLASS_OBJECT = -1
#: What is known of an object but its identifier.
WITHOUT_ID = itemgetter(1, 2, 3)


class Neighbour(NamedTuple):
    """An object of a sample: the identifier of its class, the code of its elements' type, its length, and how far it is
    to the next object."""

    class_id: int
    kind: int
    length: int
    gap: int


class Sample(NamedTuple):
    """Objects with the distance to the next, and how many are alike; and a number in which each bit is set that any of
    their identifiers has. `is_ascending`: identifiers ascend in the file, so that nothing is omitted between objects
    but class objects that were not loaded."""

    neighbours: Counts[Neighbour]
    bits: int
    is_ascending: bool


def sample_of(dump: HeapDump, is_rough: bool = False) -> Sample:
    """Takes a sample of the objects of `dump`, the class objects between them included. `is_rough`: fewer, and none are
    looked for of which there are few."""
    spans, count = short_spans(dump), SAMPLED // ROUGH if is_rough else SAMPLED
    stretches = _stretches(dump, spans, count)
    classes = sorted(dump.classes)
    if _ascending(stretches) >= ASCENDING:
        stretches += [] if is_rough else _with_their_next(dump, spans, _special(dump, stretches))
        return _sample([_with_classes(each, classes) for each in stretches], True)
    special = [] if is_rough else [each >> RANGE_BITS for each in _special(dump, [])]
    ranges = _ranges(dump, stretches, count).union([*dict.fromkeys(special)][:MOST_SPECIAL])
    parts = shared(lambda some: _within(dump, some, ranges), spans, FEWEST_SPANS)
    between = [_class_object(each) for each in classes if each >> RANGE_BITS in ranges]
    return _sample([sorted(chain(between, *parts))], False)


def _stretches(dump: HeapDump, spans: Sequence[Span], wanted: int) -> List[List[HeapObject]]:
    """Returns the first objects of some parts of the file, about `wanted`, in the order of the file: of more parts if
    these have few objects, since large arrays fill them. What goes on from one part to the next is one stretch."""
    found: Dict[int, List[HeapObject]] = {}
    whole: Set[int] = set()
    for some in _parts(len(spans), wanted):
        found.update({each: list(islice(heap_objects(dump, [spans[each]]), count)) for each, count in some.items()})
        whole.update(number for number, count in some.items() if len(found[number]) < count)
        if sum(map(len, found.values())) >= ENOUGH_SAMPLED * wanted:
            break
    stretches: List[List[HeapObject]] = []
    for number in sorted(found):
        if number - 1 in whole:
            stretches[-1] += found[number]
        else:
            stretches.append(found[number])
    return stretches


def _parts(count: int, wanted: int) -> Iterator[Dict[int, int]]:
    """Yields which of `count` parts of the file are read first, and how many objects of each, `wanted` together; then
    which others may be read, a few at a time."""
    numbers = sorted({number * (count - 1) // (PARTS - 1) for number in range(PARTS)})
    ends = {numbers[0], numbers[-1]}
    share = wanted // (len(numbers) + 4 * len(ends))
    yield {number: 5 * share if number in ends else share for number in numbers}
    others = sorted(set(range(count)).difference(numbers))
    times = -(-len(others) // PARTS)
    for first in range(times):
        yield {number: share for number in others[first::times]}


def _ascending(stretches: Iterable[List[HeapObject]]) -> float:
    """Returns the share of objects after which one with a larger identifier comes, but not with a far larger one."""
    total = near = 0
    for stretch in stretches:
        gaps = _gaps_in(stretch)
        total += len(gaps)
        near += sum(0 < gap <= LONGEST for gap in gaps)
        near += sum(gap > LONGEST and _is_near(*one[2:], gap) for one, gap in zip(stretch, gaps))
    return near / max(1, total)


def _gaps_in(stretch: List[HeapObject]) -> List[int]:
    """Returns how far it is from each object of a stretch but the last to the one after it."""
    identifiers = [each[0] for each in stretch]
    return list(map(sub, islice(identifiers, 1, None), identifiers))


def _class_object(class_id: int) -> HeapObject:
    """Returns a class object as an object of a sample."""
    return class_id, class_id, CLASS_OBJECT, 0


def _with_classes(stretch: List[HeapObject], classes: List[int]) -> List[HeapObject]:
    """Returns the objects of a stretch, and those class objects of the sorted list `classes` that are between two of
    them, each where it is. What follows at a lower address is not the neighbour of what is before it."""
    identifiers = [each[0] for each in stretch]
    if all(map(lt, identifiers, islice(identifiers, 1, None))):
        return sorted(chain(stretch, _between(classes, stretch[:1], stretch[-1:])))
    found: List[HeapObject] = []
    for one, after in zip(stretch, islice(stretch, 1, None)):
        found += [one, *_between(classes, [one], [after])]
    return found + stretch[-1:]


def _between(classes: List[int], first: List[HeapObject], last: List[HeapObject]) -> Iterator[HeapObject]:
    """Returns those class objects of the sorted list `classes` that are between two objects, if there are these and the
    first is before the last."""
    begins = (bisect_right(classes, one[0]) for one in first)
    ends = (bisect_left(classes, one[0]) for one in last)
    return chain.from_iterable(map(_class_object, classes[begin:end]) for begin, end in zip(begins, ends))


def _special(dump: HeapDump, stretches: Iterable[List[HeapObject]]) -> List[int]:
    """Returns the identifiers of objects of which there are few, which a sample may lack: of class loaders, objects of
    the other classes that are looked for if `stretches` do not have enough, some class objects, and threads."""
    classes, met = sorted(dump.classes), Counter(each[1] for stretch in stretches for each in stretch)
    found = [*{each.loader for each in dump.classes.values() if each.loader}]
    few = [each for each, name in dump.names.items() if name in LOOKED_FOR and met[each] < ENOUGH]
    found += some_instances(dump, few, SEARCHED)
    found += [classes[number * len(classes) // SOME_CLASSES] for number in range(SOME_CLASSES) if classes]
    return found + [dump.id(root.place) for root in dump.roots if root.kind == hprof.THREAD_OBJECT]


def _with_their_next(dump: HeapDump, spans: Sequence[Span], wanted: Sequence[int]) -> List[List[HeapObject]]:
    """Returns pairs of objects of which the first is one of `wanted`, or has a class object of `wanted` after it.
    Identifiers ascend in the file."""
    found: List[List[HeapObject]] = []
    for number, some in list(SpanOrder(dump, spans).around(wanted).items())[:MOST_SPECIAL]:
        found += _around(dump, spans[number], sorted(some))
    return found


def _around(dump: HeapDump, span: Span, wanted: List[int]) -> List[List[HeapObject]]:
    """Returns those neighbours in a part of the file between which one of the sorted identifiers `wanted` is."""
    found: List[List[HeapObject]] = []
    left = len(wanted)
    here, after = tee(heap_objects(dump, [span]))
    next(after, None)
    for one, following in zip(here, after):
        between = bisect_left(wanted, following[0]) - bisect_left(wanted, one[0])
        if between > 0:
            found.append([one, following])
            left -= between
            if left <= 0:
                break
    return found


def _ranges(dump: HeapDump, stretches: Iterable[List[HeapObject]], wanted: int) -> Set[int]:
    """Returns ranges of addresses, each as an address without its last bits, that have about `wanted` objects: of those
    of the objects in `stretches` all, or some from the lowest to the highest."""
    met = sorted(each for stretch in stretches for each in stretch)
    if not met:
        return set()
    values = sum(length * dump.value_sizes[kind] if kind else length for _, _, kind, length in met)
    count = max(1, wanted * (values // len(met) + HEADER) >> RANGE_BITS)
    even = {each[0] >> RANGE_BITS for each in met}
    if len(even) > count:
        even = {met[number * len(met) // count][0] >> RANGE_BITS for number in range(count)}
    return even


def _within(dump: HeapDump, spans: List[Span], ranges: Set[int]) -> List[HeapObject]:
    """Returns the objects in `spans` whose addresses are in these ranges."""
    return [each for each in heap_objects(dump, spans) if each[0] >> RANGE_BITS in ranges]


def _sample(stretches: Sequence[List[HeapObject]], is_ascending: bool) -> Sample:
    """Returns what is known of the objects in some stretches, in each of which no other object is between two. What the
    last one of a stretch has for its neighbour is not known. Two stretches may have an object in common."""
    found: Counts[Tuple[Tuple[int, int, int], int]] = Counter()
    known: Set[int] = set()
    for stretch in stretches:
        identifiers = [each[0] for each in stretch[:-1]]
        alike: Iterable[Tuple[Tuple[int, int, int], int]] = zip(map(WITHOUT_ID, stretch), _gaps_in(stretch))
        if not known.isdisjoint(identifiers):
            alike = [each for identifier, each in zip(identifiers, alike) if identifier not in known]
        found.update(alike)
        known.update(identifiers)
    every = ((Neighbour(*shape, gap), count) for (shape, gap), count in found.items())
    near = Counter({each: count for each, count in every if each.gap > 0 and _is_near(*each[1:])})
    return Sample(near, reduce(or_, known, 0), is_ascending)


def _is_near(kind: int, length: int, gap: int) -> bool:
    """Tests whether an object that is `gap` bytes before the next may be its neighbour. A large array is as long as its
    elements."""
    return gap <= LONGEST + (length * LONGEST_VALUE if kind > 0 else 0)
