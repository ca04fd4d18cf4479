"""Where the objects of a heap dump are: those of each class, found in one walk for all questions about fields, and
those of the segments in which some were looked up."""

from array import array
from itertools import chain, compress
from typing import AbstractSet, Callable, Container, Dict, Iterator, List, Sequence, Tuple
from weakref import WeakKeyDictionary

from heap_tools.heap_dump import HeapDump, Span
from heap_tools.object_records import PlacedPart, placed_objects, placed_part
from heap_tools.parallel import Result, shared

#: The fewest segments for which a process of its own pays. Those of a virtual machine have a million bytes each.
FEWEST_SEGMENTS = 16
#: How many objects a process reads at once, and for how many times as many a process of its own pays.
AT_ONCE, FEWEST_TIMES = 20_000, 8

#: Objects of one class, by that and their places.
SomeOfClass = Tuple[int, "array[int]"]
#: Where the objects of those dumps are that are still read. Four or eight bytes for each are a tenth of what the dump
#: takes, at most; a question about some fields then takes a small part of a walk.
PLACES: "WeakKeyDictionary[HeapDump, Dict[int, array[int]]]" = WeakKeyDictionary()
#: The objects in those segments of these dumps in which some were looked up: 16 bytes for each. What is looked up there
#: once more takes a small part of a walk, too.
PLACED_PARTS: "WeakKeyDictionary[HeapDump, Dict[Span, PlacedPart]]" = WeakKeyDictionary()


def places_by_class(dump: HeapDump) -> Dict[int, "array[int]"]:
    """Returns where the instances of each class are, in the order of the file; by 0, where arrays of references, but
    empty ones, and class dumps are. Walks over all objects, once for each dump."""
    known = PLACES.get(dump)
    if known is None:
        known = {}
        for part in shared(lambda segments: placed_objects(dump, segments), dump.segments, FEWEST_SEGMENTS):
            for class_id, places in part.items():
                known.setdefault(class_id, array(places.typecode)).extend(places)
        PLACES[dump] = known
    return known


def chosen_objects(dump: HeapDump, segments: Sequence[Span], wanted: AbstractSet[int]) -> Iterator[Tuple[int, int]]:
    """Yields those objects in some segments that have the identifiers `wanted`: these, and where they are. Walks over
    the objects of each segment once."""
    known = PLACED_PARTS.setdefault(dump, {})
    unknown = [each for each in segments if each not in known]
    parts = shared(lambda some: [placed_part(dump, each) for each in some], unknown, FEWEST_SEGMENTS)
    known.update(zip(unknown, chain.from_iterable(parts)))
    for identifiers, places in map(known.__getitem__, segments):
        for number in compress(range(len(places)), map(wanted.__contains__, identifiers)):
            yield identifiers[number], places[number]


def shared_by_class(
    dump: HeapDump, classes: Container[int], found_in: Callable[[List[SomeOfClass]], List[Result]]
) -> Iterator[Result]:
    """Yields what `found_in` finds in the instances of `classes`, and with 0 among them in arrays of references and
    class dumps. It gets some at once, in as many processes as pay."""
    parts = [
        (class_id, places[begin : begin + AT_ONCE])
        for class_id, places in places_by_class(dump).items()
        if class_id in classes
        for begin in range(0, len(places), AT_ONCE)
    ]
    for part in shared(found_in, parts, FEWEST_TIMES) if parts else ():
        yield from part
