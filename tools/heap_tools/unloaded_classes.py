"""The class objects that a heap has and its dump lacks: those of classes in the JDK's archive that were never loaded.

The virtual machine refers to them in an array of its own, which the dump has. So a reference in such an array that
names no object of the dump is one of them, and takes as much as it is far to the next object.
"""

import struct
from array import array
from bisect import bisect_right
from collections import Counter
from itertools import chain
from typing import Iterator, List, Sequence, Set

from heap_tools import hprof_format as hprof
from heap_tools.heap_dump import HeapDump, Span
from heap_tools.heap_sample import FEWEST_SPANS
from heap_tools.object_records import heap_objects, short_spans
from heap_tools.parallel import shared
from heap_tools.reports import Amount
from heap_tools.span_order import SpanOrder

#: The class of the virtual machine's array.
ARRAY = "[Ljava/lang/Object;"
#: The bits of an address within a range, and how many ranges are searched: those with most of the class objects that
#: were loaded, since the archive has all in one place, and the ranges beside them.
NEAR_BITS, RANGES = 18, 32
#: What is farther from the next object has a hole after it: no class of the JDK has so many static fields.
LARGEST = 4096


def unloaded_classes(dump: HeapDump, is_ascending: bool, unresolved: int) -> Amount:
    """Returns how many class objects the dump refers to but lacks, and what they take in the heap. `is_ascending`: the
    identifiers of objects ascend in the file. `unresolved`: how many references name no object of the dump. Reads the
    whole dump, unless that is 0."""
    if not unresolved:
        return Amount()
    spans, ranges = short_spans(dump), _ranges(dump)
    parts = shared(lambda some: _referred(dump, some, ranges), spans, FEWEST_SPANS)
    referred = set(chain.from_iterable(parts))
    near = [spans[number] for number in SpanOrder(dump, spans).around(referred)] if is_ascending else spans
    found = _omitted(dump, near, referred)
    if found.objects > unresolved:
        found = _omitted(dump, spans, referred)
    return found if found.objects <= unresolved else Amount()


def _omitted(dump: HeapDump, spans: List[Span], referred: Set[int]) -> Amount:
    """Returns how many of the identifiers `referred` name no object, if the parts `spans` of the file have all objects
    near them, and what these take in the heap."""
    ranges = {(each >> NEAR_BITS) + more for each in referred for more in (0, 1)}
    known = set(chain.from_iterable(shared(lambda some: _within(dump, some, ranges), spans, FEWEST_SPANS)))
    known.update(dump.classes)
    omitted = sorted(referred - known)
    return Amount(len(omitted), _taken(omitted, sorted(known.union(omitted))))


def _ranges(dump: HeapDump) -> Set[int]:
    """Returns the ranges of addresses in which such objects may be."""
    counts = Counter(each >> NEAR_BITS for each in dump.classes)
    return {each + more for each, _ in counts.most_common(RANGES) for more in (-1, 0, 1)}


def _referred(dump: HeapDump, spans: List[Span], ranges: Set[int]) -> Set[int]:
    """Returns the identifiers in these ranges to which arrays refer that may be the virtual machine's. Class objects
    that were loaded are omitted."""
    found: Set[int] = set()
    for class_id, name in dump.names.items():
        if name == ARRAY:
            for span in spans:
                for elements in _elements(dump, span, class_id.to_bytes(dump.id_size, "big")):
                    found.update(each for each in elements if each >> NEAR_BITS in ranges)
    return found - dump.classes.keys()


def _elements(dump: HeapDump, span: Span, class_id: bytes) -> Iterator[Sequence[int]]:
    """Yields the elements of each array of references in a part of the file whose class has this identifier. Finds
    them by its bytes, which is faster than to read each record."""
    part, size, letter = dump.bytes[slice(*span)], dump.id_size, "Q" if dump.id_size == 8 else "I"
    at = part.find(class_id)
    while at >= 0:
        begin, elements = at - size - 9, at + size
        length = int.from_bytes(part[at - 4 : at], "big")
        if begin >= 0 and part[begin] == hprof.OBJECT_ARRAY and elements + length * size <= len(part):
            yield struct.unpack_from(f">{length}{letter}", part, elements)
        at = part.find(class_id, at + 1)


def _within(dump: HeapDump, spans: List[Span], ranges: Set[int]) -> "array[int]":
    """Returns the identifiers of the objects in `spans` whose addresses are in these ranges."""
    return array("Q", (each[0] for each in heap_objects(dump, spans) if each[0] >> NEAR_BITS in ranges))


def _taken(omitted: List[int], every: List[int]) -> int:
    """Returns what is between each of the objects `omitted` and the next one of the sorted list `every`. Those that
    have a hole after them take as much as the mean of the others."""
    following = (bisect_right(every, each) for each in omitted)
    gaps = [every[place] - each for place, each in zip(following, omitted) if place < len(every)]
    sizes = [gap for gap in gaps if gap <= LARGEST]
    return sum(sizes) * len(omitted) // max(1, len(sizes))
