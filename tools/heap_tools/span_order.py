"""Which parts of a heap dump have the objects near an identifier, if identifiers ascend in the file.

Virtual machines write the objects of each space of a heap in the order of their addresses, but for ZGC and Shenandoah.
So an object mostly is in the part whose first object is the nearest before it.
"""

from bisect import bisect_right
from itertools import islice
from typing import Dict, Iterable, List, Sequence
from weakref import WeakKeyDictionary

from heap_tools.heap_dump import HeapDump, Span
from heap_tools.object_records import heap_objects

#: The least share of objects after which a larger identifier comes, for a file to be one in which they ascend.
ASCENDING = 0.8


class SpanOrder:
    """The order in which the parts `spans` of the file of `dump` have identifiers: by the first object of each."""

    def __init__(self, dump: HeapDump, spans: Sequence[Span]) -> None:
        begins = [
            (each[0], number) for number, span in enumerate(spans) for each in islice(heap_objects(dump, [span]), 1)
        ]
        rising = sum(here < after for here, after in zip(begins, begins[1:]))
        self.is_ascending = rising >= ASCENDING * (len(begins) - 1)
        self._begins = sorted(begins)
        self._firsts = [identifier for identifier, _ in self._begins]

    def around(self, wanted: Iterable[int]) -> Dict[int, List[int]]:
        """Returns the numbers of the parts that have the objects before and after the identifiers `wanted`, and which
        of these are in each, if identifiers ascend in the file."""
        by_place: Dict[int, List[int]] = {}
        for each in wanted:
            by_place.setdefault(bisect_right(self._firsts, each), []).append(each)
        begins = self._begins
        chosen: Dict[int, List[int]] = {}
        for place, some in by_place.items():
            # Mostly one part; not where the addresses of a part go on from those of the last space to those of the
            # first.
            numbers = {begins[place - 1][1]} if place else set()
            numbers |= {max(0, begins[place][1] - 1)} if place < len(begins) else set()
            for number in numbers:
                chosen.setdefault(number, []).extend(some)
        return chosen


#: The orders of the segments of those dumps that are still read.
ORDERS: "WeakKeyDictionary[HeapDump, SpanOrder]" = WeakKeyDictionary()


def order_of_segments(dump: HeapDump) -> SpanOrder:
    """Returns the order in which the segments of `dump` have identifiers, which is found once for each dump."""
    known = ORDERS.get(dump)
    if known is None:
        known = ORDERS[dump] = SpanOrder(dump, dump.segments)
    return known
