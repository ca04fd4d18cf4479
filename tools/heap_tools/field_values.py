"""Which instances of a heap dump have a value in a field."""

from array import array
from collections import defaultdict
from heapq import merge
from itertools import repeat
from typing import DefaultDict, Dict, Iterable, Iterator, List, Set, Tuple

from heap_tools import hprof_format as hprof
from heap_tools.heap_objects import FieldValue, HeapObjects
from heap_tools.object_places import places_by_class

#: From how many different identifiers in a field on no more are looked for: all that is asked is whether it is one.
SEVERAL = 2


class FieldValues:
    """What instances have in a field: at most `most` values that are not null, and at most `most_null` instances in
    which it is null. `targets` are some of the identifiers in the field, 0 for null: several if there are several."""

    def __init__(self, most: int, most_null: int) -> None:
        self.most, self.most_null = most, most_null
        self.nulls: List[int] = []
        self.targets: Set[int] = set()
        # Of each value where the instance is, and then where the value is. Tuples would take five times the memory, and
        # most of the time of a walk on their way from one process to another.
        self._places = array("Q")

    @property
    def count(self) -> int:
        """How many values there are."""
        return len(self._places) // 2

    @property
    def values(self) -> List[FieldValue]:
        """The values, in the order of the file."""
        return list(map(FieldValue, self._places[::2], self._places[1::2]))

    def add(self, instance: int, value: int, target: int) -> bool:
        """Adds the value of an instance: where both are, and the identifier that it is. Returns whether more values
        would change nothing."""
        if len(self.targets) < SEVERAL:
            self.targets.add(target)
        if not target and len(self.nulls) < self.most_null:
            self.nulls.append(instance)
        if target and len(self._places) < 2 * self.most:
            self._places.append(instance)
            self._places.append(value)
        return len(self._places) >= 2 * self.most and len(self.targets) >= SEVERAL


def values_by_field(objects: HeapObjects, fields: Iterable[str], most: int, most_null: int) -> Dict[str, FieldValues]:
    """Returns what instances have in each of `fields`, names such as `java/util/HashMap.table`: at most `most` values,
    and at most `most_null` instances in which it is null. Of a field that has more values, instances in which it is
    null may be missing."""
    dump, placed = objects.dump, places_by_class(objects.dump)
    every = {name: FieldValues(most, most_null) for name in fields}
    uses: DefaultDict[str, List[Iterator[Tuple[int, int]]]] = defaultdict(list)
    for class_id, of_class in objects.places_in_instances(every, hprof.OBJECT).items():
        for name, place in of_class:
            uses[name].append(zip(placed.get(class_id, ()), repeat(place)))
    for name, of_field in uses.items():
        for at, place in merge(*of_field):
            if every[name].add(at, at + place, dump.id(at + place)):
                break
    return every
