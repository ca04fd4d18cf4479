"""The objects of many by which a field holds what it holds: the instances that have it, or the elements of its list."""

from typing import Dict, Iterable, List, NamedTuple, Optional, Sequence, Set, Tuple

from heap_tools import hprof_format as hprof
from heap_tools.candidates import FIELD, Candidate
from heap_tools.field_values import FieldValues, values_by_field
from heap_tools.heap_objects import FieldValue, HeapObjects
from heap_tools.map_entries import MapEntries
from heap_tools.object_names import OTHERS
from heap_tools.object_shares import ObjectShares
from heap_tools.probe import Probe

#: Among how many objects it is asked at most which hold most: more of them would make each run read too many changes.
MOST_OBJECTS = 100_000


class Parts(NamedTuple):
    """Objects of a dump, each with the reference by which it holds something. `others` are some that have the field,
    but no value in it. `are_elements`: they are the elements of a list, and the references are those of the list to
    them. `numbers`: which elements these are; of a map nothing, since its entries move."""

    values: List[FieldValue]
    others: Sequence[int] = ()
    are_elements: bool = False
    numbers: Sequence[int] = ()


class FieldUses:
    """Knows which instances of a dump have a value in a field, of each field some more than may be looked into at most.
    The values in `fields` are read in one walk over all objects, when one of them is asked for; those in another field
    take a walk of their own. What the instances of a field hold by it is asked once of each probe."""

    def __init__(self, objects: HeapObjects, fields: Iterable[Candidate] = ()) -> None:
        self.objects = objects
        self._together = {each.name for each in fields}
        self._known: Dict[str, FieldValues] = {}
        self._shares: Dict[Tuple[Probe, str], ObjectShares] = {}

    def _values_of(self, field: Candidate) -> FieldValues:
        if field.name not in self._known:
            names = {field.name} | (self._together - self._known.keys())
            self._known.update(values_by_field(self.objects, names, MOST_OBJECTS + 1, OTHERS))
        return self._known[field.name]

    def count(self, field: Candidate) -> int:
        """Returns how many instances have a value in `field`: one more than may be looked into, if there are more."""
        return self._values_of(field).count

    def only_target(self, field: Candidate) -> int:
        """Returns the identifier of the object that all instances name by `field`, 0 if they name several or none."""
        targets = self._values_of(field).targets
        return next(iter(targets)) if len(targets) == 1 else 0

    def of(self, field: Candidate) -> Parts:
        """Returns the instances whose `field` is not null; none of a static field."""
        if field.kind != FIELD:
            return Parts([])
        found = self._values_of(field)
        return Parts(found.values, found.nulls)

    def shares(self, probe: Probe, field: Candidate) -> ObjectShares:
        """Returns what each instance holds by `field`, for which `probe` asks."""
        key = probe, field.name
        if key not in self._shares:
            self._shares[key] = ObjectShares(probe, self.of(field).values)
        return self._shares[key]


def elements(objects: HeapObjects, lists: Set[int], most: Optional[int] = None, unresolved: int = 0) -> Parts:
    """Returns the elements of the list, the map or the array that is named `lists`: of the largest, if there are
    several; of a map what it has under its keys. Returns none if there surely are more than `most`. `unresolved`: how
    many references of the dump name no object; all others do, and only class objects are no elements."""
    largest = max(_arrays(objects, lists), key=objects.length_of, default=None)
    if largest is None:
        return Parts([], are_elements=True)
    targets = objects.elements_of(largest)
    if most is not None and len(targets) - targets.count(0) - unresolved > most:
        if sum(each not in objects.dump.classes for each in targets if each) - unresolved > most:
            return Parts([], are_elements=True)
    places = objects.places_of(set(targets))
    found = [(places[each], number) for number, each in enumerate(targets) if each in places]
    values = [FieldValue(at, objects.element_at(largest, number), largest) for at, number in found]
    entries = MapEntries(objects, [each.instance for each in values])
    if entries.are_entries:
        return Parts(entries.elements() or values, are_elements=True)
    return Parts(values, are_elements=True, numbers=[number for _, number in found])


def _arrays(objects: HeapObjects, identifiers: Set[int]) -> List[int]:
    """Returns where the arrays of references among these objects are, and those in fields of the others: a list or a
    map of the JDK has its elements or entries in an array."""
    places = objects.places_of(identifiers).values()
    inner: Set[int] = set()
    for at in places:
        inner.update(objects.references_of(at).values())
    every = [*places, *objects.places_of(inner - identifiers).values()]
    return [at for at in every if objects.dump.bytes[at] == hprof.OBJECT_ARRAY]
