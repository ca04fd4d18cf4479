"""The entries of a map that keeps them in an array of chains: what it has under its keys."""

from typing import Dict, Iterator, List, Sequence, Tuple

from heap_tools import hprof_format as hprof
from heap_tools.heap_objects import FieldValue, HeapObjects
from heap_tools.part_names import MAP_NODES, NODE_CLASSES

#: The classes of entries, and their fields of values and of keys.
VALUES = [(owner, field) for name, _, _ in MAP_NODES for owner, _, field in [name.rpartition(".")]]
KEYS = [(node, "key") for node in NODE_CLASSES]
#: What a concurrent map has in its array for a chain that became a tree: it leads to the first entry.
TREE = "java/util/concurrent/ConcurrentHashMap$TreeBin"
#: The fields that lead from an entry to the next one of its chain.
NEXT = [*((owner, "next") for owner, _ in VALUES), (TREE, "first")]
#: The longest chain that is followed, in entries: each takes a walk over all objects. Of usual ones few have more.
LONGEST_CHAIN = 12


class MapEntries:
    """Reads entries of maps in the dump of `objects`. `first` are the first entries of the chains of a map."""

    def __init__(self, objects: HeapObjects, first: Sequence[int]) -> None:
        self.objects, self.first = objects, first

    @property
    def are_entries(self) -> bool:
        """Tests whether the objects are entries of a map of the JDK, or of one that inherits from it."""
        return any(self._places(self.first[:1], KEYS))

    def elements(self) -> List[FieldValue]:
        """Returns what the map has under its keys: where it is, and where the reference to it is. If most values are
        the same few objects, as in a set, these are the keys. Returns nothing if a chain is longer than
        `LONGEST_CHAIN`. Walks over all objects for each entry of the longest chain."""
        (entries, left), id_at = self._followed(), self.objects.dump.id
        if left:
            return []
        of_values = self._references(entries, VALUES)
        are_shared = 2 * len({id_at(place) for _, place in of_values}) < len(entries)
        found = [(*each, id_at(each[1])) for each in (self._references(entries, KEYS) if are_shared else of_values)]
        known = self.objects.places_of(key for _, _, key in found)
        return [FieldValue(known[key], place, entry) for entry, place, key in found if key in known]

    def pairs(self) -> List[Tuple[int, int]]:
        """Returns the identifiers of keys and values of the entries, of a longer chain only those of its first ones."""
        entries, id_at = self._followed()[0], self.objects.dump.id
        keys, values = dict(self._places(entries, KEYS)), dict(self._places(entries, VALUES))
        return [(id_at(keys[at]), id_at(values[at])) for at in entries if at in keys and at in values]

    def _followed(self) -> Tuple[List[int], List[int]]:
        """Returns the entries of all chains, at most the first `LONGEST_CHAIN` of each and one, and those that come
        last in longer chains."""
        entries, last, id_at = list(self.first), list(self.first), self.objects.dump.id
        for _ in range(LONGEST_CHAIN):
            last = list(self.objects.places_of(id_at(place) for _, place in self._places(last, NEXT)).values())
            entries += last
        return entries, last

    def _references(self, entries: Sequence[int], fields: Sequence[Tuple[str, str]]) -> List[Tuple[int, int]]:
        """Returns entries and where their references in these fields are, by class and name, which are not null."""
        return [each for each in self._places(entries, fields) if self.objects.dump.id(each[1])]

    def _places(self, entries: Sequence[int], fields: Sequence[Tuple[str, str]]) -> Iterator[Tuple[int, int]]:
        """Yields entries and where they have these fields."""
        known: Dict[int, List[int]] = {}
        for at in entries:
            class_id = self.objects.class_of(at)
            if class_id not in known:
                every = (self.objects.place_of_value(at, owner, name, hprof.OBJECT) for owner, name in fields)
                known[class_id] = [place - at for place in every if place is not None]
            yield from ((at, at + each) for each in known[class_id])
