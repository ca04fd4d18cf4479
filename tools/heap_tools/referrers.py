"""What refers to objects of a heap dump: that of many is found at once, and each further search goes up by one
reference from all of them."""

import collections
import struct
from array import array
from bisect import bisect_right
from itertools import accumulate, chain, compress, repeat
from typing import AbstractSet, Callable, Collection, Counter, Dict, Iterable, Iterator, List, NamedTuple
from typing import Sequence, Set, Tuple
from weakref import WeakKeyDictionary

from heap_tools import hprof_format as hprof
from heap_tools.heap_dump import HeapDump
from heap_tools.heap_objects import HeapObjects, PlacedField
from heap_tools.object_places import SomeOfClass, shared_by_class

#: The largest number of objects of one class that name what all of them refer to by one field: what more refer to is
#: shared, and they say nothing of it. Twelve topics may have one queue; a thousand messages have one sender.
MOST_OWNERS = 12
#: From how many objects a search goes up at most that nobody has asked for yet: as many take no longer than one, but
#: what refers to all of them has to fit into memory.
MOST_AHEAD = 20_000
#: What those have in common that refer to an object from one class, by one field: the tag of their records, the name of
#: the class, and that of the field.
ReferrerKind = Tuple[int, str, str]


class Referrer(NamedTuple):
    """What refers to an object: where it is, the identifier of the object, and the name of the field, empty for an
    element of an array. A class refers by its static fields."""

    place: int
    target: int
    field: str


class References:
    """References of the objects at `places`: `targets` are the identifiers in each, `names` those of their fields, one
    object's after the other's, and repeat themselves if all have the same."""

    def __init__(self, places: Iterable[int], targets: Iterable[Collection[int]], names: Sequence[str]) -> None:
        rows = list(targets)
        self.places, self.names = array("Q", places), names
        #: How many references the objects up to each have, and the identifiers of all.
        self.ends, self.targets = array("I", accumulate(map(len, rows))), array("Q", chain.from_iterable(rows))

    def to(self, wanted: AbstractSet[int]) -> Iterator[Referrer]:
        """Yields the references to some of `wanted`: an array refers once to each."""
        numbers = compress(range(len(self.targets)), map(wanted.__contains__, self.targets))
        found = ((bisect_right(self.ends, each), self.targets[each], each % len(self.names)) for each in numbers)
        yield from (Referrer(self.places[at], target, self.names[name]) for at, target, name in dict.fromkeys(found))


#: The references of those dumps that are still read: eight bytes for each, and twelve for each object that has some. A
#: search for what refers to others then takes a small part of the time that it takes to read them.
EVERY_REFERENCE: "WeakKeyDictionary[HeapDump, List[References]]" = WeakKeyDictionary()


class Referrers:
    """What refers to objects in the dump of `objects`. Of many objects of one class that refer to another one by one
    field, `MOST_OWNERS` + 1 are known: so it is seen that they are more."""

    def __init__(self, objects: HeapObjects) -> None:
        self.objects, self.dump = objects, objects.dump
        #: How often all references of the dump were read.
        self.searches = 0
        self._known: Dict[int, List[Referrer]] = {}
        self._ahead: Set[int] = set()

    def of(self, identifier: int) -> Sequence[Referrer]:
        """Returns what refers to an object that was looked up, in the order of the file."""
        return self._known.get(identifier, ())

    def is_known(self, identifier: int) -> bool:
        """Tests whether an object was looked up."""
        return identifier in self._known

    def look_up(self, identifiers: Iterable[int]) -> None:
        """Finds what refers to these objects. One search finds it also of all that refers to objects found before: if
        these are to be looked up next, that takes none."""
        missing = {each for each in identifiers if each} - self._known.keys()
        if not missing:
            return
        wanted = missing | self._ahead
        self._known.update((each, []) for each in wanted)
        found = sorted(self._found(wanted))
        for each in found:
            self._known[each.target].append(each)
        self._ahead = {self.dump.id(each.place + 1) for each in found[:MOST_AHEAD]} - self._known.keys()

    def kind_of(self, each: Referrer) -> ReferrerKind:
        """Returns what those have in common that refer to an object from one class, by one field."""
        return self.dump.bytes[each.place], self.objects.class_name(each.place), each.field

    def _found(self, wanted: AbstractSet[int]) -> List[Referrer]:
        """Returns what refers to `wanted`: of many from one class by one field the first."""
        self.searches += 1
        if self.dump not in EVERY_REFERENCE:
            classes = {0, *(each for each in self.dump.classes if self._fields(each))}

            def read_in(parts: List[SomeOfClass]) -> List[References]:
                return [each for class_id, places in parts for each in self._read(class_id, places)]

            EVERY_REFERENCE[self.dump] = list(shared_by_class(self.dump, classes, read_in))
        return self._few(each for some in EVERY_REFERENCE[self.dump] for each in some.to(wanted))

    def _few(self, referrers: Iterable[Referrer]) -> List[Referrer]:
        """Returns the first of those that refer to one object from one class by one field."""
        found: List[Referrer] = []
        count: Counter[Tuple[int, ReferrerKind]] = collections.Counter()
        for each in referrers:
            key = each.target, self.kind_of(each)
            count[key] += 1
            if count[key] <= MOST_OWNERS + 1:
                found.append(each)
        return found

    def _read(self, class_id: int, places: "array[int]") -> Iterator[References]:
        """Yields the references of some instances of a class, or with 0 those of arrays and of class dumps."""
        dump, fields = self.dump, self._fields(class_id)
        if class_id:
            ends = [0, *(at + dump.id_size for _, at, _ in fields)]
            number, skipped = "Q" if dump.id_size == 8 else "I", (at - end for (_, at, _), end in zip(fields, ends))
            read = struct.Struct(">" + "".join(f"{count}x{number}" for count in skipped)).unpack_from
            yield References(places, map(read, repeat(dump.bytes), places), [it.name for _, _, it in fields])
            return
        arrays = [at for at in places if dump.bytes[at] == hprof.OBJECT_ARRAY]
        yield References(arrays, map(self.objects.elements_of, arrays), [""])
        classes = [at for at in places if dump.bytes[at] == hprof.CLASS_DUMP]
        every = [dump.classes[dump.id(at + 1)].fields for at in classes]
        statics = [[it for it in of_class if it.is_static and it.kind == hprof.OBJECT] for of_class in every]
        ids = [[dump.id(it.place + 1) for it in of_class] for of_class in statics]
        yield References(classes, ids, [it.name for of_class in statics for it in of_class])

    def _fields(self, class_id: int) -> List[PlacedField]:
        """Returns the fields of the instances of a class that are references."""
        return [each for each in self.objects.fields_of(class_id) if each[2].kind == hprof.OBJECT]
