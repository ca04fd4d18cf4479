"""How many elements containers have: what piles up is in large ones."""

from typing import Dict, Iterable, Set

from heap_tools import hprof_format as hprof
from heap_tools.heap_objects import HeapObjects

#: The number that collections keep of their elements. Of others the length of their array counts.
SIZE = "size"


def container_sizes(objects: HeapObjects, containers: Set[int]) -> Dict[int, int]:
    """Returns how many elements each of the objects with these identifiers has. Walks over all objects twice."""
    places = objects.places_of(containers)
    parts = {key: objects.references_of(at).values() for key, at in places.items()}
    known = objects.places_of(key for keys in parts.values() for key in keys)
    return {key: _size(objects, at, [known[it] for it in parts[key] if it in known]) for key, at in places.items()}


def _size(objects: HeapObjects, at: int, parts: Iterable[int]) -> int:
    """Returns how many elements the object at `at` has: an array, or an object with these parts."""
    dump = objects.dump
    for _, place, field in objects.fields_of(objects.class_of(at)):
        if (field.name, field.kind) == (SIZE, hprof.INT):
            return dump.number(at + place, 4)
    arrays = (each for each in [at, *parts] if dump.bytes[each] == hprof.OBJECT_ARRAY)
    return max(map(objects.length_of, arrays), default=0)
