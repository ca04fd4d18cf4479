"""What a thread asked for that ran out of memory, if little of the heap is in use."""

from typing import NamedTuple, Optional

from heap_tools import hprof_format as hprof
from heap_tools.heap_dump import HeapDump
from heap_tools.heap_objects import HeapObjects
from heap_tools.humanize import size
from heap_tools.thread_stacks import ThreadPlace

#: Up to which part of the heap in use, in percent, it is said what was asked for. The other half had no room for it, so
#: it is one array, since no other object is so large, or no memory of the heap.
LITTLE_IN_USE = 50
#: The part of what is reachable, in percent, that a local variable has at least which is said. Containers that grow
#: copy their array into one that is half as large again, or twice as large: a small one does not show what was asked.
LARGE_ARRAY = 10
#: What the JDK's methods that make classes are called first, such as `defineClass1`, and whose methods copy arrays.
DEFINES, COPIES = "define", "java/util/Arrays."
#: What is outside the heap, and may have run out, too.
METADATA = "for class metadata, which is outside the heap"


class LocalArray(NamedTuple):
    """An array that is a local variable: its class, its number of elements, and the bytes of these in the dump."""

    class_name: str
    length: int
    bytes: int

    def __str__(self) -> str:
        return f"{self.class_name} with {self.length:,} elements ({size(self.bytes)})"


def asked_words(dump: HeapDump, place: ThreadPlace, reachable: int, capacity: Optional[int]) -> str:
    """Returns in words what a thread asked for that ran out of memory, as far as its calls say it. Returns an empty
    text if more than `LITTLE_IN_USE` percent of the heap are in use, or if that is not known: `reachable` bytes of
    `capacity`."""
    if not capacity or 100 * reachable > LITTLE_IN_USE * capacity or not place.methods:
        return ""
    method = place.methods[0]
    used = 100 * reachable // capacity
    asked = f"{f'only {used}' if used else 'less than 1'}% of the heap is in use: {method} asked"
    if method.rpartition(".")[2].startswith(DEFINES):
        return f"{asked} {METADATA}"
    found = largest_array(dump, place)
    if found and 100 * found.bytes >= LARGE_ARRAY * reachable:
        return f"{asked} for one array that is too large; a local variable there is {found}"
    return f"{asked} for one array that is too large" + f", or {METADATA}" * (not method.startswith(COPIES))


def largest_array(dump: HeapDump, place: ThreadPlace) -> Optional[LocalArray]:
    """Returns the largest array among the local variables of a thread's calls, from the innermost to the first own one,
    None if there is none. Walks over all objects."""
    # The frame of the error is the first of the stack, and not among the methods.
    roots = (root for root in dump.roots if root.thread == place.thread and root.frame is not None)
    objects = HeapObjects(dump)
    places = objects.places_of(dump.id(root.place) for root in roots if (root.frame or 0) <= 1 + place.before_own)
    arrays = [at for at in places.values() if dump.bytes[at] in (hprof.OBJECT_ARRAY, hprof.PRIMITIVE_ARRAY)]
    return max((_array(objects, at) for at in arrays), key=lambda each: each.bytes) if arrays else None


def _array(objects: HeapObjects, at: int) -> LocalArray:
    """Returns the array at `at`."""
    dump, length = objects.dump, objects.length_of(at)
    kind = dump.bytes[at + 9 + dump.id_size] if dump.bytes[at] == hprof.PRIMITIVE_ARRAY else hprof.OBJECT
    return LocalArray(objects.class_name(at), length, length * dump.value_sizes[kind])
