"""The memory of direct buffers, which is outside the heap: a dump has their capacities."""

from typing import List, NamedTuple, Set

from heap_tools import hprof_format as hprof
from heap_tools.heap_dump import HeapDump
from heap_tools.heap_objects import HeapObjects
from heap_tools.humanize import counted

#: The class of direct buffers. Views of the other types have no memory of their own.
BUFFER = "java/nio/DirectByteBuffer"
#: The least share in percent of the growth that is said: what is less explains nothing of it, and each program's direct
#: memory changes by some bytes.
WORTH_SAYING = 5
#: The number of bytes of a buffer, and what a view was made of: slices and duplicates name the buffer with the memory.
CAPACITY, ATTACHMENT = "java/nio/Buffer.capacity", "att"
#: The field with a view of the file of the JDK's own classes, which the virtual machine maps: more than 100 MB that the
#: program did not ask for.
MAPPED_CLASSES = "jdk/internal/jimage/BasicImageReader.memoryMap"


class DirectMemory(NamedTuple):
    """How many direct buffers with memory of their own a dump has, and the bytes of that memory."""

    buffers: int = 0
    bytes: int = 0


def direct_memory(dump: HeapDump) -> DirectMemory:
    """Returns the direct memory of a dump, of unreachable buffers too. Walks over all objects if the dump has the class
    of direct buffers."""
    if BUFFER not in dump.names.values():
        return DirectMemory()
    objects, count, size = HeapObjects(dump), 0, 0
    mapped = _mapped_classes(objects)
    for instance, value, _ in objects.values_of([CAPACITY], kind=hprof.INT):
        if _attachments(objects, instance) == [0] and dump.id(instance + 1) not in mapped:
            count, size = count + 1, size + dump.number(value, 4)
    return DirectMemory(count, size)


def _attachments(objects: HeapObjects, instance: int) -> List[int]:
    """Returns the identifiers of what a buffer is a view of: 0 if it is a direct one with memory of its own, nothing if
    it is no direct one."""
    place = objects.place_of_value(instance, BUFFER, ATTACHMENT, hprof.OBJECT)
    return [] if place is None else [objects.dump.id(place)]


def _mapped_classes(objects: HeapObjects) -> Set[int]:
    """Returns the identifiers of the buffers by which the JDK reads its own classes."""
    views = {objects.dump.id(each.value) for each in objects.values_of([MAPPED_CLASSES])} - {0}
    places = objects.places_of(views).values() if views else []
    return views.union(*(_attachments(objects, place) for place in places))


def more_direct_memory(before: DirectMemory, after: DirectMemory) -> str:
    """Returns in words how the direct memory grew, empty if it did not."""
    if after.bytes <= before.bytes:
        return ""
    more = after.buffers - before.buffers
    buffers = f" ({counted(more, 'buffer')} more)" if more > 0 else ""
    return (
        f"direct buffers have {counted(after.bytes - before.bytes, 'byte')} more outside the heap{buffers}: "
        f"{before.bytes:,}, then {after.bytes:,}"
    )


def more_direct_words(first: HeapDump, last: HeapDump, growth: int) -> str:
    """Returns in words how the direct memory grew, empty if that explains nothing of the `growth` of the heap in bytes.
    Looks for the buffers of the first dump only if it would be worth saying that it had none."""
    after = direct_memory(last)
    before = direct_memory(first) if worth_saying(DirectMemory(), after, growth) else after
    return more_direct_memory(before, after) if worth_saying(before, after, growth) else ""


def worth_saying(before: DirectMemory, after: DirectMemory, growth: int) -> bool:
    """Tests whether direct memory grew by at least `WORTH_SAYING` percent of the `growth` of the heap in bytes, or if
    that did not grow, of what it was."""
    more = after.bytes - before.bytes
    return more > 0 and 100 * more >= WORTH_SAYING * (growth if growth > 0 else before.bytes)
