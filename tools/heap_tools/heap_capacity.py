"""How much memory the heap of a program may have, as far as the dump says."""

from typing import Optional

from heap_tools import hprof_format as hprof
from heap_tools.heap_dump import HeapDump
from heap_tools.heap_objects import HeapObjects
from heap_tools.map_entries import MapEntries
from heap_tools.program_facts import first_nodes, static_value

#: The class of the JDK that keeps how much memory direct buffers may have in all: as much as the heap, unless the
#: option -XX:MaxDirectMemorySize says otherwise, which is then among the properties that the same class keeps.
MEMORY_CLASS, MOST_DIRECT, SAVED = "jdk/internal/misc/VM", "directMemory", "savedProps"
OPTION = "sun.nio.MaxDirectMemorySize"


def heap_capacity(dump: HeapDump) -> Optional[int]:
    """Returns the most bytes that the heap may have, which is what the program gets as Runtime.maxMemory(), or None if
    the dump does not say it. Walks over all objects some ten times."""
    found = static_value(dump, MEMORY_CLASS, MOST_DIRECT, hprof.LONG)
    return None if not found or _has_option(HeapObjects(dump)) else found


def _has_option(objects: HeapObjects) -> bool:
    """Tests whether the option is among the properties, or these cannot be read."""
    at = objects.places_of([static_value(objects.dump, MEMORY_CLASS, SAVED)])
    tables = [objects.reference(each, "java/util/HashMap", "table") for each in at.values()]
    keys = {key for table in tables for key, _ in MapEntries(objects, first_nodes(objects, table)).pairs()}
    return not keys or OPTION in objects.texts(keys).values()
