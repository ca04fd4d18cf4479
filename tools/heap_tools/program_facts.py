"""What a dump says of the program that it is of: how it was started, its process, and its virtual machine."""

from typing import Dict, List, NamedTuple, Optional, Set

from heap_tools import hprof_format as hprof
from heap_tools.class_names import printable
from heap_tools.heap_dump import HeapDump
from heap_tools.heap_objects import HeapObjects
from heap_tools.map_entries import MapEntries

#: The static fields that hold a program's properties and its process, and the name of the thread that starts it.
PROPERTIES, PROCESS, MAIN = ("java/lang/System", "props"), ("java/lang/ProcessHandleImpl", "current"), "main"
#: The fields on the way from the properties to the table of their nodes: since JDK 9, and before.
WAYS = [
    [("java/util/Properties", "map"), ("java/util/concurrent/ConcurrentHashMap", "table")],
    [("java/util/Hashtable", "table")],
]
COMMAND, MACHINE, JAVA_VERSION = "sun.java.command", "java.vm.name", "java.version"


class ProgramFacts(NamedTuple):
    """The main class of a program or the file it was started from, the number of its process, and the name and version
    of its virtual machine, each None if the dump does not say it."""

    name: Optional[str] = None
    process: Optional[int] = None
    machine: Optional[str] = None


def facts_of(dump: HeapDump, shows_values: bool = True) -> ProgramFacts:
    """Returns what a dump says of its program. Of the command line only the first word is taken: others may be
    passwords. Without `shows_values` only the name of a class of the dump is taken: all else is a value in the dump.
    Walks over all objects some ten times."""
    objects = HeapObjects(dump)
    known = properties(objects, {COMMAND, MACHINE, JAVA_VERSION})
    command, machine, version = (printable(known.get(key, "")) for key in (COMMAND, MACHINE, JAVA_VERSION))
    name = command.split(" ")[0]
    if not shows_values:
        return ProgramFacts(name if name.replace(".", "/") in dump.names.values() else main_class(objects))
    if name.endswith(".jar"):
        name = name.rpartition("/")[2]
    shown = ", ".join(filter(None, [machine, version and f"Java {version}"]))
    return ProgramFacts(name or main_class(objects), process_of(objects), shown or None)


def main_class(objects: HeapObjects) -> Optional[str]:
    """Returns the class of the outermost method of the main thread, or None if that has ended."""
    for thread, name in objects.thread_names().items():
        stack = objects.dump.stack(thread) if name == MAIN else []
        if stack:
            return stack[-1].class_name.replace("/", ".")
    return None


def process_of(objects: HeapObjects) -> Optional[int]:
    """Returns the number of the process, or None if the program has not asked for it."""
    handle = static_value(objects.dump, *PROCESS)
    at = objects.places_of([handle]).get(handle)
    place = None if at is None else objects.place_of_value(at, PROCESS[0], "pid", hprof.LONG)
    return None if place is None else objects.dump.number(place, 8)


def static_value(dump: HeapDump, class_name: str, field: str, kind: int = hprof.OBJECT) -> int:
    """Returns the identifier or the number in a static field, 0 if no class of the dump has such a field. `kind` is the
    code of its type."""
    for class_id, name in dump.names.items():
        for each in dump.classes[class_id].fields if name == class_name else []:
            if each.is_static and (each.name, each.kind) == (field, kind):
                return dump.number(each.place + 1, dump.value_sizes[kind])
    return 0


def properties(objects: HeapObjects, wanted: Set[str]) -> Dict[str, str]:
    """Returns those properties of the program whose names are `wanted`."""
    pairs = MapEntries(objects, property_nodes(objects)).pairs()
    texts = objects.texts(each for pair in pairs for each in pair)
    return {texts[key]: texts[value] for key, value in pairs if texts.get(key) in wanted and value in texts}


def property_nodes(objects: HeapObjects) -> List[int]:
    """Returns where the first nodes of the program's properties are, none if the dump has none."""
    root = static_value(objects.dump, *PROPERTIES)
    for way in WAYS:
        identifier = root
        for class_name, field in way:
            at = objects.places_of([identifier]).get(identifier)
            identifier = 0 if at is None else objects.reference(at, class_name, field)
        if identifier:
            return first_nodes(objects, identifier)
    return []


def first_nodes(objects: HeapObjects, table: int) -> List[int]:
    """Returns where the objects are that the array with this identifier refers to, none if it is no such array."""
    arrays = [at for at in objects.places_of([table]).values() if objects.dump.bytes[at] == hprof.OBJECT_ARRAY]
    return [*objects.places_of(each for at in arrays for each in objects.elements_of(at)).values()]
