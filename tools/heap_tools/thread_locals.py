"""What threads have by their thread-locals: entries and their values, and what names these.

An object that a thread has in this way is told apart from those of other threads by the thread. What a thread merely
refers to is not: most of that is shared.
"""

from typing import Callable, Dict, Iterable, Iterator, List, Mapping, Sequence, Set, Tuple

from heap_tools import hprof_format as hprof
from heap_tools.heap_objects import THREAD_CLASS, HeapObjects
from heap_tools.naming import Name, shown_text

#: The maps of thread-locals, and the fields by which a thread has its own two.
MAP = "java/lang/ThreadLocal$ThreadLocalMap"
MAPS_OF_THREAD = ("threadLocals", "inheritableThreadLocals")
#: The entries of such a map, and the field of the value. The thread-local itself is the referent.
ENTRY = f"{MAP}$Entry"
VALUE_OF_ENTRY = f"{ENTRY}.value"
#: How an object is named by the static field of its thread-local. Those of all threads have that name.
BY_THREAD_LOCAL = "the thread-local"
#: What stands between the thread-local of an object and the name of its thread.
OF_THREAD = "of thread"
#: In place of the serial number of a thread that is no root of the dump.
NO_THREAD = -1


def telling(names: Sequence[Name], alone: Sequence[Name]) -> List[Name]:
    """Returns those of an object's names that are in `alone`, which no other object has, and its thread-locals: without
    the thread if several threads of that name have them."""
    with_thread = {name.how for name in alone if name.is_of_thread}
    found = [name for name in names if name in alone or name.how == BY_THREAD_LOCAL]
    return [name for name in found if f"{name} {OF_THREAD}" not in with_thread]


class ThreadLocals:
    """Looks up what names entries and values of thread-locals in the dump of `objects`."""

    def __init__(self, objects: HeapObjects) -> None:
        self.objects, self.dump = objects, objects.dump

    def is_entry(self, at: int) -> bool:
        """Tests whether an entry of a map of thread-locals is at `at`."""
        return self.dump.names.get(self.objects.class_of(at)) == ENTRY

    def names(self, entries: Sequence[Tuple[int, int]]) -> Iterator[Tuple[int, Name]]:
        """Yields names of the objects in `entries`, entries and values of thread-locals, each with where the entry is:
        the static field of the thread-local, then the thread-local with the name of the thread. An object that several
        threads have is that of none."""
        statics = self._static_fields() if entries else {}
        threads = self._threads_of(entries) if entries else {}
        for at, entry in entries:
            field = statics.get(self.objects.reference(entry, "java/lang/ref/Reference", "referent"))
            local = Name(BY_THREAD_LOCAL, f"static {field}") if field else None
            if local:
                yield at, local
            if threads.get(at):
                yield at, Name(f"{local or 'a thread-local'} {OF_THREAD}", shown_text(threads[at]), is_of_thread=True)

    def by_static_field(self) -> Dict[int, Name]:
        """Returns the static fields of the thread-locals by which threads have objects, by the identifiers of these:
        entries and their values."""
        found: Dict[int, Name] = {}
        statics = self._static_fields()
        for key, entry in self.objects.places_of(self._threads_by_entry()).items():
            field = statics.get(self.objects.reference(entry, "java/lang/ref/Reference", "referent"))
            for each in (key, self.objects.reference(entry, ENTRY, "value")) if field else ():
                found.setdefault(each, Name(BY_THREAD_LOCAL, f"static {field}"))
        return found

    def _static_fields(self) -> Dict[int, str]:
        """Returns the names of static fields by the identifiers of the objects that they name."""
        found: Dict[int, str] = {}
        for class_id, each in self.dump.classes.items():
            for field in each.fields:
                if field.is_static and field.kind == hprof.OBJECT:
                    found.setdefault(self.dump.id(field.place + 1), f"{self.dump.names[class_id]}.{field.name}")
        found.pop(0, None)  # those that are null
        return found

    def _threads_of(self, entries: Sequence[Tuple[int, int]]) -> Dict[int, str]:
        """Returns the name of the thread that has each of the objects in `entries`, if it is one."""
        by_entry, names = self._threads_by_entry(), self.objects.thread_names()
        threads: Dict[int, Set[int]] = {}
        for at, entry in entries:
            threads.setdefault(at, set()).add(by_entry.get(self.dump.id(entry + 1), NO_THREAD))
        return {at: names.get(min(of_object), "") for at, of_object in threads.items() if len(of_object) == 1}

    def _threads_by_entry(self) -> Dict[int, int]:
        """Returns the serial number of the thread that has each entry, by the identifier of that. Goes down from the
        threads: a search for what leads to an entry would read all objects at each step. Virtual threads of JDK 21 are
        missing, since they are no roots there."""
        threads = {
            self.dump.id(each.place): each.thread for each in self.dump.roots if each.kind == hprof.THREAD_OBJECT
        }
        maps = self._below(
            threads, lambda at: [self.objects.reference(at, THREAD_CLASS, each) for each in MAPS_OF_THREAD]
        )
        tables = self._below(maps, lambda at: [self.objects.reference(at, MAP, "table")])
        return self._below(tables, self._elements)

    def _below(self, threads: Mapping[int, int], targets_of: Callable[[int], Iterable[int]]) -> Dict[int, int]:
        """Returns the threads of what the objects of `threads` lead to, by `targets_of` where each of these is."""
        places = self.objects.places_of(threads)
        return {target: threads[key] for key, at in places.items() for target in targets_of(at)}

    def _elements(self, at: int) -> Iterable[int]:
        return self.objects.elements_of(at) if self.dump.bytes[at] == hprof.OBJECT_ARRAY else ()
