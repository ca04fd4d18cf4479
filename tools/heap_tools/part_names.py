"""What names an object by what it is made of: texts in its parts, and labels."""

from typing import Dict, List, Mapping, NamedTuple, Sequence, Tuple

from heap_tools import hprof_format as hprof
from heap_tools.heap_objects import THREAD_CLASS, HeapObjects
from heap_tools.naming import Name, alone_in, is_naming, naming_texts, shown_text

#: The fields of the nodes of maps: the object, and its key.
MAP_NODES = (
    ("java/util/HashMap$Node.value", "java/util/HashMap$Node", "key"),
    ("java/util/concurrent/ConcurrentHashMap$Node.val", "java/util/concurrent/ConcurrentHashMap$Node", "key"),
    ("java/util/TreeMap$Entry.value", "java/util/TreeMap$Entry", "key"),
    ("java/util/Hashtable$Entry.value", "java/util/Hashtable$Entry", "key"),
    ("java/util/WeakHashMap$Entry.value", "java/lang/ref/Reference", "referent"),
    ("java/util/concurrent/ConcurrentSkipListMap$Node.val", "java/util/concurrent/ConcurrentSkipListMap$Node", "key"),
)
NODE_CLASSES = frozenset(node for _, node, key in MAP_NODES if key == "key")
#: Fields that are called like names, but say nothing of what leads there: the name of a thread or of a constant, and
#: the key of a map's node, such as the first one, which is that of its value.
OTHER_NAMES = ((THREAD_CLASS, "name"), ("java/lang/Enum", "name"), *((node, "key") for node in NODE_CLASSES))
#: How many elements an array has at most whose texts are labels: in a longer one is what an object is for.
MOST_LABELS = 16


class PartName(NamedTuple):
    """The name of a part of an object, and the identifier of the part."""

    name: Name
    part: int


class PartNames:
    """Looks up what names parts of objects."""

    def __init__(self, objects: HeapObjects) -> None:
        self.objects, self.dump = objects, objects.dump

    def by_part(self, places: Sequence[int]) -> Dict[int, List[PartName]]:
        """Returns the names of what the objects at `places` are made of, which no other one of them has: texts in
        fields that are called like names."""
        fields = {at: self.objects.references_of(at) for at in places}
        known = self.objects.places_of({target for of_object in fields.values() for target in of_object.values()})
        names = self._named({at: [*self.texts_of_parts(at, it, known).items()] for at, it in fields.items()})
        alone = alone_in({at: [name for _, name in found] for at, found in names.items()})
        return {
            at: [PartName(name, fields[at][path.partition(".")[0]]) for path, name in found if name in alone[at]]
            for at, found in names.items()
        }

    def by_label(self, places: Sequence[int], others: Sequence[int]) -> Dict[int, List[Name]]:
        """Returns the labels of objects: texts in small arrays that are parts of them, or that parts of them have, as
        lists and small maps do."""
        fields = {at: self.objects.references_of(at) for at in [*places, *others]}
        known = self.objects.places_of({target for of_object in fields.values() for target in of_object.values()})
        arrays = {at: self._arrays_of_parts(at, of_object, known) for at, of_object in fields.items()}
        inner = self.objects.places_of({target for paths in arrays.values() for target in paths.values()})
        elements = {target: self._few_elements(at) for target, at in inner.items()}
        every = {
            at: [(path, each) for path, target in paths.items() for each in elements.get(target, ())]
            for at, paths in arrays.items()
        }
        return alone_in({at: [name for _, name in found] for at, found in self._named(every).items()})

    def _named(self, strings: Mapping[int, Sequence[Tuple[str, int]]]) -> Dict[int, List[Tuple[str, Name]]]:
        """Returns the names that texts give objects, by these and with the paths to them, of those of `strings` that
        are texts."""
        texts = naming_texts(self.objects.texts({key for of_object in strings.values() for _, key in of_object}))
        return {
            at: [(path, Name(f"its field {path}", shown_text(texts[key]))) for path, key in found if texts.get(key)]
            for at, found in strings.items()
        }

    def _arrays_of_parts(self, at: int, fields: Mapping[str, int], known: Mapping[int, int]) -> Dict[str, int]:
        """Returns what may be arrays of the object at `at`: what its `fields` lead to, and what the fields of that do,
        by the path to it."""
        found: Dict[str, int] = {}
        for field, part in self._parts(at, fields, known).items():
            found[field] = fields[field]
            found.update({f"{field}.{name}": each for name, each in self.objects.references_of(part).items()})
        return found

    def _few_elements(self, at: int) -> List[int]:
        """Returns the identifiers of the elements of an array of references that has few, else nothing."""
        is_array = self.dump.bytes[at] == hprof.OBJECT_ARRAY
        return list(self.objects.elements_of(at)) if is_array and self.objects.length_of(at) <= MOST_LABELS else []

    def texts_of_parts(self, at: int, fields: Mapping[str, int], known: Mapping[int, int]) -> Dict[str, int]:
        """Returns what the fields that are called like names lead to in the objects that the object at `at` has in
        `fields`, by the path to it, such as `symbol.name`."""
        parts = self._parts(at, fields, known).items()
        return {f"{field}.{name}": key for field, part in parts for name, key in self._inner_texts(part).items()}

    def _parts(self, at: int, fields: Mapping[str, int], known: Mapping[int, int]) -> Dict[str, int]:
        """Returns where what the object at `at` has in `fields` is. An object of its own class, such as the next one of
        a chain, is no part but its neighbour: that has names of its own."""
        own, found = self.objects.class_name(at), {field: known.get(target) for field, target in fields.items()}
        return {field: part for field, part in found.items() if part and self.objects.class_name(part) != own}

    def _inner_texts(self, at: int) -> Dict[str, int]:
        """Returns the objects in those fields of the object at `at` that are called like names and say something of
        what refers to it."""
        if self.dump.bytes[at] != hprof.INSTANCE or any(self.objects.reference(at, *each) for each in OTHER_NAMES):
            return {}
        return {field: target for field, target in self.objects.references_of(at).items() if is_naming(field)}
