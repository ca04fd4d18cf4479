"""Walks over the objects of a heap dump: where they are, and what their fields hold."""

import sys
from array import array
from typing import Dict, Iterable, List, NamedTuple, Optional, Sequence, Set, Tuple
from weakref import WeakKeyDictionary

from heap_tools import hprof_format as hprof
from heap_tools.class_names import CLASSES, PRIMITIVES, family
from heap_tools.heap_dump import Field, HeapDump
from heap_tools.label_text import Place, in_object
from heap_tools.object_places import SomeOfClass, chosen_objects, shared_by_class
from heap_tools.span_order import order_of_segments

#: A field of the instances of a class: the class that declares it, where its value is, counted from the begin of an
#: instance, and the field.
PlacedField = Tuple[int, int, Field]
#: The class of threads, which have their names in its field `name`.
THREAD_CLASS = "java/lang/Thread"
#: The names of the threads of those dumps that are still read, by their serial numbers.
THREAD_NAMES: "WeakKeyDictionary[HeapDump, Dict[int, str]]" = WeakKeyDictionary()


class FieldValue(NamedTuple):
    """A reference by which an object holds something: where the object is, and where the reference is. `holder`: where
    the object is that has the reference, if it is another one, such as the list of an element."""

    instance: int
    value: int
    holder: int = 0


class HeapObjects:
    """The objects of `dump`. Each walk reads all heap records, in as many processes as pay."""

    def __init__(self, dump: HeapDump) -> None:
        self.dump = dump
        #: Which identifier of an instance a reference is, by the class and where it is in the instance.
        self._numbers: Dict[Tuple[int, int], int] = {}
        #: The fields of the instances of a class, by its identifier.
        self._fields: Dict[int, Sequence[PlacedField]] = {}
        #: Where a field's value is in the instances of a class: by that class, and the field's class, name and type.
        self._places: Dict[Tuple[int, str, str, int], Optional[int]] = {}

    def thread_names(self) -> Dict[int, str]:
        """Returns the names of the threads by their serial numbers. Walks over all objects up to three times, once for
        each dump."""
        dump = self.dump
        if dump not in THREAD_NAMES:
            threads = {root.thread: dump.id(root.place) for root in dump.roots if root.kind == hprof.THREAD_OBJECT}
            objects = self.places_of(threads.values())
            strings = {key: self.reference(at, THREAD_CLASS, "name") for key, at in objects.items()}
            texts = self.texts(strings.values())
            THREAD_NAMES[dump] = {thread: texts.get(strings.get(key, 0), "") for thread, key in threads.items()}
        return THREAD_NAMES[dump]

    def texts(self, strings: Iterable[int]) -> Dict[int, str]:
        """Returns the texts of the Strings with these identifiers. Walks over all objects up to twice."""
        return self.texts_at(self.places_of(strings))

    def texts_at(self, places: Dict[int, int]) -> Dict[int, str]:
        """Returns the texts of the Strings at these places, by their identifiers. Walks over all objects."""
        values = {key: self.reference(at, "java/lang/String", "value") for key, at in places.items()}
        arrays = self.places_of(values.values())
        return {key: self._string(at, arrays.get(values[key])) for key, at in places.items()}

    def places_of(self, identifiers: Iterable[int]) -> Dict[int, int]:
        """Returns where the objects with these identifiers are, in the order of the file. Looks into the segments in
        which they must be if identifiers ascend, and into the others only for what is not there."""
        wanted = {each for each in identifiers if each} - self.dump.classes.keys()
        order, segments = order_of_segments(self.dump), self.dump.segments
        near = [segments[number] for number in order.around(wanted)] if order.is_ascending else []
        found = dict(chosen_objects(self.dump, near, wanted))
        if len(found) < len(wanted):
            found.update(chosen_objects(self.dump, segments, wanted))
        return dict(sorted(found.items(), key=lambda each: each[1]))

    def class_of(self, at: int) -> int:
        """Returns the identifier of the class of the instance at `at`, 0 if an array is there."""
        return self.dump.id(at + 5 + self.dump.id_size) if self.dump.bytes[at] == hprof.INSTANCE else 0

    def class_name(self, at: int) -> str:
        """Returns the family of the class of the object at `at`: the class of an instance or of an array."""
        dump, tag = self.dump, self.dump.bytes[at]
        if tag == hprof.PRIMITIVE_ARRAY:
            return f"{PRIMITIVES[hprof.LETTERS[dump.bytes[at + 9 + dump.id_size]]]}[]"
        place = {hprof.INSTANCE: 5, hprof.OBJECT_ARRAY: 9}.get(tag)
        return CLASSES if place is None else family(dump.names.get(dump.id(at + place + dump.id_size), ""))

    def references_of(self, at: int) -> Dict[str, int]:
        """Returns the identifiers of the objects that the fields of the instance at `at` name, by the field; of fields
        of one name, that of the class nearest to the instance's own. Returns nothing for an array or a class."""
        found: Dict[str, int] = {}
        for _, place, field in self.fields_of(self.class_of(at)):
            target = self.dump.id(at + place) if field.kind == hprof.OBJECT else 0
            if target:
                found.setdefault(field.name, target)
        return found

    def length_of(self, at: int) -> int:
        """Returns how many elements the array of references at `at` has."""
        return self.dump.number(at + 5 + self.dump.id_size, 4)

    def elements_of(self, at: int) -> "array[int]":
        """Returns the identifiers that are the elements of the array of references at `at`, 0 for null."""
        size, begin = self.dump.id_size, self.element_at(at, 0)
        found = array("Q" if size == 8 else "I", self.dump.bytes[begin : begin + self.length_of(at) * size])
        if sys.byteorder == "little":
            found.byteswap()
        return found

    def element_at(self, at: int, number: int) -> int:
        """Returns where an element of the array of references at `at` is. The first has the number 0."""
        return at + 9 + (2 + number) * self.dump.id_size

    def fields_of(self, class_id: int) -> Sequence[PlacedField]:
        """Returns the fields of an instance of a class, its own first, then those that it inherits."""
        if class_id not in self._fields:
            found, place = [], 9 + 2 * self.dump.id_size
            for owner in self.dump.lineage(class_id):
                for each in self.dump.classes[owner].fields:
                    if not each.is_static:
                        found.append((owner, place, each))
                        place += self.dump.value_sizes[each.kind]
            self._fields[class_id] = found
        return self._fields[class_id]

    def place_of(self, value: FieldValue) -> Place:
        """Returns the place of a reference as labels have it: among the identifiers of its object, of which the first
        is that of the class."""
        dump, holder = self.dump, value.holder or value.instance
        begin = holder + 9 + 2 * dump.id_size
        if dump.bytes[holder] == hprof.OBJECT_ARRAY:
            return in_object(dump.id(holder + 1), 1 + (value.value - begin) // dump.id_size)
        key = self.class_of(holder), value.value - holder
        if key not in self._numbers:
            fields = self.fields_of(key[0])
            self._numbers[key] = sum(each.kind == hprof.OBJECT and at <= key[1] for _, at, each in fields)
        return in_object(dump.id(holder + 1), self._numbers[key])

    def values_of(
        self, fields: Iterable[str], targets: Optional[Set[int]] = None, kind: int = hprof.OBJECT
    ) -> List[FieldValue]:
        """Returns the values of all instances in `fields`, names such as `java/util/HashMap.table` whose class stands
        for all hidden classes of its name. `targets`: only the values that are one of these identifiers. `kind` is the
        code of the fields' type: a class may have a field of the same name and of another type. They are in the order
        of the file."""
        dump, places = self.dump, self.places_in_instances(fields, kind)
        id_at, data = dump.unpack_id, dump.bytes

        def values_in(parts: List[SomeOfClass]) -> List[FieldValue]:
            return [
                FieldValue(at, at + place)
                for class_id, objects in parts
                for _, place in places[class_id]
                for at in objects
                if targets is None or id_at(data, at + place)[0] in targets
            ]

        return sorted(shared_by_class(dump, places, values_in)) if places else []

    def places_in_instances(self, fields: Iterable[str], kind: int) -> Dict[int, List[Tuple[str, int]]]:
        """Returns for each class the names of those of `fields` that its instances have, and where the values are,
        counted from the begin of an instance."""
        dump, wanted = self.dump, set(fields)
        declared = {
            (class_id, each.name): f"{family(name)}.{each.name}"
            for class_id, name in dump.names.items()
            for each in dump.classes[class_id].fields
            if not each.is_static and each.kind == kind and f"{family(name)}.{each.name}" in wanted
        }
        places: Dict[int, List[Tuple[str, int]]] = {}
        for class_id in dump.classes if declared else ():
            lineage = [(owner, each.name, at) for owner, at, each in self.fields_of(class_id) if each.kind == kind]
            found = [(declared[owner, name], at) for owner, name, at in lineage if (owner, name) in declared]
            if found:
                places[class_id] = found
        return places

    def place_of_value(self, at: int, class_name: str, field: str, kind: int) -> Optional[int]:
        """Returns where the value of an instance's field is that the class `class_name` declares, or None. `kind` is
        the code of its type: a class may have a field of the same name and of another type."""
        key = self.class_of(at), class_name, field, kind
        if key not in self._places:
            names, fields = self.dump.names, self.fields_of(key[0])
            found = (place for owner, place, it in fields if (names[owner], it.name, it.kind) == key[1:])
            self._places[key] = next(found, None)
        place = self._places[key]
        return None if place is None else at + place

    def reference(self, at: int, class_name: str, field: str) -> int:
        """Returns the identifier in a field of the instance at `at`, 0 if it has no such field."""
        place = self.place_of_value(at, class_name, field, hprof.OBJECT)
        return 0 if place is None else self.dump.id(place)

    def _string(self, at: int, array: Optional[int]) -> str:
        """Returns the text of the String at `at`, whose array is at `array`, empty if that is missing."""
        dump = self.dump
        if array is None or dump.bytes[array] != hprof.PRIMITIVE_ARRAY:
            return ""
        kind, begin = dump.bytes[array + 9 + dump.id_size], array + 10 + dump.id_size
        raw = dump.bytes[begin : begin + dump.value_sizes[kind] * dump.number(array + 5 + dump.id_size, 4)]
        coder = self.place_of_value(at, "java/lang/String", "coder", hprof.BYTE)
        if kind == hprof.CHAR:
            return raw.decode("utf-16-be", "replace")
        return raw.decode("utf-16-le" if coder is not None and dump.bytes[coder] else "latin-1", "replace")
