"""What names an object of a dump: a text in it, its key in a map, its thread-local and the thread, what names an object
that it is made of, or one that leads to it."""

from typing import Dict, Iterable, List, Mapping, Sequence, Tuple

from heap_tools import hprof_format as hprof
from heap_tools.heap_dump import HeapDump
from heap_tools.heap_objects import THREAD_CLASS, HeapObjects
from heap_tools.naming import NAMES_SHOWN, Name, alone_in, first_of_texts, likely_names, names_joined, shown_text
from heap_tools.owner_names import OwnerNames
from heap_tools.part_names import MAP_NODES
from heap_tools.thread_locals import VALUE_OF_ENTRY, ThreadLocals, telling

#: With how many other objects names of parts and owners are compared: a name that one object in ten has, too, is met
#: among as many in 96 of 100 cases. In a walk over the dump as many take no longer than one.
OTHERS = 32
#: The classes of boxed numbers, whose value a key may be, and the codes of their types.
BOXES = {
    "java/lang/Integer": hprof.INT,
    "java/lang/Long": hprof.LONG,
    "java/lang/Short": hprof.SHORT,
    "java/lang/Byte": hprof.BYTE,
}


class ObjectNames:
    """Looks up what names objects of `dump`."""

    def __init__(self, dump: HeapDump) -> None:
        self.dump, self.objects = dump, HeapObjects(dump)
        self.thread_locals, self._owners = ThreadLocals(self.objects), OwnerNames(self.objects)

    def names_of(self, places: Sequence[int], others: Sequence[int] = ()) -> Dict[int, List[Name]]:
        """Returns the names of the objects at these places, at most `NAMES_SHOWN`, and each text once: texts, keys and
        thread-locals of threads that neither another of them nor one at `others` has, and thread-locals. If an object
        has none, those of what it is made of count, then those of its owners, which some of `others` do not have,
        too. Walks over all objects some times."""
        own = self.own_names([*places, *others])
        alone = alone_in(own)
        found = {at: names_joined(telling(own[at], alone[at]))[:NAMES_SHOWN] for at in places}
        nameless = [at for at in places if not found[at]]
        if nameless:
            found.update(self._outer_names(nameless, others))
        return found

    def _outer_names(self, places: Sequence[int], others: Sequence[int]) -> Dict[int, List[Name]]:
        """Returns the name of what each of the objects at `places` is made of, and those of its nearest owners that
        have any; if there are none, its labels. A name that another object has too names nothing: of `others` those
        from all parts of the file are compared, since neighbours are often alike. Walks over all objects some times."""
        count, by_part = len(others), self._owners.parts
        compared = [others[count * number // OTHERS] for number in range(OTHERS)] if count > OTHERS else others
        parts = by_part.by_part([*places, *compared])
        owners = self._owners.of(places, compared, {at: {each.part for each in parts[at][:1]} for at in places})
        found = {at: first_of_texts([*(it.name for it in parts[at][:1]), *owners[at]])[:NAMES_SHOWN] for at in places}
        nameless = [at for at in places if not found[at]]
        labels = by_part.by_label(nameless, [*compared, *(at for at in places if found[at])]) if nameless else {}
        return {at: found[at] or first_of_texts(labels[at])[:NAMES_SHOWN] for at in places}

    def own_names(self, places: Sequence[int]) -> Dict[int, List[Name]]:
        """Returns the names of the objects at these places, without those of their owners. Others may have them, too.
        Walks over all objects some times."""
        found: Dict[int, List[Name]] = {at: [] for at in places}
        fields = {at: self.objects.references_of(at) for at in places}
        keys, entries = self._keys_and_entries(places)
        named = {target for of_object in fields.values() for target in of_object.values()}
        known = self.objects.places_of({*named, *(key for _, key in keys)})
        texts = self.objects.texts_at(known)
        by_key = self._by_key(keys, known, texts)
        for at, name in [*self._by_text(fields, texts), *by_key, *self.thread_locals.names(entries)]:
            found[at].append(name)
        return found

    def _keys_and_entries(self, places: Sequence[int]) -> Tuple[List[Tuple[int, int]], List[Tuple[int, int]]]:
        """Returns the objects at these places that a map has under a key, with the key, and those that are values or
        entries of thread-locals, with the entry. Walks over all objects."""
        wanted = {self.dump.id(at + 1): at for at in places}
        keys: List[Tuple[int, int]] = []
        entries = [(at, at) for at in places if self.thread_locals.is_entry(at)]
        fields = [*(value for value, _, _ in MAP_NODES), VALUE_OF_ENTRY]
        for node, place, _ in self.objects.values_of(fields, set(wanted)):
            at = wanted[self.dump.id(place)]
            if self.thread_locals.is_entry(node):
                entries.append((at, node))
            else:
                of_node = [self.objects.reference(node, owner, key) for _, owner, key in MAP_NODES]
                keys += [(at, key) for key in of_node if key]
        return keys, entries

    def _by_text(self, fields: Mapping[int, Mapping[str, int]], texts: Mapping[int, str]) -> Iterable[Tuple[int, Name]]:
        """Yields the objects that have some of these texts in fields which name them, the likeliest first."""
        for at, of_object in fields.items():
            named = {field: texts[target] for field, target in of_object.items() if texts.get(target)}
            of_thread = self.objects.reference(at, THREAD_CLASS, "name")
            for field in likely_names(named):
                yield at, Name(f"its field {field}", shown_text(named[field]), of_object[field] == of_thread)

    def _by_key(
        self, keys: Sequence[Tuple[int, int]], known: Mapping[int, int], texts: Mapping[int, str]
    ) -> Iterable[Tuple[int, Name]]:
        """Yields the objects that a map has under these keys, with the key: a text or a boxed number."""
        for at, key in keys:
            spelled = self._spelled(key, known, texts)
            if spelled:
                yield at, Name("the map's key", spelled)

    def _spelled(self, key: int, known: Mapping[int, int], texts: Mapping[int, str]) -> str:
        """Returns a text or a boxed number as it is shown, empty if it is neither or missing."""
        if texts.get(key) or key not in known:
            return shown_text(texts[key]) if texts.get(key) else ""
        box = self.dump.names.get(self.objects.class_of(known[key]), "")
        place = self.objects.place_of_value(known[key], box, "value", BOXES[box]) if box in BOXES else None
        return "" if place is None else str(self.dump.number(place, self.dump.value_sizes[BOXES[box]], signed=True))
