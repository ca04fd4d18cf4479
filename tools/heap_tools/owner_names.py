"""What names an object by what leads to it: texts and keys of its owners, static fields, thread-locals, and the field
by which only this object is led to."""

from typing import AbstractSet, Dict, Iterable, Iterator, List, Mapping, NamedTuple, Sequence

from heap_tools import hprof_format as hprof
from heap_tools.class_names import family, is_own
from heap_tools.field_values import values_by_field
from heap_tools.heap_objects import THREAD_CLASS, HeapObjects
from heap_tools.naming import Name, is_naming, likeliest_first, likely_names, naming_texts, shown_text
from heap_tools.object_owners import Owners
from heap_tools.part_names import NODE_CLASSES, PartNames
from heap_tools.referrers import MOST_OWNERS, Referrer, Referrers
from heap_tools.thread_locals import BY_THREAD_LOCAL, ThreadLocals

#: What leads to an object one reference above it, two, and so on.
Steps = Sequence[Sequence[Referrer]]


class FieldAbove(NamedTuple):
    """A field of the program or of a library from which an object is reached by fields only, the identifier of what it
    leads to, and the name that it gives."""

    field: str
    target: int
    name: Name


def nearest_steps(steps: Steps, names: Mapping[Referrer, Sequence[Name]]) -> Dict[Name, int]:
    """Returns at which step up an owner has each name first. Names by a thread-local are left out, since several
    threads have one each by the same field."""
    found: Dict[Name, int] = {}
    for number, step in enumerate(steps):
        for name in (name for each in step for name in names[each] if name.how != BY_THREAD_LOCAL):
            found.setdefault(name, number)
    return found


class OwnerNames:
    """Looks up what names owners of the objects of a dump."""

    def __init__(self, objects: HeapObjects) -> None:
        self.objects, self.dump, self.referrers = objects, objects.dump, Referrers(objects)
        self.parts, self.thread_locals = PartNames(objects), ThreadLocals(objects)

    def of(
        self, places: Sequence[int], others: Sequence[int], named: Mapping[int, AbstractSet[int]]
    ) -> Dict[int, List[Name]]:
        """Returns the names of the nearest owners of the objects at `places` that have any which those of another one
        or of one at `others` do not have as near. If there are none, the field that leads to an object is its name. An
        owner has one name; those in `named` have theirs already, by which the object is named."""
        above = Owners(self.referrers).above(places, others)
        names = self._names_of({each for steps in above.values() for step in steps for each in step})
        said = {at: nearest_steps(steps, names) for at, steps in above.items()}
        found: Dict[int, List[Name]] = {}
        for at in places:
            of_others: Dict[Name, int] = {}
            for name, step in (pair for other in said if other != at for pair in said[other].items()):
                of_others[name] = min(step, of_others.get(name, step))
            found[at] = self._nearest(above[at], names, of_others, named[at])
        nameless = {at: above[at] for at in places if not found[at] and not named[at]}
        return {**found, **(self._by_field(nameless) if nameless else {})}

    def _nearest(
        self,
        steps: Steps,
        names: Mapping[Referrer, Sequence[Name]],
        of_others: Mapping[Name, int],
        named: AbstractSet[int],
    ) -> List[Name]:
        """Returns the names of the nearest owners that have any but those `of_others` up to this step, the likeliest
        first: of each owner the first of its names, and none of those in `named`."""
        for number, step in enumerate(steps):
            by_owner: Dict[int, List[Name]] = {}
            for each in step:
                alone = (name for name in names[each] if of_others.get(name, number + 1) > number)
                by_owner.setdefault(each.place, []).extend(alone)
            telling = {at: of_owner for at, of_owner in by_owner.items() if of_owner}
            if telling:
                first = {of_owner[0] for at, of_owner in telling.items() if self.dump.id(at + 1) not in named}
                return sorted(first, key=likeliest_first)
        return []

    def _names_of(self, owners: Iterable[Referrer]) -> Dict[Referrer, List[Name]]:
        """Returns what may name each of these owners, the best first: its text, that of a part, the static field of a
        class, and of an entry of a thread-local that. Walks over all objects some times."""
        targets = {each: self._naming_targets(each) for each in owners}
        known = self.objects.places_of({target for found in targets.values() for target in found.values()})
        parts = {owner: self.parts.texts_of_parts(owner.place, found, known) for owner, found in targets.items()}
        keys = {key for by_owner in (targets, parts) for of in by_owner.values() for key in of.values()}
        texts = self.objects.texts(keys)
        of_parts = naming_texts(texts)
        of_entries: Dict[int, List[Name]] = {}
        entries = {each.place for each in targets if self.thread_locals.is_entry(each.place)}
        for at, name in self.thread_locals.names([(at, at) for at in sorted(entries)]):
            of_entries.setdefault(at, []).insert(0, name)
        of_own = {owner: self._own_text(found, texts) for owner, found in targets.items()}
        asked = {targets[each][field] for each, field in of_own.items() if field}
        named = {
            targets[each][path.partition(".")[0]] for each, of in parts.items() for path in of if of[path] in of_parts
        }
        self.referrers.look_up(asked | named)
        names: Dict[Referrer, List[Name]] = {}
        for owner, found in targets.items():
            names[owner] = []
            best = of_own[owner]
            if best and not self._is_attribute(owner, best, found[best]):
                how = "the map's key" if self._is_node(owner.place) else f"of {self._class_of(owner)}, its field {best}"
                is_of_thread = found[best] == self.objects.reference(owner.place, THREAD_CLASS, "name")
                names[owner].append(Name(how, shown_text(texts[found[best]]), is_of_thread))
            for path, key in parts[owner].items():
                field = path.partition(".")[0]
                if key in of_parts and not self._is_attribute(owner, field, found[field]):
                    names[owner].append(Name(f"of {self._class_of(owner)}, its field {path}", shown_text(texts[key])))
            names[owner] += of_entries.get(owner.place, [])
            if self._is_class(owner):
                names[owner].append(Name(f"static {self._class_of(owner)}.{owner.field}", ""))
        return names

    def _is_attribute(self, owner: Referrer, field: str, target: int) -> bool:
        """Tests whether what an owner has in a field is that of others of its class, too, such as a state or the key of
        an attribute. A name may be that of few: a tenant has the same key in several maps."""
        kind = self.dump.bytes[owner.place], self.objects.class_name(owner.place), field
        count = sum(self.referrers.kind_of(each) == kind for each in self.referrers.of(target))
        return count > (MOST_OWNERS if is_naming(field) else 1)

    def _by_field(self, above: Mapping[int, Steps]) -> Dict[int, List[Name]]:
        """Returns the nearest field, if there is one, from which each of these objects is reached by fields only, a
        field of the program or of a library that leads to nothing else. Walks over all objects."""
        every = {at: list(self._fields_above(at, steps)) for at, steps in above.items()}
        # An object that more than `MOST_OWNERS` lead to has no owners: of as many values one leads to another object.
        names = {each.field for fields in every.values() for each in fields}
        values = values_by_field(self.objects, names, MOST_OWNERS + 1, 0)
        targets = {name: {self.dump.id(each.value) for each in of_field.values} for name, of_field in values.items()}
        return {at: [it.name for it in fields if targets[it.field] == {it.target}][:1] for at, fields in every.items()}

    def _fields_above(self, at: int, steps: Steps) -> Iterator[FieldAbove]:
        """Yields the fields from which the object at `at` is reached by fields only, the nearest first."""
        paths = {self.dump.id(at + 1): ""}
        for step in steps:
            for each in step:
                owner = self._declaring(each)
                if owner and each.target in paths:
                    path = f"{each.field}.{paths[each.target]}".rstrip(".")
                    paths.setdefault(self.dump.id(each.place + 1), path)
                    if is_own(owner):
                        yield FieldAbove(f"{owner}.{each.field}", each.target, Name(f"the field {owner}.{path}", ""))

    def _declaring(self, each: Referrer) -> str:
        """Returns the class that declares the field by which an instance refers to an object, empty if that is no
        instance."""
        fields = self.objects.fields_of(self.objects.class_of(each.place))
        return next((family(self.dump.names.get(owner, "")) for owner, _, it in fields if it.name == each.field), "")

    def _naming_targets(self, owner: Referrer) -> Dict[str, int]:
        """Returns the objects that may name an owner, by the fields of it: of the node of a map only its key, and none
        of an entry of thread-locals."""
        at = owner.place
        if self.dump.bytes[at] != hprof.INSTANCE or self.thread_locals.is_entry(at):
            return {}
        found = self.objects.references_of(at)
        if self._is_node(at):
            found = {field: target for field, target in found.items() if field == "key"}
        return {field: target for field, target in found.items() if target != owner.target}

    def _own_text(self, fields: Mapping[str, int], texts: Mapping[int, str]) -> str:
        """Returns which of the fields of an owner has the text that names it best, empty if none does."""
        named = {field: texts[target] for field, target in fields.items() if texts.get(target)}
        return next(iter(likely_names(named)), "")

    def _is_node(self, at: int) -> bool:
        """Tests whether the object at `at` is a node of a map, also of a map that inherits from one of the JDK's."""
        return any(self.objects.reference(at, node, "key") for node in NODE_CLASSES)

    def _is_class(self, owner: Referrer) -> bool:
        return self.dump.bytes[owner.place] == hprof.CLASS_DUMP

    def _class_of(self, owner: Referrer) -> str:
        """Returns the class of an owner, or the class that it is."""
        if self._is_class(owner):
            return self.dump.names[self.dump.id(owner.place + 1)]
        return self.objects.class_name(owner.place)
