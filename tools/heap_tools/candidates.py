"""What can hold objects in a dump: fields, static fields, local variables and threads, by name."""

import functools
from collections import defaultdict
from dataclasses import dataclass, field
from typing import Counter, Dict, FrozenSet, Iterable, Iterator, List, NamedTuple, Optional, Sequence, Set, Tuple

from heap_tools.class_names import class_pattern_of, family, is_own
from heap_tools.heap_dump import Field, HeapDump, Root
from heap_tools.heap_objects import HeapObjects
from heap_tools.hprof_format import OBJECT
from heap_tools.label_text import Place, in_class, in_object, in_root
from heap_tools.reports import Report
from heap_tools.thread_counts import pattern_of, shown_name

STATIC, FIELD, LOCAL, THREAD, THREADS = "static", "field", "local", "thread", "threads"
#: The kind of roots that are no candidates: those of the virtual machine and of native code.
MACHINE_ROOT = "machine"
WEAK = "java/lang/ref/Reference.referent"
#: The links of the virtual machine's list of references that are not in their queues yet. Its head is a root of dumps
#: of JDK 17, and the collection before a dump fills it.
PENDING = "java/lang/ref/Reference.discovered"
#: The list of the threads of a group, up to JDK 18, and that of the classes of a loader.
GROUP, LOADED_CLASSES = "java/lang/ThreadGroup.threads", "java/lang/ClassLoader.classes"

#: The classes that collections of the JDK, of libraries and of users inherit from, and that in which those are nested
#: that wrap others.
COLLECTIONS = {"java/util/AbstractCollection", "java/util/AbstractMap", "java/util/Dictionary", "java/util/Collections"}
#: What names of others end with: those of the JDK's interfaces but Collection, which is also what a group is called.
CALLED_COLLECTIONS = ("Map", "List", "Set", "Queue", "Deque")

#: Up to how many instances with a value can be few that hold much each, such as pools. Most answers have one.
FEW = 64

#: A kind and a name: what a candidate is called in another dump of the program, too.
Key = Tuple[str, str]


@dataclass(frozen=True, eq=False)
class Candidate:
    """A field of all classes of one name, a static field of all classes of a pattern of names, a local variable of all
    methods of one name, or all threads of one name or of a pattern. `count` is the number of its holders: of the
    instances that have the field, of the classes that have a value in the static field, or of the threads. `places` are
    those of its references. `classes` are the families of the instances. `is_collection`: it is a field of a
    collection, which says nothing of what it is for."""

    kind: str
    name: str
    count: int
    places: Sequence[Place] = field(default=(), repr=False)
    classes: FrozenSet[str] = frozenset()
    is_collection: bool = False

    @property
    def key(self) -> Key:
        """What it is called in another dump of the program, too."""
        return self.kind, self.name

    @property
    def owner(self) -> str:
        """The class that declares the field."""
        return self.name.rpartition(".")[0]

    @property
    def is_own(self) -> bool:
        """Tests whether its class is not of the JDK."""
        return self.is_thread or is_own(self.name)

    @property
    def is_thread(self) -> bool:
        """Tests whether it is threads."""
        return self.kind in (THREAD, THREADS)

    @property
    def is_captured(self) -> bool:
        """Tests whether it is a variable that a lambda captured."""
        return "$$Lambda" in self.name

    @property
    def is_of_machine(self) -> bool:
        """Tests whether the virtual machine keeps the field with its class, such as `<resolved_references>`."""
        return ".<" in self.name

    def __str__(self) -> str:
        if self.is_thread:
            return f'{self.kind} "{self.name}"' if self.name else self.kind
        return self.name if self.kind == FIELD else f"{self.kind} {self.name}"


#: How many names of candidates that hold something together a line has.
NAMED = 3


def joint_name(candidates: Sequence[Candidate]) -> str:
    """Returns the names of candidates that hold something together, in one line: of many only the first ones."""
    names = list(map(str, candidates))
    if len(names) > NAMED + 1:
        names[NAMED - 1 :] = [f"{names[NAMED - 1]} .. and {len(names) - NAMED} more"]
    return ("together " if len(names) > 1 else "") + ", ".join(names)


class DumpedField(NamedTuple):
    """A field that classes of one name declare: the classes, the places of its references, the families of the classes
    with such instances, and of a static field its values."""

    declared_by: List[int]
    places: List[Place]
    families: Set[str]
    values: List[int]

    @property
    def led(self) -> int:
        """In how many classes a static field is not null."""
        return sum(each != 0 for each in self.values)


class Candidates:
    """All that can hold objects in the dump `dump`, of which `report` is the report as it is: a field of a class
    without instances can hold nothing. `follows_weak`: weak references count, too."""

    def __init__(self, dump: HeapDump, report: Report, follows_weak: bool = False) -> None:
        self.dump, self.report, self._follows_weak = dump, report, follows_weak
        self._statics: Dict[str, DumpedField] = {}
        self._fields: Dict[str, DumpedField] = {}
        for class_id, dumped in dump.classes.items():
            self._add_statics(class_id)
            if report.amount(family(dump.names[class_id])).objects:
                self._add_fields(class_id)
        self._every_field: Optional[List[Candidate]] = None
        self._by_pattern: Optional[Dict[str, List[DumpedField]]] = None
        self._of_kind: Dict[str, Dict[Key, Candidate]] = {}
        self._known_ids: Dict[str, List[int]] = {}

    def _add_statics(self, class_id: int) -> None:
        """Adds the static fields of a class. Before them an object of a class has its superclass, its loader, its
        signers, its protection domain and its constants."""
        each = self.dump.classes[class_id]
        number = 4 + each.constants
        for of_class in each.fields:
            if of_class.is_static and of_class.kind == OBJECT:
                name = f"{family(self.dump.names[class_id])}.{of_class.name}"
                known = self._statics.setdefault(name, DumpedField([], [], set(), []))
                known.declared_by.append(class_id)
                known.places.append(in_object(class_id, number))
                known.values.append(self.dump.id(of_class.place + 1))
                number += 1

    def _add_fields(self, class_id: int) -> None:
        """Adds the fields of the instances of a class. Before them an instance has its class."""
        for number, (owner, name) in enumerate(reference_fields(self.dump, class_id), 1):
            key = f"{family(self.dump.names[owner])}.{name}"
            known = self._fields.setdefault(key, DumpedField([], [], set(), []))
            known.declared_by.append(owner)
            known.places.append(in_class(class_id, number))
            known.families.add(family(self.dump.names[class_id]))

    def places(self, key: Key) -> Sequence[Place]:
        """Returns the places of the references of what is called `key`: none if the dump does not have it."""
        kind, name = key
        if kind == STATIC:
            return [place for each in self._of_static(name) for place in each.places]
        if kind == FIELD:
            return self._fields[name].places if name in self._fields else ()
        root = self._root(key)
        return root.places if root else ()

    def places_in(self, class_id: int, field: Field) -> List[Place]:
        """Returns the places of the references of a field that a class declares."""
        name = f"{family(self.dump.names[class_id])}.{field.name}"
        found = (self._statics if field.is_static else self._fields).get(name)
        return [it for owner, it in zip(found.declared_by, found.places) if owner == class_id] if found else []

    def values_of_static(self, key: Key) -> Set[int]:
        """Returns the identifiers in the static field that is called `key`, of all classes of its name or pattern."""
        return {value for each in self._of_static(key[1]) for value in each.values if value}

    def _of_static(self, name: str) -> List[DumpedField]:
        """Returns the static fields that `name` means: that of classes of one name, or those of a pattern of names."""
        if name in self._statics:
            return [self._statics[name]]
        return self._statics_by_pattern().get(name, []) if "*" in name else []

    def _statics_by_pattern(self) -> Dict[str, List[DumpedField]]:
        """Returns the static fields of classes whose names have a pattern, by the field's name with that. What the
        virtual machine keeps with a class is no place where a program puts something."""
        if self._by_pattern is None:
            self._by_pattern = {}
            called = functools.lru_cache(maxsize=1)(class_pattern_of)  # the fields of a class follow each other
            for name, of_name in self._statics.items():
                owner, _, field_name = name.rpartition(".")
                pattern = called(owner)
                if pattern != owner and not field_name.startswith("<"):
                    self._by_pattern.setdefault(f"{pattern}.{field_name}", []).append(of_name)
        return self._by_pattern

    def instances(self, key: Key, report: Report) -> int:
        """Returns how many instances what is called `key` has if `report` is that of the dump."""
        kind, name = key
        if kind == FIELD:
            return self._count(self._fields[name].families, report) if name in self._fields else 0
        if kind == STATIC:
            return sum(each.led for each in self._of_static(name))
        found = self._root(key)
        return found.count if found else 0

    def _root(self, key: Key) -> Optional[Candidate]:
        """Returns the local variable, the thread or the threads that are called `key`, or None."""
        return self.all_threads() if key == (THREADS, "") else self._roots(key[0]).get(key)

    def _roots(self, kind: str) -> Dict[Key, Candidate]:
        """Returns the candidates of a kind that roots are, by their keys. Those with few holders come first."""
        if kind not in self._of_kind:
            roots: Dict[str, List[Root]] = defaultdict(list)
            for root in self.dump.roots:
                for name in self._names_of(kind, root):
                    roots[name].append(root)
            found = [self._of_roots(kind, name, of_name) for name, of_name in roots.items()]
            self._of_kind[kind] = {each.key: each for each in sorted(found, key=lambda each: (each.count, each.name))}
        return self._of_kind[kind]

    def _names_of(self, kind: str, root: Root) -> Iterator[str]:
        """Yields the name of the candidate of a kind that a root is part of, nothing if it is of none: the method of a
        local variable, the name of its thread, or the pattern of that."""
        frame = self.dump.frame(root.thread, root.frame) if kind == LOCAL else None
        if frame:
            yield f"{family(frame.class_name)}.{frame.method}"
        if kind in (THREAD, THREADS):
            name = HeapObjects(self.dump).thread_names().get(root.thread, "")
            yield shown_name(name) if kind == THREAD else pattern_of(name)

    def not_counted(self) -> List[Place]:
        """Returns the places of what does not count: the list of references that wait for their queues, and that of a
        group's threads, since each thread is a root."""
        return [*self.places((FIELD, GROUP)), *self.places((FIELD, PENDING))]

    def statics(self) -> List[Candidate]:
        """Returns the static fields that are not null. Those that the virtual machine keeps with a class, such as
        `<init_lock>`, come last."""
        found = [Candidate(STATIC, name, it.led, it.places) for name, it in self._statics.items() if it.led]
        return sorted(found, key=lambda each: (each.is_of_machine, each.count, each.name))

    def statics_alike(self) -> List[Candidate]:
        """Returns the static fields of classes alike, by the pattern of the names of these: of one loader several have
        such names, and a value in the field. Then it is that of all classes of the pattern, as a name is that of all
        classes that have it."""
        found = []
        for name, of_pattern in self._statics_by_pattern().items():
            if len(of_pattern) > 1 and name not in self._statics and self._are_of_one_loader(of_pattern):
                places = [place for each in of_pattern for place in each.places]
                found.append(Candidate(STATIC, name, sum(each.led for each in of_pattern), places))
        return sorted(found, key=lambda each: (each.count, each.name))

    def _are_of_one_loader(self, fields: Sequence[DumpedField]) -> bool:
        """Tests whether a loader has classes of several names with a value in these static fields."""
        classes = self.dump.classes
        loaders: Counter[int] = Counter()
        for it in fields:
            loaders.update({classes[owner].loader for owner, value in zip(it.declared_by, it.values) if value})
        return max(loaders.values(), default=0) > 1

    def fields(self, report: Report) -> List[Candidate]:
        """Returns the fields of classes with reachable instances. Those with few holders come first."""
        found = []
        for name, it in self._fields.items():
            if name in (LOADED_CLASSES, GROUP, PENDING) or name == WEAK and not self._follows_weak:
                continue
            count = self._count(it.families, report)
            if count > 0:
                is_collection = all(map(self._is_collection, set(it.declared_by)))
                found.append(Candidate(FIELD, name, count, it.places, frozenset(it.families), is_collection))
        return sorted(found, key=lambda each: (each.count, each.name))

    def every_field(self) -> List[Candidate]:
        """Returns the fields of classes with instances that are reachable in the dump as it is."""
        if self._every_field is None:
            self._every_field = self.fields(self.report)
        return self._every_field

    def few(self) -> List[Candidate]:
        """Returns what may hold something together with others: static fields, also those of classes alike, local
        variables, threads, and fields of few instances that are not those of collections. What the virtual machine
        keeps with a class is no place where a program puts something."""
        alike = self.threads_alike()
        known = {place for each in alike for place in each.places}
        threads = [*alike, *(each for each in self.threads() if known.isdisjoint(each.places))]
        few = (each for each in self.every_field() if each.count <= FEW)
        fields = [each for each in few if not each.is_collection and not each.is_captured]
        statics = [*self.statics(), *self.statics_alike()]
        return [each for each in [*statics, *self.locals(), *threads, *fields] if not each.is_of_machine]

    def kin(self) -> Dict[Key, List[Candidate]]:
        """Returns the fields that each class declares, and likewise the static fields, by kind and class, without those
        that the virtual machine keeps with a class."""
        found: Dict[Key, List[Candidate]] = {}
        for each in [*self.statics(), *self.every_field()]:
            if not each.is_of_machine:
                found.setdefault((each.kind, each.owner), []).append(each)
        return found

    def units(self) -> Dict[str, List[Candidate]]:
        """Returns for each own class with few instances the fields that these have, inherited ones too, if some of them
        have many instances elsewhere: others are of one class, of which it is asked anyway. Those of a collection say
        nothing of what it is for."""
        few = {name for name, amount in self.report.families.items() if is_own(name) and 0 < amount.objects <= FEW}
        found: Dict[str, List[Candidate]] = {}
        for field in self.every_field():
            for name in few & field.classes if not field.is_collection else ():
                found.setdefault(name, []).append(field)
        return {name: unit for name, unit in found.items() if len(unit) > 1 and any(each.count > FEW for each in unit)}

    def _is_collection(self, class_id: int) -> bool:
        """Tests whether a class inherits from a collection of the JDK, is called like one, or is within such a class:
        the nodes of a map say as little as the map."""
        parts = self.dump.names[class_id].split("$")
        outer = ("$".join(parts[:count]) for count in range(1, len(parts)))
        every = [class_id, *(each for name in outer for each in self._ids_of(name))]
        return any(part.endswith(CALLED_COLLECTIONS) for part in parts) or any(
            self.dump.names[upper] in COLLECTIONS for each in every for upper in self.dump.lineage(each)
        )

    def _ids_of(self, name: str) -> List[int]:
        """Returns the classes of a name: one for each loader that has it."""
        if not self._known_ids:
            for class_id, each in self.dump.names.items():
                self._known_ids.setdefault(each, []).append(class_id)
        return self._known_ids.get(name, [])

    def _count(self, classes: Iterable[str], report: Report) -> int:
        """Returns how many instances these classes have in all."""
        return sum(report.amount(each).objects for each in classes)

    def all_threads(self) -> Candidate:
        """Returns all threads as one candidate."""
        return self._of_roots(THREADS, "", self.dump.roots)

    def locals(self) -> List[Candidate]:
        """Returns the local variables, by method. The number of their holders is that of the threads in the method."""
        return [*self._roots(LOCAL).values()]

    def calls_of_jdk(self) -> List[Candidate]:
        """Returns the local variables of methods of the JDK."""
        return [each for each in self.locals() if not each.is_own]

    def threads(self) -> List[Candidate]:
        """Returns the threads, by name."""
        return [*self._roots(THREAD).values()]

    def threads_alike(self) -> List[Candidate]:
        """Returns the threads of which several have names of one pattern, by the pattern."""
        return [each for each in self._roots(THREADS).values() if each.count > 1 and each.name]

    def _of_roots(self, kind: str, name: str, roots: Sequence[Root]) -> Candidate:
        """Returns the candidate that these roots are."""
        places = [in_root(self.dump.root_number(root.place)) for root in roots]
        return Candidate(kind, name, len({root.thread for root in roots}), places)


def reference_fields(dump: HeapDump, class_id: int) -> Iterator[Tuple[int, str]]:
    """Yields the fields of an instance of a class that are references, in the order of the dump: the class that
    declares each, and its name."""
    for owner in dump.lineage(class_id):
        for each in dump.classes[owner].fields:
            if not each.is_static and each.kind == OBJECT:
                yield owner, each.name
