"""What leads to a path that begins at a field: several roots do, of which none holds all that the path does, so that
none is above it. They are looked up from the object with the first field upwards.
"""

from typing import Dict, List, NamedTuple, Optional, Sequence, Set, Tuple

from heap_tools import hprof_format as hprof
from heap_tools.candidates import FIELD, LOCAL, MACHINE_ROOT, STATIC, THREAD, Candidate, reference_fields
from heap_tools.class_names import family
from heap_tools.dump_side import DumpSide, GroupKey
from heap_tools.heap_dump import Root
from heap_tools.heap_objects import FieldValue, HeapObjects
from heap_tools.label_text import Place, in_class, in_root
from heap_tools.line_order import NEARLY
from heap_tools.object_parts import MOST_OBJECTS, FieldUses
from heap_tools.probe import Probe, Retained
from heap_tools.referrers import MOST_OWNERS, Referrer, Referrers
from heap_tools.thread_counts import shown_name

#: How many references above an object roots are looked for, and among how many objects. Each step reads all references
#: of the dump: a pool's threads, or a timer's, lead to a server by some five.
STEPS_UP, MOST_ABOVE = 10, 2_000


class RootAbove(NamedTuple):
    """A root that leads to an object: its kind and its name, as a candidate has them, and the serial number of its
    thread, 0 if it is of none."""

    kind: str
    name: str = ""
    thread: int = 0

    @property
    def rank(self) -> Tuple[int, str]:
        """What comes first of roots that are equally near: what is own, a thread, what is of the JDK."""
        is_own = self.kind != MACHINE_ROOT and Candidate(self.kind, self.name, 1).is_own
        return [STATIC, THREAD, LOCAL, MACHINE_ROOT].index(self.kind) + 4 * (not is_own), self.name

    def __str__(self) -> str:
        return "the virtual machine" if self.kind == MACHINE_ROOT else str(Candidate(self.kind, self.name, 1))


class RootsAbove(NamedTuple):
    """The roots that lead to what has the field `first`, the nearest first: none of them holds all that it does.
    `are_all`: no others lead there, but for those that do so only by one of these."""

    first: Retained
    roots: List[RootAbove]
    are_all: bool

    @property
    def others(self) -> str:
        """How many roots there are beside the first, in words, empty if there are none."""
        count = len(self.roots) - 1
        if not count:
            return "" if self.are_all else " and others"
        return f" and {'' if self.are_all else 'at least '}{count} more"

    def __str__(self) -> str:
        return f"held by {self.roots[0]}{self.others}"


class PathRoots:
    """Looks up what leads to paths that begin at a field, in the dump that `probe` asks. `uses` may know the values of
    fields."""

    def __init__(self, probe: Probe, uses: FieldUses) -> None:
        self.probe, self.uses = probe, uses
        self._known: Dict[GroupKey, Optional[RootsAbove]] = {}

    def above(self, path: Sequence[Retained]) -> Optional[RootsAbove]:
        """Returns the roots above a path. They lead to all of it, so they are looked for from the step of which there
        are the fewest objects. Returns None if the path begins with a root, if even these are many of which no few hold
        nearly all, or if no root was found."""
        if any(each.kind != FIELD for each in path[0].candidates):
            return None
        step = min(path, key=lambda it: it.instances)
        if step.key not in self._known:
            dump, is_alone = self.probe.runs.dump, len(step.candidates) == 1
            every = [self._heaviest(each, is_alone) for each in step.candidates]
            values = [it for of_field in every for it in of_field] if all(every) else []
            search = RootSearch(self.probe.side, {dump.id(each.instance + 1) for each in values})
            self._known[step.key] = RootsAbove(path[0], search.found, search.is_done) if search.found else None
        found = self._known[step.key]
        return found._replace(first=path[0]) if found else None

    def _heaviest(self, field: Candidate, is_alone: bool) -> Sequence[FieldValue]:
        """Returns the fewest values of a field that hold nearly all that it does alone; if these are not few, or others
        hold it with the field, all values, or none if they are many."""
        values = self.uses.of(field).values
        every = values if len(values) <= MOST_OWNERS else ()
        if len(values) == 1 or len(values) > MOST_OBJECTS or not is_alone:
            return every
        shares, unit = self.uses.shares(self.probe, field), self.probe.unit
        for count in range(1, MOST_OWNERS + 1):
            few = shares.heavy[:count]
            if unit.of(shares.amount_of(few)) >= NEARLY * unit.of(shares.together):
                return [values[number] for number in few]
        return every


class RootSearch:
    """A search for the roots that lead to some objects, in the dump of `side`, by the references that count. `found`
    are the roots, the nearest first; of each thread one: the thread, or if only local variables of one method lead
    there, these. `is_done`: all were found that lead there by no other one of them."""

    def __init__(self, side: DumpSide, identifiers: Set[int]) -> None:
        self.side, self.dump, self.objects = side, side.runs.dump, HeapObjects(side.runs.dump)
        self.referrers = Referrers(self.objects)
        self._cut = set(self.side.cut)
        self.found: List[RootAbove] = []
        self.is_done = True
        self._find(identifiers)

    def _find(self, last: Set[int]) -> None:
        """Goes up from the objects `last`, but not from threads: they are roots whatever leads to them."""
        roots, seen = self._roots(), set(last)
        threads = {self.dump.id(root.place) for root in self.dump.roots if root.kind == hprof.THREAD_OBJECT}
        for _ in range(STEPS_UP):
            self.referrers.look_up(last - threads)
            above = [each for key in sorted(last - threads) for each in self._leading(key)]
            found = {each for key in last for each in roots.get(key, ())}
            self._add(found.union(self._static(each) for each in above if self._is_class(each)))
            last = {self.dump.id(each.place + 1) for each in above if not self._is_class(each)} - seen
            seen |= last
            if not last or len(seen) > MOST_ABOVE:
                break
        self.is_done = self.is_done and not last

    def _add(self, found: Set[RootAbove]) -> None:
        """Adds the roots that are so many references up."""
        for root in sorted(found, key=lambda each: each.rank):
            same = [at for at, it in enumerate(self.found) if it == root or it.thread == root.thread != 0]
            if not same:
                self.found.append(root)
            elif root != self.found[same[0]]:
                self.found[same[0]] = self._thread(root.thread)

    def _leading(self, key: int) -> List[Referrer]:
        """Returns what leads to an object by a reference that counts. Of many of one class not all are known."""
        found = [each for each in self.referrers.of(key) if not self._is_cut(each)]
        kinds = list(map(self.referrers.kind_of, found))
        self.is_done = self.is_done and all(kinds.count(each) <= MOST_OWNERS for each in set(kinds))
        return found

    def _is_class(self, each: Referrer) -> bool:
        return self.dump.bytes[each.place] == hprof.CLASS_DUMP

    def _static(self, each: Referrer) -> RootAbove:
        """Returns the static field by which a class refers to an object."""
        return RootAbove(STATIC, f"{family(self.dump.names[self.dump.id(each.place + 1)])}.{each.field}")

    def _is_cut(self, each: Referrer) -> bool:
        """Tests whether a reference does not count. Of fields of one name in one object all must not."""
        places = self._places_of(each)
        return bool(places) and self._cut.issuperset(places)

    def _places_of(self, each: Referrer) -> List[Place]:
        """Returns the places of a reference, none of an element."""
        if self._is_class(each):
            class_id = self.dump.id(each.place + 1)
            fields = [it for it in self.dump.classes[class_id].fields if it.is_static and it.name == each.field]
            return [place for it in fields for place in self.side.candidates.places_in(class_id, it)]
        class_id = self.objects.class_of(each.place)
        named = enumerate(reference_fields(self.dump, class_id), 1)
        return [in_class(class_id, number) for number, (_, name) in named if name == each.field]

    def _roots(self) -> Dict[int, List[RootAbove]]:
        """Returns the roots that count, by the identifiers of their objects."""
        known = {root.place for root in self.dump.roots}
        found: Dict[int, List[RootAbove]] = {}
        for root in self.dump.roots:
            if in_root(self.dump.root_number(root.place)) not in self._cut:
                found.setdefault(self.dump.id(root.place), []).append(self._of_thread(root))
        for place in self.dump.root_places:
            if place not in known:
                found.setdefault(self.dump.id(place), []).append(RootAbove(MACHINE_ROOT))
        return found

    def _of_thread(self, root: Root) -> RootAbove:
        """Returns the local variable or the thread that a root of a thread is."""
        frame = self.dump.frame(root.thread, root.frame)
        if frame:
            return RootAbove(LOCAL, f"{family(frame.class_name)}.{frame.method}", root.thread)
        return self._thread(root.thread)

    def _thread(self, serial: int) -> RootAbove:
        """Returns the thread with a serial number, as a root."""
        return RootAbove(THREAD, shown_name(self.objects.thread_names().get(serial, "")), serial)
