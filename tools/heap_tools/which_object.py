"""Which objects of many hold most of what a field holds, or gained most of what it gained, and what names them."""

from typing import Dict, Iterator, List, Mapping, NamedTuple, Optional, Sequence, Set, Tuple

from heap_tools import hprof_format as hprof
from heap_tools.candidates import FEW, FIELD, LOCAL, STATIC, THREAD
from heap_tools.heap_dump import HeapDump
from heap_tools.heap_objects import FieldValue, HeapObjects
from heap_tools.naming import Name, alone_in
from heap_tools.object_names import ObjectNames
from heap_tools.object_parts import MOST_OBJECTS, FieldUses, elements
from heap_tools.object_shares import OF_ONE, Holding, ObjectShares
from heap_tools.probe import GrowthProbe, Probe, Retained
from heap_tools.reports import Amount
from heap_tools.thread_counts import shown_name
from heap_tools.thread_locals import BY_THREAD_LOCAL, ThreadLocals

#: The names of objects, by their places.
Names = Mapping[int, Sequence[Name]]

#: Of how many objects it is asked at least which hold most: of one it is no question.
FEWEST_OBJECTS = 2
#: The share in percent that the named objects must have together: so they say more of the field than the others do.
OF_ALL = 50


class HoldingObject(NamedTuple):
    """An object that holds much of what a field holds: its class, what names it, and what it holds. `percent` is its
    share of what the field holds now; if `has_gained`, the share of what it gained in what the field gained, both
    measured in both dumps. `of`: among how many objects it was looked for. `is_element`: these are the elements of the
    field's list, not instances that have the field, of which `instances` are reachable. `least_gain`: if it is not
    measured what it gained, the share of the field's gain in percent that it gained at least."""

    class_name: str
    names: List[Name]
    amount: Amount
    percent: float
    has_gained: bool = False
    of: int = 0
    is_element: bool = False
    instances: int = 0
    least_gain: float = 0.0

    @property
    def of_gain(self) -> float:
        """The share of what the field gained in percent that it gained, or the least that it can have gained."""
        return self.percent if self.has_gained else self.least_gain

    @property
    def named_by(self) -> str:
        """What names it, in one line, empty if nothing does."""
        return ", ".join(map(str, self.names))

    def __str__(self) -> str:
        return f"{self.class_name}{f' ({self.named_by})' if self.names else ''}: {self.percent:.0f}%"

    def among(self, field: str) -> str:
        """Returns in words among what it was looked for: the instances that have `field`, as a line counts them, or
        those with a value in it. More of these than are reachable are all that the dump has."""
        if self.is_element:
            return f"elements of {field}"
        if self.of > self.instances:
            return f"{field} in the dump, reachable or not,"
        return field if self.of == self.instances else f"{field} with a value"


def sentence(field: str, found: Sequence[HoldingObject]) -> str:
    """Returns in words what objects hold or gained of what `field` does."""
    first, are_most = found[0], sum(each.percent for each in found) >= OF_ALL
    hold = "gained" if first.has_gained else "holds" if len(found) == 1 else "hold"
    among = f"{len(found)} of {first.of:,} {first.among(field)}"
    return f"{among} {hold}{' most' * are_most}: {'; '.join(_spelled(found))}"


def _spelled(found: Sequence[HoldingObject]) -> Iterator[str]:
    """Yields in words what objects hold: those that threads have by one thread-local hold it together."""
    alike: Dict[str, List[HoldingObject]] = {}
    for number, each in enumerate(found):
        is_of_threads = [name.how for name in each.names] == [BY_THREAD_LOCAL]
        alike.setdefault(f"{each.class_name} {each.named_by}" if is_of_threads else str(number), []).append(each)
    for group in alike.values():
        together = group[0]._replace(percent=sum(each.percent for each in group))
        yield f"{len(group)} {together}" if len(group) > 1 else str(together)


def tell_apart(found: Sequence[HoldingObject]) -> bool:
    """Tests whether objects that hold much say more than that there are some: by names which of them they are; or of
    one that it holds most, and others little. Equal parts without names say only that there are parts."""
    return any(each.names for each in found) or bool(found) and len(found) < found[0].of and found[0].percent >= OF_ALL


class PartsOfField:
    """The objects by which the field `held` holds what it holds in the dump that `probe` asks: the instances that have
    it and a value in it, or with `as_elements` the elements of its list. `uses` may know the values. `most`: if there
    surely are more elements than that, none is looked up."""

    def __init__(
        self,
        probe: Probe,
        held: Retained,
        as_elements: bool = False,
        uses: Optional[FieldUses] = None,
        most: Optional[int] = None,
    ) -> None:
        self.probe, self.held = probe, held
        self.objects = HeapObjects(probe.runs.dump)
        self._shares: Optional[ObjectShares] = None
        field = held.candidates[0]
        self._uses = uses = uses or FieldUses(self.objects)
        if as_elements:
            lists = {uses.only_target(field)} if field.kind == FIELD else probe.candidates.values_of_static(field.key)
            self.parts = elements(self.objects, lists, most, probe.runs.report.unresolved)
        else:
            self.parts = uses.of(field)
        self.names = ObjectNames(self.objects.dump)

    @property
    def is_question(self) -> bool:
        """Tests whether there are several, not too many, and they hold no more than the field: elements that something
        else leads to do."""
        if self.count < FEWEST_OBJECTS or not 1 <= len(self.parts.values) <= MOST_OBJECTS:
            return False
        return self.probe.unit.of(self.together) <= self.probe.unit.of(self.held.amount)

    @property
    def together(self) -> Amount:
        """What they hold together: elements may hold less than the field, if something else leads to them, too."""
        return self.shares.together if self.parts.are_elements else self.held.amount

    @property
    def shares(self) -> ObjectShares:
        """What each of them holds."""
        if not self.parts.are_elements:
            return self._uses.shares(self.probe, self.held.candidates[0])
        self._shares = self._shares or ObjectShares(self.probe, self.parts.values)
        return self._shares

    @property
    def count(self) -> int:
        """Among how many objects it is asked. An instance without a value is one of them if only one has a value."""
        count = len(self.parts.values)
        return count if count > 1 or self.parts.are_elements else self.held.instances

    @property
    def places(self) -> List[int]:
        """Where the objects are, and some that have the field, but no value in it."""
        return [*(each.instance for each in self.parts.values), *self.parts.others]

    def names_of(self, chosen: Sequence[int]) -> Dict[int, List[Name]]:
        """Returns the names of the objects at `chosen`. Names that others have, too, are none."""
        known = set(chosen)
        return self.names.names_of(chosen, [at for at in self.places if at not in known])

    def of_threads(self) -> Dict[Name, List[Holding]]:
        """Returns those of the objects that several threads have by the thread-local of one static field, the heaviest
        first, by that field."""
        locals_of = ThreadLocals(self.objects).by_static_field()
        found: Dict[Name, List[Holding]] = {}
        for each in self.parts.values if locals_of else ():
            name = locals_of.get(self.objects.dump.id(each.instance + 1))
            if name:
                found.setdefault(name, []).append(Holding(each, self.shares.amount(each)))
        size = self.probe.unit.of
        return {name: sorted(of, key=lambda it: -size(it.amount)) for name, of in found.items() if len(of) > 1}

    def described(self, found: Sequence[Holding], whole: Amount, name: Optional[Name] = None) -> List[HoldingObject]:
        """Returns these objects with their names, or with the name that all have, and their shares of `whole`."""
        places = [each.value.instance for each in found]
        names = {at: [name] for at in places} if name else self.names_of(places)
        return [
            HoldingObject(
                self.objects.class_name(value.instance),
                names[value.instance],
                amount,
                self.probe.unit.percent(amount, whole),
                of=self.count,
                is_element=self.parts.are_elements,
                instances=self.held.instances,
            )
            for value, amount in found
        ]


def ways(probe: Probe, held: Retained, uses: Optional[FieldUses]) -> Iterator[PartsOfField]:
    """Yields the objects to look among: the instances that have the field of a line, then the elements of its list. A
    line with several fields, a local variable or threads has none."""
    if len(held.candidates) == 1 and held.candidates[0].kind in (FIELD, STATIC):
        for as_elements in (False, True):
            found = PartsOfField(probe, held, as_elements, uses, MOST_OBJECTS)
            if found.is_question:
                yield found


def object_leading_to(
    probe: Probe, held: Retained, at: int, uses: Optional[FieldUses] = None
) -> Optional[HoldingObject]:
    """Returns the one of the objects by which `held` holds what it does that leads straight to the object at `at`, None
    if it is no question. `uses` may know the values of the field."""
    parts = PartsOfField(probe, held, uses=uses)
    target, id_at = probe.runs.dump.id(at + 1), probe.runs.dump.id
    found = [each for each in parts.parts.values if id_at(each.value) == target] if parts.is_question else []
    if len(found) != 1:
        return None
    return parts.described([Holding(found[0], parts.shares.amount(found[0]))], held.amount)[0]


def objects_with_most(probe: Probe, held: Retained, uses: Optional[FieldUses] = None) -> List[HoldingObject]:
    """Returns the objects that gained most of what the field `held` gained, or of one dump hold most of what it holds,
    the heaviest first: with what they gained if that was measured in both dumps, else with what they hold now. Returns
    nothing if many have a little each, if it is not known which gained most, or if it is no question about some of many
    objects. `uses` may know the values of the field in the later dump."""
    gain = held.amount.minus(probe.before(held.candidates).amount)
    if probe.unit.of(gain) <= 0:
        return []
    every = (GrownParts(probe, held, parts, gain).find() for parts in ways(probe, held, uses))
    return next(filter(None, every), [])


def thread_with_most(probe: Probe, held: Retained, found: Sequence[Retained]) -> Optional[HoldingObject]:
    """Returns the one of `found` that is a thread, and has most of what local variables of several threads in one
    method gained, or of one dump hold. Returns None if there is none, or if `held` is something else."""
    if held.instances == 1 or [each.kind for each in held.candidates] != [LOCAL]:
        return None
    whole = probe.gain(held.candidates)
    for each in found:
        percent = probe.unit.percent(probe.gain(each.candidates), whole)
        is_thread = [(it.kind, it.count) for it in each.candidates] == [(THREAD, 1)]
        if is_thread and percent >= OF_ALL and probe.holds_part(each, held, OF_ALL / 100):
            name = each.candidates[0].name
            class_name = _class_of_thread(probe.runs.dump, name)
            has_gained, names = isinstance(probe, GrowthProbe), [Name("its field name", f'"{name}"', True)]
            count = held.instances
            return HoldingObject(
                class_name, names, each.amount, min(100.0, percent), has_gained, count, instances=count
            )
    return None


def _class_of_thread(dump: HeapDump, name: str) -> str:
    """Returns the family of the class of the thread that is called so, as names of threads are shown."""
    objects = HeapObjects(dump)
    names, roots = objects.thread_names(), [each for each in dump.roots if each.kind == hprof.THREAD_OBJECT]
    found = objects.places_of(dump.id(each.place) for each in roots if shown_name(names.get(each.thread, "")) == name)
    return next(map(objects.class_name, found.values()), "")


class GrownParts:
    """A search for those of `now`, the parts of the field `held`, that gained most of `gain`, what the field gained: of
    one dump all that it holds."""

    def __init__(self, probe: Probe, held: Retained, now: PartsOfField, gain: Amount) -> None:
        self.probe, self.held, self.now, self.gain = probe, held, now, gain
        self.before = probe.before(held.candidates)
        #: The most that an object of which it is not known what it held before held then, in percent of the gain.
        self.most_before = self.percent(self.before.amount)
        #: What the objects held before of which that is known, by their places.
        self.known: Dict[int, Amount] = {}

    def percent(self, amount: Amount) -> float:
        """Returns the share of an amount in the gain, in percent."""
        return self.probe.unit.percent(amount, self.gain)

    def find(self) -> List[HoldingObject]:
        """Returns the objects that gained most. What one held before is at most what all did; the earlier dump is asked
        what each held only if that leaves it open, and what its heaviest held only if some are not found there."""
        found = self.now.shares.heaviest(self.gain)
        if sum(self.percent(each.amount) for each in found) < OF_ALL:
            return self._of_threads()
        certain = self._grown(found)
        is_certain = sum(self.percent(each.amount) for each in certain) - self.most_before >= OF_ALL
        if is_certain or not isinstance(self.probe, GrowthProbe):
            return self._described(certain)
        earlier = PartsOfField(self.probe.earlier, self.before, self.now.parts.are_elements)
        same = same_objects(self.now, [each.value.instance for each in found], earlier)
        if same or earlier.parts.values and len(earlier.parts.values) <= MOST_OBJECTS:
            self.known = {at: earlier.shares.amount(value) for at, value in same.items()}
            self.most_before = min(self.most_before, earlier.shares.most(self.gain))
        grown = self._grown(found)
        gains = [self.least_gain(each) for each in grown]
        if sum(gains) < OF_ALL:
            return []
        # If they gained more than the field did, others shrank: then shares of the gain would be of more than there is.
        is_measured = all(each.value.instance in self.known for each in grown) and sum(gains) <= 100
        described = self._described(grown)
        if is_measured:
            described = [it._replace(percent=gain, has_gained=True) for it, gain in zip(described, gains)]
        return sorted(described, key=lambda each: -each.percent)

    def _of_threads(self) -> List[HoldingObject]:
        """Returns the objects that several threads have by one thread-local, if these gained most together, though none
        of them gained much."""
        heavy = {name: of for name, of in self.now.of_threads().items() if self._together(of) >= OF_ALL}
        before: Dict[Name, List[Holding]] = {}
        if heavy and isinstance(self.probe, GrowthProbe):
            before = PartsOfField(self.probe.earlier, self.before, self.now.parts.are_elements).of_threads()
        for name, alike in heavy.items():
            if self._together(alike) - self._together(before.get(name, [])) >= OF_ALL:
                return self.now.described(alike, self.held.amount, name)
        return []

    def _together(self, found: Sequence[Holding]) -> float:
        """Returns the share of what objects hold in the gain, in percent."""
        return sum(self.percent(each.amount) for each in found)

    def _described(self, found: Sequence[Holding]) -> List[HoldingObject]:
        """Returns these objects with what they hold now, and the least that each gained."""
        described = self.now.described(found, self.held.amount)
        return [it._replace(least_gain=self.least_gain(each)) for it, each in zip(described, found)]

    def _grown(self, found: Sequence[Holding]) -> List[Holding]:
        """Returns those of `found` that surely gained `OF_ONE` percent or more."""
        return [each for each in found if self.least_gain(each) >= OF_ONE]

    def least_gain(self, each: Holding) -> float:
        """Returns what an object gained, in percent, or if it is not known what it held before, the least that it can
        have gained."""
        before = self.known.get(each.value.instance)
        now = self.percent(each.amount)
        return now - self.most_before if before is None else now - self.percent(before)


def same_objects(now: PartsOfField, places: Sequence[int], earlier: PartsOfField) -> Dict[int, FieldValue]:
    """Returns which of the parts of an earlier dump the objects at `places` are: the one of the same class that has a
    name of theirs which no other has in either dump. Of those without such a name it is the one that the same owner
    names, else that with the same number in a list of as many elements. An identifier alone shows nothing, since
    objects move; of many objects only that with the same one is asked for its owners."""
    alone, alone_before = (alone_in(of.names.own_names(of.places)) for of in (now, earlier))
    nameless = [at for at in places if not alone[at]]
    same = matching(now, {at: alone[at] for at in places}, earlier, alone_before)
    if nameless:
        ids, every = {now.objects.dump.id(at + 1) for at in nameless}, [
            at for at in earlier.places if not alone_before[at]
        ]
        asked = every if len(every) <= FEW else [at for at in every if earlier.objects.dump.id(at + 1) in ids]
        by_number = with_same_number(now, nameless, earlier, every)
        same = {**by_number, **same, **matching(now, now.names_of(nameless), earlier, earlier.names_of(asked))}
    return same


def matching(now: PartsOfField, names: Names, earlier: PartsOfField, names_before: Names) -> Dict[int, FieldValue]:
    """Returns which of the parts of an earlier dump objects are: of their class the only one with a name of theirs."""
    parts = {each.instance: each for each in earlier.parts.values}
    by_name: Dict[Tuple[str, Name], Set[int]] = {}
    for at in parts.keys() & names_before.keys():
        for name in names_before[at]:
            by_name.setdefault((earlier.objects.class_name(at), name), set()).add(at)
    of_name = {at: [by_name.get((now.objects.class_name(at), name), set()) for name in names[at]] for at in names}
    called = {at: set().union(*found) for at, found in of_name.items()}
    return {at: parts[found.pop()] for at, found in called.items() if len(found) == 1}


def with_same_number(
    now: PartsOfField, places: Sequence[int], earlier: PartsOfField, places_before: Sequence[int]
) -> Dict[int, FieldValue]:
    """Returns which of the objects at `places_before` those at `places` are: of their class that with the same number
    among as many elements. So a fixed array has its parts, but a list from which some went and to which others came
    has not."""
    numbers, parts = now.parts.numbers, earlier.parts
    if len(numbers) != len(parts.numbers):
        return {}
    of_class = {each.instance: earlier.objects.class_name(each.instance) for each in parts.values}
    before = {number: each for number, each in zip(parts.numbers, parts.values) if each.instance in places_before}
    pairs = ((each.instance, before[number]) for number, each in zip(numbers, now.parts.values) if number in before)
    return {at: it for at, it in pairs if at in places and now.objects.class_name(at) == of_class[it.instance]}


def hidden(found: Sequence[HoldingObject], shows_values: bool) -> List[HoldingObject]:
    """Returns objects without the texts that name them, but for names of threads, unless `shows_values`: then only what
    has the texts is said."""
    if shows_values:
        return list(found)
    return [each._replace(names=[name.hidden() for name in each.names]) for each in found]
