"""What holds much of what is asked for, as lines: `line_order.py` has their order, `leak_answer.py` what `leaks` shows
of them."""

import dataclasses
import math
from typing import FrozenSet, List, NamedTuple, Optional, Sequence

from heap_tools.candidates import FEW, FIELD, STATIC, Candidate, joint_name
from heap_tools.dump_side import GroupKey, Several, key_of
from heap_tools.fields_of_object import find_below, object_with_most, parts_of_objects
from heap_tools.heap_objects import HeapObjects
from heap_tools.lasting_elements import LastingElements
from heap_tools.line_features import Features, evenness
from heap_tools.line_order import CHAIN, HARDLY_ANY, MOST, MOST_ASKED, NEARLY, LineOrder, Scoring
from heap_tools.object_parts import MOST_OBJECTS, FieldUses
from heap_tools.joint_search import by_amount, deepened, joint_answers, joint_roots
from heap_tools.path_roots import PathRoots, RootsAbove
from heap_tools.probe import GrowthProbe, Probe, Retained
from heap_tools.reference_paths import ReferencePaths, is_root
from heap_tools.reports import Amount
from heap_tools.search import Search
from heap_tools.which_object import (
    HoldingObject,
    PartsOfField,
    object_leading_to,
    objects_with_most,
    tell_apart,
    thread_with_most,
)


class LineObjects(NamedTuple):
    """The objects that gained most of what a field did, and what that is: a line's own, or one above it or below it."""

    held: Retained
    objects: List[HoldingObject]


class Line(NamedTuple):
    """What was found: what it held, what it holds, the share of all that is asked for in percent, what is above it, how
    many instances have it and had it, what it held in dumps between, the objects that gained most of it, or of what is
    above it or below it, how many elements the containers have and had to which it leads, if that is known, and the
    roots above it, if its path begins at a field."""

    held: Retained
    before: Amount
    share: float
    above: List[Retained]
    instances: int
    instances_before: int
    between: Sequence[Amount] = ()
    objects: Optional[LineObjects] = None
    elements: Optional[int] = None
    elements_before: Optional[int] = None
    roots: Optional[RootsAbove] = None

    def path(self) -> str:
        """Returns the way from the top down to what was found."""
        return " > ".join(joint_name(each.candidates) for each in [*self.above, self.held])


class Lines:
    """What a search has found, in the order of `line_order`: of one dump by what it holds. `between` are dumps between
    the first and the last. What is named in `above` is none: it is above a line that there is already."""

    def __init__(
        self,
        search: Search,
        probe: Probe,
        between: Sequence[Probe] = (),
        above: FrozenSet[GroupKey] = frozenset(),
    ) -> None:
        self.search, self.probe, self.between, self.found = search, probe, between, search.found
        self.scoring = Scoring.GAIN if isinstance(probe, GrowthProbe) else Scoring.SHARE
        #: What is not found, but may have held before what a line holds now.
        self.others: List[Retained] = []
        if self.scoring is Scoring.GAIN:
            self.others = [*search.steady, *(probe.retained(kin) for kin in map(self._kin, self.found) if kin)]
        self.every = [*self.found, *self.others]
        self.uses = uses_of(self.found, probe)
        earlier = probe.earlier if isinstance(probe, GrowthProbe) else probe
        #: What knows the values in the first dump of those fields of which it is asked how many these were.
        self.uses_before = uses_of(list(filter(self._may_have_come, self.found)), earlier)
        self.features = [
            self._features(held, number < len(self.found) and held.key not in above)
            for number, held in enumerate(self.every)
        ]

    def sorted(self) -> List[Retained]:
        """Returns what was found, the answer first."""
        return [self.every[number] for number in self._order().sorted()]

    def lasts(self) -> bool:
        """Tests whether something of what was found lasts: if not, only new objects hold what grew."""
        return self._order().lasts()

    def ask_for_objects(self) -> Optional[LineObjects]:
        """Asks of some lines which objects gained most, and notes if it is one. Returns them; if there are none, what
        leads to the answer if that is one object. A thread that has most of the answer says more than an object without
        a name."""
        self._ask_for_new()
        several = None
        for number in self._order().to_ask():
            objects = objects_with_most(self.probe, self.every[number], self.uses)
            if len(objects) == 1 and not objects[0].is_element:
                of_one = objects[0].of_gain / 100
                self.features[number] = dataclasses.replace(self.features[number], of_one=of_one)
                found = LineObjects(self.every[number], objects)
                return found if objects[0].names else self._thread_of_answer() or found
            if several is None and tell_apart(objects):
                several = LineObjects(self.every[number], objects)
        return several or self._leading_to_answer() or self._thread_of_answer()

    def _thread_of_answer(self) -> Optional[LineObjects]:
        """Returns which thread gained most of what the answer did, if that is a method that several are in."""
        answer = self._order().answer()
        found = None if answer is None else thread_with_most(self.probe, self.every[answer], self.found)
        return LineObjects(self.every[answer], [found]) if answer is not None and found else None

    def _ask_for_new(self) -> None:
        """Asks of lines that decide the order, and whose scores are averages, what their new instances can hold at
        most, and notes it."""
        for _ in range(MOST_ASKED):
            number = self._order().to_ask_of_new()
            if number is None:
                return
            line, parts = self.features[number], PartsOfField(self.probe, self.every[number], uses=self.uses)
            came = math.ceil(line.part_came * line.with_value)
            of_largest = parts.shares.part_of_largest(came) if parts.is_question else 0.0
            self.features[number] = dataclasses.replace(line, of_largest=of_largest)

    def _leading_to_answer(self) -> Optional[LineObjects]:
        """Returns which of several objects leads to the answer, if only one object has that field, and what names it:
        it has the field of the nearest line above of which that is known."""
        answer = self._order().answer()
        if answer is None or self.every[answer].instances > 1 or not is_field(self.every[answer]):
            return None
        held, least = self.every[answer], self.every[answer].heap.objects
        above = [it for it in self.found if is_field(it) and it.instances > 1 and it.heap.objects >= least]
        for upper in sorted(above, key=lambda it: it.heap.objects):
            for only in self.uses.of(held.candidates[0]).values:
                found = object_leading_to(self.probe, upper, only.instance, self.uses)
                if found and found.names:
                    return LineObjects(upper, [found])
        return None

    def ask_for_elements(self) -> None:
        """Asks what elements of the answer's container that were there before gained by fields below it, and notes it:
        what leaks may have these fields, too, such as nodes of a tree."""
        order, probe = self._order(), self.probe
        answer, asked = order.answer(), order.to_ask_of_elements()
        if answer is None or not asked or not isinstance(probe, GrowthProbe):
            return
        elements = LastingElements(probe, self.every[answer], self.uses)
        for number in asked:
            line = self.features[number]
            of_elements = elements.gain(self.every[number].candidates[0]) / line.gain
            self.features[number] = dataclasses.replace(line, of_elements=of_elements)

    def ask_below(self) -> bool:
        """Asks of several fields below the answer whether one object gained most by them, or each its part; if the
        answer leads to no container, or only new objects hold it, searches for such fields. Returns whether they are
        the answer now."""
        answer = self._order().answer()
        if answer is None:
            return False
        for number, held in enumerate(self.found):
            if len(held.candidates) > 1 and all(each.kind == FIELD for each in held.candidates):
                if number != answer and self._holds(answer, number):
                    self.features[number] = self._with_parts(self.features[number], held)
        for upper in find_below(self.search, self.every[answer] if self.lasts() else None, self.uses):
            group = by_amount(self.probe, deepened(self.probe, upper.candidates))
            held = self.probe.retained(group)._replace(candidates=group)
            self.search.found.append(held)
            self.every.append(held)
            self.features.append(self._with_parts(self._features(held, True), upper))
        return self._order().answer() != answer

    def object_of_several(self) -> Optional[LineObjects]:
        """Returns which object gained most of what the answer did, if that is several fields of one of some objects."""
        answer = self._order().answer()
        if answer is None or not self.features[answer].of_one:
            return None
        held = self.every[answer]
        found = object_with_most(self.probe, held)
        return LineObjects(held, [found]) if found and tell_apart([found]) else None

    def _with_parts(self, line: Features, held: Retained) -> Features:
        """Returns a line that knows the parts of what several fields gained that one object has, and that all have
        which have these fields, if that is most."""
        of_one, of_each = (part if part >= MOST else 0.0 for part in parts_of_objects(self.probe, held))
        return dataclasses.replace(line, of_one=of_one, of_each=of_each)

    def _order(self) -> LineOrder:
        return LineOrder(self.features, self._holds, self.scoring)

    def _holds(self, upper: int, lower: int) -> bool:
        """Tests whether a line holds nearly all that another one does: a field of a general class, such as a list of a
        library, nearly always has an instance elsewhere, too."""
        return self.probe.holds_part(self.every[upper], self.every[lower], NEARLY)

    def _features(self, held: Retained, is_line: bool) -> Features:
        """Returns what the order has to know of `held`."""
        probe, candidates, was = self.probe, held.candidates, self.probe.before(held.candidates)
        classes = frozenset().union(*(each.classes for each in candidates))
        of_its_kind = sum(held.lost.get(name, Amount()).objects for name in classes)
        with_value = self._with_value(held) if is_line else held.instances
        return Features(
            name=joint_name(candidates),
            kinds=tuple(each.kind for each in candidates),
            is_own=held.is_own,
            is_collection=all(each.is_collection for each in candidates),
            instances=held.instances,
            with_value=with_value,
            instances_before=probe.instances_before(candidates),
            with_value_before=self._with_value_before(held),
            amount=probe.unit.of(held.amount),
            before=probe.unit.of(was.amount),
            heap=held.heap.objects,
            gains={name: amount.minus(was.lost.get(name, Amount())).objects for name, amount in held.lost.items()},
            evenness=self._evenness(held) if is_line else 1.0,
            is_chain=min(of_its_kind, with_value) > CHAIN * held.instances,
            is_line=is_line,
        )

    def _with_value(self, held: Retained) -> int:
        """Returns how many instances have a value in a line's field: of several some may have none."""
        may_be_null = is_field(held) and held.instances > 1
        return max(1, with_value_of(held, held.instances, self.uses)) if may_be_null else held.instances

    def _with_value_before(self, held: Retained) -> int:
        """Returns how many instances had a value in a line's field in the first dump, or all if that makes no
        difference."""
        every = self.probe.instances_before(held.candidates)
        return with_value_of(held, every, self.uses_before) if self._may_have_come(held) else every

    def _may_have_come(self, held: Retained) -> bool:
        """Tests whether it matters how many instances of a line had a value in the first dump: there are more now, and
        some have none."""
        is_growth = self.scoring is Scoring.GAIN
        return is_growth and self.probe.instances_before(held.candidates) < held.instances > self._with_value(held)

    def _evenness(self, held: Retained) -> float:
        """Returns how evenly `held` gained over the dumps that are asked."""
        if not self.between or not isinstance(self.probe, GrowthProbe):
            return 1.0
        probes = [self.probe.earlier, *self.between, self.probe]
        amounts = [self.probe.unit.of(each.retained(held.candidates).amount) for each in probes]
        return evenness(amounts, [each.runs.dump.time for each in probes])

    def _kin(self, held: Retained) -> List[Candidate]:
        """Returns the fields of the class that declares the field `held`, static ones if it is static, if it held
        hardly anything before: then another one of them may have held the same objects. Returns nothing if they held so
        little before that they gained half of what the field did, or more, since they hold all that it does."""
        now, was = (self.probe.unit.of(each.amount) for each in (held, self.probe.before(held.candidates)))
        if len(held.candidates) > 1 or was > HARDLY_ANY * now:
            return []
        only = held.candidates[0]
        kin = self.probe.candidates.kin().get((only.kind, only.owner), [])
        had = self.probe.unit.of(self.probe.before(kin).amount) if len(kin) > 1 else 0
        return kin if now - had < MOST * (now - was) else []


def is_field(held: Retained) -> bool:
    """Tests whether a line is one field of instances."""
    return len(held.candidates) == 1 and held.candidates[0].kind == FIELD


def with_value_of(held: Retained, every: int, uses: FieldUses) -> int:
    """Returns how many of `every` instances have a value in the field `held`, by `uses`: all if too many have one to
    count them."""
    count = uses.count(held.candidates[0])
    return min(count, every) if count <= MOST_OBJECTS else every


def uses_of(found: Sequence[Retained], probe: Probe) -> FieldUses:
    """Returns what knows the values of the fields among what was found."""
    return FieldUses(HeapObjects(probe.runs.dump), [held.candidates[0] for held in found if is_field(held)])


def searched(probe: Probe, at_least: float) -> Search:
    """Searches for what holds `at_least` percent of what the probe asks for, alone or together. Of one dump it is not
    asked what static fields hold only together, unless no root is found: in any dump that is much."""
    search, few = Search(probe, at_least), probe.candidates.few()
    search.find()
    threads = {place for held in search.found for each in held.candidates if each.is_thread for place in each.places}
    left = [each for each in few if not (each.is_thread and threads.intersection(each.places))]
    has_statics = isinstance(probe, GrowthProbe)
    find_joint(search, [each for each in left if each.kind != STATIC or has_statics], few)
    if not any(map(is_root, search.found)):
        add_joint(search, joint_roots(probe, at_least, roots_of(left), roots_of(few)))
    return search


def find_joint(search: Search, candidates: Several, known: Several) -> None:
    """Adds those of `candidates` that hold enough only together. It was asked what all of `known` hold."""
    explained = [held.candidates for held in search.found if explains(held)]
    add_joint(search, joint_answers(search.probe, search.at_least, explained, candidates, known))


def add_joint(search: Search, found: Sequence[Several]) -> None:
    """Adds groups to what a search has found, each once."""
    for group in found:
        if key_of(group) not in {held.key for held in search.found}:
            search.found.append(search.probe.retained(group)._replace(candidates=group))


def roots_of(candidates: Several) -> Several:
    """Returns those of some candidates that are no fields of instances."""
    return [each for each in candidates if each.kind != FIELD]


def explains(held: Retained) -> bool:
    """Tests whether what is found leaves nothing to ask of what it holds: it has few instances. What threads and
    variables of lambdas lead to may be held together below."""
    return held.instances <= FEW and not any(each.is_thread or each.is_captured for each in held.candidates)


class Ranking(NamedTuple):
    """What a search has found, the answer first, whether some of it lasts, what asked for it, of dumps between, too,
    what is above what, the objects that gained most of the answer, or of what is above it or below it, and what leads
    to paths that begin at a field."""

    ranked: List[Retained]
    is_lasting: bool
    probe: Probe
    between: Sequence[Probe]
    paths: ReferencePaths
    objects: Optional[LineObjects]
    roots: PathRoots

    def line(self, number: int, whole: Probe, of: Amount) -> Line:
        """Returns what was found as a line: its share is of `of`, its instances are those of what `whole` asks for, or
        those of running calls if these count only now."""
        held, probe = self.ranked[number], self.probe
        group, above = held.candidates, self.paths.above(held)
        return Line(
            held,
            probe.before(group).amount,
            probe.unit.percent(probe.gain(group), of),
            above,
            max(whole.instances(group), probe.instances(group)),
            max(whole.instances_before(group), probe.instances_before(group)),
            [each.retained(group).amount for each in self.between],
            self.objects if number == 0 else None,
            roots=self.roots.above([*above, held]),
        )


def ranking_of(search: Search, between: Sequence[Probe], above: FrozenSet[GroupKey]) -> Ranking:
    """Returns what a search has found, in its order, without what is named in `above`."""
    lines = Lines(search, search.probe, between, above)
    objects = lines.ask_for_objects()
    lines.ask_for_elements()
    objects = lines.object_of_several() if lines.ask_below() else objects
    ranked, is_lasting = lines.sorted(), lines.lasts()
    paths = ReferencePaths(search.probe, [*search.found, *search.steady])
    roots = PathRoots(search.probe, lines.uses)
    return Ranking(ranked, is_lasting, search.probe, between, paths, objects, roots)
