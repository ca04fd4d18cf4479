"""What piles up below a field that leads to no container: what one object holds by several of its fields, also by an
inherited one that has many instances elsewhere. docs/DECISIONS.md has an example: a client of HTTP.
"""

from typing import Dict, List, NamedTuple, Optional, Set

from heap_tools.candidates import FEW, FIELD, STATIC, Candidate
from heap_tools.container_sizes import container_sizes
from heap_tools.dump_side import Several, key_of
from heap_tools.heap_objects import FieldValue, HeapObjects
from heap_tools.joint_search import DeepestSearch, JointSearch, alone, by_amount, needed_of
from heap_tools.line_order import MOST
from heap_tools.object_names import ObjectNames
from heap_tools.object_parts import FieldUses
from heap_tools.object_shares import amounts_of
from heap_tools.probe import GrowthProbe, Probe, Retained
from heap_tools.reports import Amount
from heap_tools.search import Search
from heap_tools.which_object import HoldingObject


def find_below(search: Search, upper: Optional[Retained], uses: FieldUses) -> List[Retained]:
    """Finds what fields that the instances of one class have, inherited ones too, hold only together: of what `upper`
    holds, if that leads to no container, and what fields of few instances do; or of all that grew, if nothing that
    lasts holds it. `uses` may know the values of fields."""
    probe = search.probe
    if upper and leads_to_container(probe, upper, uses):
        return []
    needed = needed_below(search, upper)
    lower = joint_below(search, upper) if upper else []
    is_enough = len(lower) > 1 and probe.share(lower) >= search.at_least
    needed += [lower] if is_enough and lead_apart(probe, lower, uses) else []
    known = {held.key for held in search.found}
    found = {key_of(each): by_amount(probe, each) for each in needed if key_of(each) not in known}
    return [probe.retained(each)._replace(candidates=each) for each in found.values()]


def needed_below(search: Search, upper: Optional[Retained]) -> List[Several]:
    """Returns of each class the fields that hold enough only together: nothing below several, since each of these leads
    to other objects."""
    if upper and len(upper.candidates) > 1:
        return []
    probe, every = search.probe, search.probe.candidates.units().items()
    units = {key_of(unit): unit for name, unit in every if not upper or name in upper.lost}
    heavy = [unit for unit in units.values() if probe.share(unit) >= search.at_least]
    return [each for each in (needed_of(probe, search.at_least, unit) for unit in heavy) if each]


def joint_below(search: Search, upper: Retained) -> Several:
    """Returns the fields of few instances below `upper` that hold enough only together, none if there are none: below
    several the deepest that gained most of what these did. Mostly all fields hold too little so in the later dump."""
    probe, fields = search.probe, fields_below(search.probe, upper)
    is_several = len(upper.candidates) > 1
    at_least = MOST * probe.share(upper.candidates) if is_several else search.at_least
    if not fields or probe.unit.percent(probe.beside(fields, alone(fields)), probe.growth) < at_least:
        return []
    return (DeepestSearch if is_several else JointSearch)(probe, at_least, fields).find()


def fields_below(probe: Probe, upper: Retained) -> List[Candidate]:
    """Returns the fields of few instances that may be below `upper`: those that do not hold all that it does."""
    fields = [each for each in probe.candidates.few() if each.kind == FIELD]
    probe.ask_together([upper.candidates, *([each] for each in fields)])
    return [each for each in fields if not probe.holds_all(probe.retained([each]), upper)]


def lead_apart(probe: Probe, fields: Several, uses: FieldUses) -> bool:
    """Tests whether no two fields lead to one object: two containers may have the same elements, but what two fields
    lead to themselves is where things pile up."""
    targets = [_targets(probe, each, uses) for each in fields]
    return all(targets) and sum(map(len, targets)) == len(set().union(*targets))


def leads_to_container(probe: Probe, held: Retained, uses: FieldUses) -> bool:
    """Tests whether it may be in what one of the candidates of `held` leads to that many things pile up: in an object
    that has more than `FEW` elements, in one of more than `FEW` objects, or below a local variable or threads."""
    every = [_targets(probe, each, uses) for each in held.candidates]
    if not all(1 <= len(targets) <= FEW for targets in every):
        return True
    return max(container_sizes(uses.objects, set().union(*every)).values(), default=0) > FEW


def _targets(probe: Probe, field: Candidate, uses: FieldUses) -> Set[int]:
    """Returns the identifiers of the objects to which a field leads."""
    if field.kind not in (FIELD, STATIC):
        return set()
    id_at = probe.runs.dump.id
    if field.kind == STATIC:
        return probe.candidates.values_of_static(field.key)
    return {id_at(each.value) for each in uses.of(field).values}


class PartsOfObjects(NamedTuple):
    """The parts of what is held by several fields, or of what was gained, that objects have which have all these
    fields: the one that surely has most of it, and all of them together, each by its own fields."""

    of_one: float = 0.0
    of_each: float = 0.0


def parts_of_objects(probe: Probe, held: Retained) -> PartsOfObjects:
    """Returns the parts of what `held` holds by several fields, or of what it gained. One object surely has what the
    largest holds now, less what the largest held before. Both are 0 if more than `FEW` have these fields."""
    now = _amounts(probe, held.candidates)
    was = _amounts(probe.earlier, held.candidates) if isinstance(probe, GrowthProbe) else [0]
    whole = probe.unit.of(held.amount.minus(probe.before(held.candidates).amount))
    if whole <= 0:
        return PartsOfObjects()
    return PartsOfObjects(max(0, max(now) - max(was)) / whole, max(0, sum(now) - sum(was)) / whole)


def object_with_most(probe: Probe, held: Retained) -> Optional[HoldingObject]:
    """Returns the object that holds most by the fields of `held`, of those that have a value in each, None if there are
    none, or more than `FEW`."""
    every = _objects_with(probe, held.candidates)
    if not every:
        return None
    at = max(every, key=lambda it: probe.unit.of(every[it]))
    names = ObjectNames(probe.runs.dump).names_of([at], [other for other in every if other != at])
    percent, of = probe.unit.percent(every[at], held.amount), len(every)
    class_name = HeapObjects(probe.runs.dump).class_name(at)
    return HoldingObject(class_name, names[at], every[at], percent, of=of, instances=of)


def _amounts(probe: Probe, fields: Several) -> List[int]:
    """Returns how much each object holds by `fields` that has a value in each: one 0 if there are none, or more than
    `FEW`."""
    return [*map(probe.unit.of, _objects_with(probe, fields).values())] or [0]


def _objects_with(probe: Probe, fields: Several) -> Dict[int, Amount]:
    """Returns the objects that have a value in each of `fields`, by their places, with what each holds by these; none
    if they are more than `FEW`."""
    values = HeapObjects(probe.runs.dump).values_of([each.name for each in fields])
    by_object: Dict[int, List[FieldValue]] = {}
    for each in values:
        if probe.runs.dump.id(each.value):
            by_object.setdefault(each.instance, []).append(each)
    every = {at: of_object for at, of_object in by_object.items() if len(of_object) == len(fields)}
    amounts = amounts_of(probe, list(every.values())) if 1 <= len(every) <= FEW else []
    return dict(zip(every, amounts))
