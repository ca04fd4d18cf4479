"""What candidates retain, looked up in tables of a dump: and how much of the growth between two."""

from typing import Callable, Dict, List, NamedTuple, Optional, Sequence

from heap_tools.candidates import Candidates
from heap_tools.dump_runs import DumpRuns
from heap_tools.dump_side import DumpSide, Several, GroupKey, GroupTable, Held, ask, key_of
from heap_tools.reports import Amount, Report, Unit
from heap_tools.what_counts import first_groups


class Retained(NamedTuple):
    """What `candidates` hold together: how much of what is asked for, how much of the heap, and how much of each
    family."""

    candidates: Several
    amount: Amount
    heap: Amount
    lost: Dict[str, Amount]

    @property
    def instances(self) -> int:
        """How many instances have the fields, or threads the local variables, in all."""
        return sum(each.count for each in self.candidates)

    @property
    def is_own(self) -> bool:
        """Tests whether one of them is of an own class."""
        return any(each.is_own for each in self.candidates)

    @property
    def key(self) -> GroupKey:
        """The name of what holds it."""
        return key_of(self.candidates)


class Probe:
    """Looks up what candidates hold of `families`, or of all that is reachable if that is None: `whole` is how much of
    it is reachable. Shares are in `unit`, of all that is asked for, or of `of`. Groups that no table of `side` knows
    are asked for, and with them those that are `kept`, so that it is known what both hold."""

    def __init__(self, side: DumpSide, families: Optional[List[str]], unit: Unit, of: Optional[Amount] = None) -> None:
        self.side, self.families, self.unit = side, families, unit
        self.whole = self.base.total(families)
        #: What shares are of: of one dump all that is asked for, as if the heap had been empty before.
        self.growth = self.whole if of is None else of
        self.kept: List[Several] = []
        self._known: Dict[GroupKey, Retained] = {}

    @property
    def runs(self) -> DumpRuns:
        """The dump."""
        return self.side.runs

    @property
    def candidates(self) -> Candidates:
        """What can hold objects in the dump."""
        return self.side.candidates

    @property
    def base(self) -> Report:
        """What is reachable."""
        return self.side.base

    def sides(self) -> List[DumpSide]:
        """Returns the dumps that are asked."""
        return [self.side]

    def without(self, group: Several) -> "Probe":
        """Returns what asks the same of what is left without a group: what each candidate holds is known."""
        return Probe(asked_without(self, group)[0], self.families, self.unit, self.growth.minus(self.gain(group)))

    def knows(self, groups: Sequence[Several]) -> bool:
        """Tests whether it is known of all dumps what each of `groups` holds."""
        return all(side.knows(key_of(each)) for each in groups for side in self.sides())

    def ask(self, groups: Sequence[Several]) -> None:
        """Asks all dumps at once what `groups` hold that are not known."""
        unknown = [each for each in groups if not self.knows([each])]
        if unknown:
            ask([(side, [*unknown, *self.kept]) for side in self.sides()])

    def knows_together(self, groups: Sequence[Several]) -> bool:
        """Tests whether each dump has a table that knows all of `groups`."""
        return all(side.knows(*map(key_of, groups)) for side in self.sides())

    def ask_together(self, groups: Sequence[Several]) -> None:
        """Asks all dumps at once for a table that knows all of `groups`, unless each has one."""
        if not self.knows_together(groups):
            ask([(side, [*groups, *self.kept]) for side in self.sides()])

    def retained(self, group: Several) -> Retained:
        """Returns what a group holds: what is not reachable without it."""
        key = key_of(group)
        if key not in self._known:
            self.ask([group])
            table = self.side.knows(key)
            assert table
            held = self.side.held(table.table, table.sets(key))
            self._known[key] = Retained(group, self.amount_of(held), held.heap, held.families)
        return self._known[key]

    def amount_of(self, held: Held) -> Amount:
        """Returns how much of what is asked for is held."""
        if self.families is None:
            return held.heap
        amounts = [held.families.get(name, Amount()) for name in self.families]
        return Amount(sum(each.objects for each in amounts), sum(each.bytes for each in amounts))

    def before(self, group: Several) -> Retained:
        """Returns what a group held before: of one dump nothing."""
        return Retained(group, Amount(), Amount(), {})

    def instances_before(self, group: Several) -> int:
        """Returns how many instances a group had before: of one dump none."""
        return 0

    def instances(self, group: Several) -> int:
        """Returns how many instances what has the names of the candidates has in this dump."""
        return sum(self.candidates.instances(each.key, self.base) for each in group)

    def gain(self, group: Several) -> Amount:
        """Returns what a group holds more than before."""
        return self.retained(group).amount.minus(self.before(group).amount)

    def share(self, group: Several) -> float:
        """Returns the share of the growth that a group gained, in percent."""
        return self.unit.percent(self.gain(group), self.growth)

    def bound(self, group: Several) -> float:
        """Returns a share of the growth in percent that no part of `group` exceeds: that of what the group holds."""
        return self.unit.percent(self.retained(group).amount, self.growth)

    def beside(self, group: Several, others: Sequence[Several]) -> Amount:
        """Returns what a group holds and none of `others` does alone."""
        table = self._table_of(group, *others)
        sets = table.sets(key_of(group)) - table.sets_of_any(map(key_of, others))
        return self.amount_of(self.side.held(table.table, sets))

    def gain_beside(self, group: Several, others: Sequence[Several]) -> Amount:
        """Returns how much more that is than before."""
        return self.beside(group, others)

    def holds_all(self, upper: Retained, lower: Retained) -> bool:
        """Tests whether `upper` holds all that `lower` does."""
        return self.holds_part(upper, lower, 1.0)

    def holds_part(self, upper: Retained, lower: Retained, part: float) -> bool:
        """Tests whether `upper` holds at least this part of the objects that `lower` does."""
        table = self._table_of(upper.candidates, lower.candidates)
        both = table.sets(upper.key) & table.sets(lower.key)
        return table.table.objects_in(both) >= part * lower.heap.objects

    def _table_of(self, *groups: Several) -> GroupTable:
        """Returns a table that knows all of some groups, which is asked for if there is none."""
        keys = list(map(key_of, groups))
        if not self.side.knows(*keys):
            ask([(self.side, [*groups, *self.kept])])
        found = self.side.knows(*keys)
        assert found
        return found


class GrowthProbe(Probe):
    """Looks up what candidates hold in a later dump, and by `earlier` how much of it they held before. Shares are of
    the growth."""

    def __init__(self, earlier: DumpSide, side: DumpSide, families: Optional[List[str]], unit: Unit) -> None:
        super().__init__(side, families, unit)
        self.earlier = Probe(earlier, families, unit)
        self.growth = self.whole.minus(self.earlier.whole)

    def sides(self) -> List[DumpSide]:
        """Returns the dumps that are asked."""
        return [self.side, self.earlier.side]

    def without(self, group: Several) -> "GrowthProbe":
        """Returns what asks the same of what is left without a group: what each candidate holds is known."""
        side, earlier = asked_without(self, group)
        return GrowthProbe(earlier, side, self.families, self.unit)

    def before(self, group: Several) -> Retained:
        """Returns what a group held before."""
        return self.earlier.retained(group)

    def gain_beside(self, group: Several, others: Sequence[Several]) -> Amount:
        """Returns how much more a group holds than before that none of `others` does alone."""
        return self.beside(group, others).minus(self.earlier.beside(group, others))

    def instances_before(self, group: Several) -> int:
        """Returns how many instances a group had before."""
        return self.earlier.instances(group)


def asked_without(probe: Probe, group: Several) -> List[DumpSide]:
    """Returns the dumps that `probe` asks without a group, and asks them at once what each candidate holds then."""
    sides = [side.without(group) for side in probe.sides()]
    groups = first_groups(sides[0])
    ask([(side, groups) for side in sides])
    return sides


#: Returns what knows of some groups what they hold in dumps between the first and the last, without what is cut.
Between = Callable[[Sequence[Several], Several], List[Probe]]


class RunningCalls(NamedTuple):
    """The same question if running calls count, which do not for the first lines. `whole`: how much is asked for then,
    which shares are of. `without` returns what asks for what some candidates leave, `between` knows dumps between."""

    whole: Amount
    without: Callable[[Several], Probe]
    between: Between


def nothing_between(groups: Sequence[Several], cut: Several) -> List[Probe]:
    """Returns what knows of dumps between the first and the last, if there are none."""
    return []
