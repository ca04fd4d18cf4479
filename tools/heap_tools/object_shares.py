"""What objects hold by one reference each: that of many objects is asked in one run, and each share is exact."""

from typing import Iterator, List, NamedTuple, Sequence, Set, Tuple

from heap_tools.dump_side import ask_places
from heap_tools.heap_objects import FieldValue, HeapObjects
from heap_tools.held_table import HeldTable
from heap_tools.probe import Probe
from heap_tools.reports import Amount

#: The share in percent that one object must have to be named.
OF_ONE = 20
#: Of how many objects it is looked up what they hold.
HEAVIEST = 32
#: The part of what an object holds that it must hold by itself, nearer than any other one: the first node of a linked
#: list does not.
BY_ITSELF = 0.5


class Holding(NamedTuple):
    """An object, by its reference, and what it holds by that."""

    value: FieldValue
    amount: Amount


class ObjectShares:
    """What objects hold by their references `values` in the dump that `probe` asks, in one run: `together` is what all
    of them do. In `table` all have the label 0, and each one of those after it. `heavy` are the numbers of those that
    hold most, at most `HEAVIEST`: only of these it is looked up how many objects and bytes they hold."""

    def __init__(self, probe: Probe, values: Sequence[FieldValue]) -> None:
        self.probe, self.values, objects = probe, values, HeapObjects(probe.runs.dump)
        places = [objects.place_of(value) for value in values]
        (self.table,) = ask_places([(probe.side, [places, *([it] for it in places)])])
        self.together = held_amount(probe, self.table, 0)
        self._weights = probe.side.weights(probe.families, probe.unit)
        self._held = [0.0] * len(values)
        lines = list(self._lines())
        for amount, numbers in lines:
            for number in numbers:
                self._held[number] += amount
        #: How much of what it holds each object holds nearer than any other one: of two that hold something both, one
        #: holds all that the other one does, which holds less.
        self._nearest = [0.0] * len(values)
        for amount, numbers in lines:
            self._nearest[min(numbers, key=lambda it: self._held[it])] += amount
        self.heavy = sorted(range(len(values)), key=lambda it: -self._held[it])[:HEAVIEST]

    def _lines(self) -> Iterator[Tuple[float, List[int]]]:
        """Yields how much some of the objects hold together that no others do, and these."""
        for each in self.table.sets_with(0):
            numbers = [label - 1 for label in self.table.labels_of(each) if label]
            if numbers:
                yield self.table.total(each, self._weights), numbers

    def amount(self, value: FieldValue) -> Amount:
        """Returns what one of the objects holds."""
        return self.amount_of([self.values.index(value)])

    def amount_of(self, numbers: Sequence[int]) -> Amount:
        """Returns what the objects of some numbers hold, each by itself: what several of them do counts once."""
        sets = frozenset().union(*(self.table.sets_with(1 + number) for number in numbers))
        return self.probe.amount_of(self.probe.side.held(self.table, sets))

    def most(self, whole: Amount) -> float:
        """Returns the most that one of them holds, in percent of `whole`."""
        return max((self.probe.unit.percent(self.amount_of([it]), whole) for it in self.heavy), default=0.0)

    def part_of_largest(self, count: int) -> float:
        """Returns the part of what all hold together that `count` of them hold by themselves, those that hold most
        so."""
        whole = sum(self.table.total(it, self._weights) for it in self.table.sets_with(0))
        return sum(sorted(self._nearest, reverse=True)[:count]) / max(1, whole)

    def heaviest(self, whole: Amount) -> List[Holding]:
        """Returns the objects that hold `OF_ONE` percent of `whole` or more, most of that by themselves, and nothing
        that another one of them holds, the heaviest first."""
        unit, found = self.probe.unit, []
        taken: Set[int] = set()
        for number in self.heavy:
            amount, sets = self.amount_of([number]), self.table.sets_with(1 + number)
            is_heavy = unit.percent(amount, whole) >= OF_ONE and self._nearest[number] >= BY_ITSELF * self._held[number]
            if is_heavy and sets.isdisjoint(taken):
                taken |= sets
                found.append(Holding(self.values[number], amount))
        return sorted(found, key=lambda each: -unit.of(each.amount))


def held_amount(probe: Probe, table: HeldTable, label: int) -> Amount:
    """Returns how much a label holds of what is asked for."""
    return probe.amount_of(probe.side.held(table, table.sets_with(label)))


def amounts_of(probe: Probe, lists: Sequence[Sequence[FieldValue]]) -> List[Amount]:
    """Returns what the references of each list hold together, asked in one run."""
    objects = HeapObjects(probe.runs.dump)
    (table,) = ask_places([(probe.side, [[objects.place_of(value) for value in values] for values in lists])])
    return [held_amount(probe, table, number) for number in range(len(lists))]
