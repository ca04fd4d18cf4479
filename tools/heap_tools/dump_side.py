"""A dump as it is asked: which references do not count, and what groups of candidates hold then."""

import contextlib
from typing import Dict, FrozenSet, Iterable, List, NamedTuple, Optional, Sequence, Tuple

from heap_tools.candidates import Candidate, Candidates, Key
from heap_tools.class_names import family
from heap_tools.dump_file import unchanged
from heap_tools.dump_runs import DumpRuns
from heap_tools.held_table import HeldTable, RowPart, RowParts, by_row
from heap_tools.label_text import Labels, Place
from heap_tools.object_sizes import AS_WRITTEN, Linear
from heap_tools.reports import Amount, Report, Row, Unit
from heap_tools.retained_program import LabelledDump

#: What may hold something together.
Several = Sequence[Candidate]
#: The name of a group, which does not depend on its order, nor on the dump.
GroupKey = FrozenSet[Key]


def key_of(group: Iterable[Candidate]) -> GroupKey:
    """Returns the name of a group."""
    return frozenset(each.key for each in group)


class Held(NamedTuple):
    """How much is held of each family, and of the whole heap."""

    families: Dict[str, Amount]
    heap: Amount


class GroupTable(NamedTuple):
    """A table, and the label of each group that it knows."""

    table: HeldTable
    labels: Dict[GroupKey, int]

    def sets(self, key: GroupKey) -> FrozenSet[int]:
        """Returns the sets of the lines that a group holds."""
        return self.table.sets_with(self.labels[key])

    def sets_of_any(self, keys: Iterable[GroupKey]) -> FrozenSet[int]:
        """Returns the sets of the lines that one of some groups holds alone."""
        return frozenset().union(*map(self.sets, keys))


class DumpSide:
    """A dump in which the references at `cut` are not followed, and the objects `roots` are roots, too. It keeps each
    table that it got."""

    def __init__(
        self, runs: DumpRuns, candidates: Candidates, cut: Sequence[Place] = (), roots: Sequence[int] = ()
    ) -> None:
        self.runs, self.candidates, self.cut, self.roots = runs, candidates, list(dict.fromkeys(cut)), roots
        self.tables: List[GroupTable] = []
        self._base: Optional[Report] = None
        #: What is reachable, in bytes of the dump.
        self.written: RowParts = {}

    def without(self, group: Several) -> "DumpSide":
        """Returns the same dump, in which the references of a group are not followed either."""
        return DumpSide(self.runs, self.candidates, [*self.cut, *self.places(group)], self.roots)

    @property
    def base(self) -> Report:
        """The report of the dump as it is asked. Nothing is known before something was asked."""
        assert self._base
        return self._base

    def places(self, group: Several) -> List[Place]:
        """Returns the places of the references of a group: those of the same names in this dump."""
        return [place for each in group for place in self.candidates.places(each.key)]

    def learn(self, table: HeldTable) -> None:
        """Notes what is reachable, by the first table."""
        if self._base is None:
            self.written = table.whole()
            self.runs.learn(self.written)
            self._base = self._report(self.written)

    def _taken(self, written: RowParts) -> Dict[str, Amount]:
        """Returns what objects of a table take by class, in the bytes that count."""
        return self.runs.sizes.taken(written) if self.runs.sizes else by_row(written)

    def weights(self, families: Optional[Sequence[str]], unit: Unit) -> Dict[RowPart, Linear]:
        """Returns how much an object of each part of a row counts, and each of its bytes in the dump, if these families
        are asked for, or all if they are None."""
        sizes = self.runs.sizes
        in_bytes = {part: sizes.linear(part) if sizes else AS_WRITTEN for part in self.written}
        every = in_bytes if unit is Unit.BYTES else dict.fromkeys(in_bytes, Linear(1, 0))
        return {part: it for part, it in every.items() if families is None or family(part.name) in families}

    def _report(self, written: RowParts) -> Report:
        """Returns the report of which this is reachable, in bytes of the dump."""
        rows = [Row(name, amount) for name, amount in self._taken(written).items() if amount.objects]
        reachable = Amount(*(sum(row.amount[part] for row in rows) for part in (0, 1)))
        other = self.runs.report
        return Report(rows, reachable, other.unreachable, other.unresolved, other.in_heap)

    def keep(self, table: HeldTable, groups: Sequence[Several]) -> None:
        """Keeps a table, whose first labels are those of these groups."""
        self.tables.append(GroupTable(table, {key_of(group): number for number, group in enumerate(groups)}))

    def knows(self, *keys: GroupKey) -> Optional[GroupTable]:
        """Returns the last table that knows all these groups, None if there is none."""
        return next((it for it in reversed(self.tables) if all(key in it.labels for key in keys)), None)

    def held(self, table: HeldTable, sets: Iterable[int]) -> Held:
        """Returns what the lines with some sets have, in the bytes that count."""
        families: Dict[str, Amount] = {}
        objects = size = 0
        for name, amount in self._taken(table.amounts(sets)).items():
            known = families.get(family(name))
            families[family(name)] = known.plus(amount) if known else amount
            objects, size = objects + amount.objects, size + amount.bytes
        return Held(families, Amount(objects, size))

    def report_without(self, table: HeldTable, label: int) -> Report:
        """Returns the report of the dump without what a label holds."""
        lost = table.held(label)
        return self._report({part: amount.minus(lost.get(part, Amount())) for part, amount in self.written.items()})


def ask_places(questions: Sequence[Tuple[DumpSide, Sequence[Sequence[Place]]]]) -> List[HeldTable]:
    """Returns a table for each question, which are asked at once: what the references at each list of places hold.
    Raises `Fault` if the file of a dump has changed since it was read."""
    dumps = [
        LabelledDump(it.path, it.dump.size, Labels(side.cut, side.roots, places), bool(it.report.reachable.objects))
        for side, places in questions
        for it in [side.runs]
    ]
    with contextlib.ExitStack() as stack:
        for side, _ in questions:
            stack.enter_context(unchanged(side.runs.path, side.runs.state))
        tables = questions[0][0].runs.heapmark.retained.tables(dumps) if questions else []
    for (side, _), table in zip(questions, tables):
        side.learn(table)
    return tables


def ask(questions: Sequence[Tuple[DumpSide, Sequence[Several]]]) -> None:
    """Asks sides at once what groups hold, each in one run."""
    every = [list({key_of(group): group for group in groups}.values()) for _, groups in questions]
    asked = [(side, [side.places(group) for group in groups]) for (side, _), groups in zip(questions, every)]
    for (side, _), groups, table in zip(questions, every, ask_places(asked)):
        side.keep(table, groups)
