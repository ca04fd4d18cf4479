"""Probes that are told what holds which things, and note what they are asked for."""

from typing import Any, Dict, List, Sequence, Tuple
from unittest import mock

from heap_tools.candidates import FIELD, STATIC, Candidate, Key
from heap_tools.dump_side import DumpSide, ask
from heap_tools.held_table import HeldTable, read_table
from heap_tools.label_text import Place
from heap_tools.probe import GrowthProbe
from heap_tools.reports import Amount, Report, Unit
from heap_tools.retained_program import LabelledDump
from tests.support.labelled_heap import table_line

#: For each thing the ways to hold it, and its bytes. A way is a list of names that hold it together.
Things = List[Tuple[List[List[str]], int]]
#: The class of the things, and another one, of which all objects are reachable anyway.
THING, OTHER = "shop/Thing", "lib/Other"


class ToldProgram:
    """Stands in for retained: it is told which things each dump has, by its path, and how many bytes of another class,
    and notes which groups it is asked for."""

    def __init__(self, things: Dict[str, Things], others: Dict[str, int]) -> None:
        self.things, self.others = things, others
        self.asked: Dict[str, List[List[str]]] = {path: [] for path in things}
        self.runs = 0

    def tables(self, dumps: Sequence[LabelledDump]) -> List[HeldTable]:
        """Returns a table for each dump. A place is the name of a candidate."""
        return list(map(self._table, dumps))

    def _table(self, dump: LabelledDump) -> HeldTable:
        groups, lines = [set(places) for places in dump.labels.places], []
        self.asked[dump.path] += map(sorted, groups)
        self.runs += 1
        for number, (ways, size) in enumerate(self.things[dump.path]):
            holding = [label for label, group in enumerate(groups) if any(group.issuperset(way) for way in ways)]
            lines += self._line(holding, size, len(groups) * (number + 1) + number)
        lines.append(table_line(self.others[dump.path], self.others[dump.path], "-", OTHER))
        table = read_table("".join(f"{line}\n" for line in lines).encode())
        assert table, lines
        return table

    def _line(self, holding: List[int], size: int, first: int) -> List[str]:
        """Returns the line of a thing that these labels hold, after those of its set, numbered from `first` on."""
        if not holding:
            return [table_line(size, size, "-", THING)]
        number, lines = holding[0], []
        for more, label in enumerate(holding[1:], first + 1):
            lines.append(f"set {more} = {number} + {label}")
            number = more
        return [*lines, table_line(size, size, str(number), THING)]


class ToldCandidates:
    """Stands in for the candidates of a dump: its static fields and its fields."""

    def __init__(self, every: Sequence[Candidate] = ()) -> None:
        self.every = list(every)

    def places(self, key: Key) -> List[Place]:
        """Returns the name as the place."""
        return [key[1]]

    def instances(self, key: Key, report: Report) -> int:
        """Returns how many instances the candidate has."""
        return next((each.count for each in self.every if each.key == key), 0)

    def statics(self) -> List[Candidate]:
        """Returns the static fields."""
        return [each for each in self.every if each.kind == STATIC]

    def statics_alike(self) -> List[Candidate]:
        """Returns nothing."""
        return []

    def fields(self, report: Report) -> List[Candidate]:
        """Returns the fields."""
        return [each for each in self.every if each.kind == FIELD]

    def every_field(self) -> List[Candidate]:
        """Returns the fields."""
        return [each for each in self.every if each.kind == FIELD]

    def locals(self) -> List[Candidate]:
        """Returns nothing."""
        return []

    def threads(self) -> List[Candidate]:
        """Returns the threads."""
        return [each for each in self.every if each.is_thread]

    def threads_alike(self) -> List[Candidate]:
        """Returns nothing."""
        return []

    def few(self) -> List[Candidate]:
        """Returns what may hold something together."""
        return [each for each in self.every if each.count <= 64 and not each.is_collection]

    def kin(self) -> Dict[Key, List[Candidate]]:
        """Returns the fields of each class."""
        found: Dict[Key, List[Candidate]] = {}
        for each in self.every:
            found.setdefault((each.kind, each.owner), []).append(each)
        return found


def told_side(path: str, program: ToldProgram, candidates: ToldCandidates) -> DumpSide:
    """Returns a dump that is told what holds its things."""
    amount = Amount(1, 1)
    report = Report([], amount)
    runs: Any = mock.Mock(path=path, state=None, report=report, written=report, sizes=None)
    runs.heapmark.retained, runs.dump.size = program, 1 << 20
    known: Any = candidates
    return DumpSide(runs, known)


class ToldGains(GrowthProbe):
    """A later dump with `things`, of `growth` bytes more than an earlier one, whatever these are."""

    def __init__(self, earlier: Things, things: Things, every: Sequence[Candidate] = (), growth: int = 100) -> None:
        sizes = [sum(size for _, size in each) for each in (earlier, things)]
        others = {"before": 100_000 - sizes[0], "after": 100_000 + growth - sizes[1]}
        self.program = ToldProgram({"before": earlier, "after": things}, others)
        candidates = ToldCandidates(every)
        first, last = (told_side(path, self.program, candidates) for path in ("before", "after"))
        ask([(first, []), (last, [])])
        super().__init__(first, last, None, Unit.BYTES)

    def asked(self, path: str = "after") -> List[List[str]]:
        """Returns the groups that a dump was asked for."""
        return self.program.asked[path]


def field(name: str, count: int = 1) -> Candidate:
    """Returns a field with `count` holders."""
    return Candidate(FIELD, name, count)
