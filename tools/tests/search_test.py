"""Tests what the search for holders finds, with probes that know what holders hold, and on small dumps made at random,
where each candidate is also cut alone."""

import os
import random
import tempfile
import unittest
from itertools import combinations, product
from typing import Iterator, List, Sequence, Tuple
from unittest import mock

from heap_tools.candidates import FIELD, LOCAL, STATIC, THREAD, THREADS, Candidate, Candidates, joint_name
from heap_tools.dump_runs import DumpRuns
from heap_tools.dump_side import DumpSide, ask, key_of
from heap_tools.heap_dump import HeapDump
from heap_tools.heapmark import Heapmark
from heap_tools.joint_search import BLOCKS, JointSearch, alone, with_effect
from heap_tools.leak_answer import answer_of
from heap_tools.leak_lines import Line, searched
from heap_tools.leak_options import Bounds
from heap_tools.line_order import NEARLY
from heap_tools.probe import GrowthProbe, Probe
from heap_tools.reference_paths import ReferencePaths
from heap_tools.reports import Amount, Report, Unit
from heap_tools.search import Search
from heap_tools.what_counts import WhatCounts, Weak, Way, first_groups, side_of, sides_of, without_running_calls
from tests.support.marked import MarkedRuns, lost
from tests.support.random_heaps import random_pair
from tests.support.told_probe import Things, ToldGains, field
from tests.support.tool_test import HEAPMARK, RETAINED


class NamesTest(unittest.TestCase):
    """What holders of a later dump are called in an earlier one."""

    def test_lookup(self) -> None:
        """Local variables and threads are listed once, however many are looked up."""
        holders = Candidates(mock.Mock(classes={}, names={}, roots=range(9)), Report())

        def of_roots(kind: str, name: str, roots: List[int]) -> Candidate:
            return Candidate(kind, name, 1, [f"root {each}" for each in roots])

        for kind in LOCAL, THREAD:
            names = mock.Mock(side_effect=lambda _, root: [f"name{root}"])
            with mock.patch.multiple(holders, _names_of=names, _of_roots=of_roots):
                for number in range(9):
                    self.assertEqual(holders.places((kind, f"name{number}")), [f"root {number}"])
                self.assertEqual(holders.places((kind, "other")), ())
            self.assertEqual(names.call_count, 9)


class SearchTest(unittest.TestCase):
    """What is found alone."""

    def found(self, probe: ToldGains) -> List[str]:
        """Searches, and returns the names of what was found."""
        search = Search(probe, 30)
        search.find()
        self.assertEqual(search.all, len(probe.side.candidates.fields(probe.base)) + len(probe.candidates.statics()))
        return [joint_name(held.candidates) for held in search.found]

    def test_shrinking_part(self) -> None:
        """A part that shrank does not hide one that grew."""
        fields = [field(f"A.{name}") for name in "abcd"]
        after: Things = [([["A.a"]], 50), ([["A.b"]], 80), ([["A.c"]], 20)]
        probe = ToldGains([([["A.a"]], 200), ([["A.b"]], 10)], after, fields)
        self.assertLess(probe.share(fields), 0)
        self.assertEqual(self.found(probe), ["A.b"])

    def test_many(self) -> None:
        """All that gained enough are found, however many fields there are: each dump is asked once."""
        fields = [field(f"java/A.{number:03}", number + 1) for number in range(500)]
        every: List[List[int]] = [[300, 301, 303], [0, 250, 499], []]
        for at in every:
            probe = ToldGains([], [([[fields[number].name] for number in at], 100)] * bool(at), fields)
            ask([(side, [[each] for each in fields]) for side in probe.sides()])
            runs = probe.program.runs
            self.assertEqual(self.found(probe), [fields[number].name for number in at])
            self.assertEqual(probe.program.runs, runs)

    def test_unchanged(self) -> None:
        """What hangs by a static field that holds as much as before is not looked into: a field that gained there took
        it from another one. If the static field holds more, or less, each field counts."""
        catalog = Candidate(STATIC, "app/Catalog.ALL", 1)
        fields = [field(f"app/A.{number:02}", number + 1) for number in range(64)]
        below = [each.name for each in fields[::2]]
        for was, aside, found in ((900, 1, ["app/A.33"]), (898, 1, ["app/A.33"]), (897, 0, None), (903, 0, None)):
            grown: Things = [([["app/A.33"]], 100)]
            moved = [([["app/Catalog.ALL"], below[:16]], was), ([["app/Catalog.ALL"], *([it] for it in below)], 900)]
            probe = ToldGains(moved[:1], [*moved[1:], *grown], [catalog, *fields])
            search = Search(probe, 30)
            search.find()
            self.assertEqual(len(search.aside), aside, was)
            names = sorted(str(held.candidates[0]) for held in search.found)
            self.assertEqual(names, found or sorted([*below, "app/A.33"]), was)


class JointTest(unittest.TestCase):
    """What is found together."""

    def found(
        self, things: Things, every: Sequence[Candidate], earlier: Sequence[Tuple[List[List[str]], int]] = ()
    ) -> List[str]:
        """Searches these candidates, and returns what was found together."""
        probe = ToldGains(list(earlier), things, every)
        search = searched(probe, 30)
        return [joint_name(held.candidates) for held in search.found if len(held.candidates) > 1]

    def test_few(self) -> None:
        """Two or three of any kinds that hold it only together are found among many, whatever others hold alone."""
        kinds = [Candidate(STATIC, "app/A.ALL", 1), Candidate(THREAD, "worker", 1, ["worker"])]
        fields = [*kinds, *(field(f"lib{number}/A.list") for number in range(400))]
        for numbers in ([5, 6], [2, 399], [0, 200], [0, 1], [7, 150, 399], [0, 1, 300]):
            way = [fields[number].name for number in numbers]
            things: Things = [([way], 60), ([[fields[10].name]], 20), ([[fields[11].name]], 20)]
            text = f"together {', '.join(sorted(str(fields[number]) for number in numbers))}"
            self.assertEqual(self.found(things, fields), [text])

    def test_classes(self) -> None:
        """Of what holds the same together, the fields of one class are found, wherever they are among others: so it
        does not depend on how many fields the JDK has."""
        upper = [field(f"app/Engine.{name}") for name in ("manager", "locks", "protocol")]
        lower = [field(f"app/{name}") for name in ("Manager.open", "Locks.tables", "Protocol.undone")]
        ways = [[each.name for each in group] for group in product(*zip(upper, lower))]
        for before in range(20, 32):
            fields = [field(f"lib{number}/A.list") for number in range(250)]
            fields[before:before] = [*upper, *lower]
            probe = ToldGains([], [(ways, 60)], fields)
            self.assertEqual(JointSearch(probe, 30, fields).find(), upper, before)

    def test_exhaustive(self) -> None:
        """What is found gained enough, and none of it can be left out. Nothing is found if no three gained enough, of
        all by turns."""
        fields = [field(f"lib{number}/A.list") for number in range(30)]
        names = [each.name for each in fields]
        several = [set(each) for count in (1, 2, 3) for each in combinations(names, count)]
        for seed in range(8):
            chance = random.Random(seed)
            ways = ([chance.sample(names, chance.choice([2, 2, 3, 4])) for _ in range(2)] for _ in range(6))
            things: Things = [(each, chance.randrange(5, 60)) for each in ways]
            gains = {
                frozenset(group): sum(size for every, size in things if any(group.issuperset(way) for way in every))
                for group in several
            }
            probe, best = ToldGains([], things, fields), max(gains.values())
            found = frozenset(each.name for each in JointSearch(probe, 30, fields).find())
            self.assertEqual(bool(found), best >= 30, seed)
            least = max(30, NEARLY * gains.get(found, 0))
            for group in (found, *(found - {each} for each in found)) if found else ():
                self.assertEqual(gains.get(group, 0) >= least, group == found, seed)

    def test_gives_way(self) -> None:
        """Each member gives way to the deepest field that does as well, of an own one only to an own field."""
        for low, names in (("app", ["app/L.one", "app/M.two"]), ("java", ["app/A.one", "app/A.two"])):
            fields = [field(name) for name in ("app/A.one", "app/A.two", f"{low}/L.one", f"{low}/M.two")]
            one, two, low_one, low_two = (each.name for each in fields)
            ways = [[first, second] for first in (one, low_one) for second in (two, low_two)]
            alone: Things = [([[one]], 1), ([[two]], 1), ([[one], [low_one]], 2), ([[two], [low_two]], 2)]
            self.assertEqual(self.found([(ways, 94), *alone], fields), [f"together {', '.join(names)}"])

    def test_four(self) -> None:
        """Four that are needed are no line, unless a class declares them."""
        for owners, is_found in (["A", "B", "C", "D"], False), (["A", "A", "A", "A"], True):
            fields = [field(f"app/{owner}.{name}") for owner, name in zip(owners, "abcd")]
            fields += [field(f"lib{number}/A.list") for number in range(30)]
            found = self.found([([[each.name for each in fields[:4]]], 100)], fields)
            self.assertEqual(found, ["together app/A.a, app/A.b, app/A.c, app/A.d"] * is_found)

    def test_of_class(self) -> None:
        """Many fields of one class that hold a little each are found, and not others. If one of them has enough, it is
        found alone."""
        fields = [field(f"app/A.{number:02}") for number in range(20)]
        self.assertEqual(len(self.found([([[each.name]], 5) for each in fields], fields)), 1)
        others = [field(f"app/{number}/A.{number}") for number in range(20)]
        self.assertEqual(self.found([([[each.name]], 5) for each in others], others), [])
        self.assertEqual(self.found([([["app/A.00"]], 80), ([["app/A.01"]], 10)], fields), [])

    def test_deepest(self) -> None:
        """Of several ways to hold it together, own fields are found, of one class if possible, then those that hold
        least."""
        fields = [field(f"app/{name}") for name in ("A.a", "B.b", "C.c", "C.d")] + [
            field("java/D.e"),
            field("java/E.f"),
        ]
        names = [each.name for each in fields]
        shared: List[List[str]] = [[one, other] for one in names[::2] for other in names[1::2]]
        more: Things = [([names[:1] + names[1:2]], 5)]
        self.assertEqual(self.found([(shared, 90), *more], fields), ["together app/C.c, app/C.d"])
        self.assertEqual(self.found([(shared[:2], 90)], fields), ["together app/A.a, app/B.b"])

    def test_before(self) -> None:
        """What was held together before did not grow."""
        fields = [field(f"app{number}/A.list") for number in range(4)]
        held: Things = [([["app0/A.list", "app1/A.list"]], 500)]
        grown: Things = [([["app2/A.list", "app3/A.list"]], 100)]
        self.assertEqual(self.found([*held, *grown], fields, held), ["together app2/A.list, app3/A.list"])

    def test_not_asked(self) -> None:
        """If all hold too little only together, nothing more is asked."""
        fields = [field(f"app{number}/A.list") for number in range(40)]
        probe = ToldGains([], [([["app1/A.list"]], 80), ([["app1/A.list", "app2/A.list"]], 20)], fields)
        ask([(side, [*([each] for each in fields), fields]) for side in probe.sides()])
        runs = probe.program.runs
        search = searched(probe, 30)
        self.assertEqual([joint_name(held.candidates) for held in search.found], ["app1/A.list"])
        self.assertLessEqual(probe.program.runs - runs, 2)

    def test_runs(self) -> None:
        """Each run leaves half of the blocks or fewer: two of thousands take four runs of each dump."""
        fields = [field(f"app{number}/A.list") for number in range(2500)]
        probe = ToldGains([], [([[fields[3].name, fields[2000].name]], 100)], fields)
        runs = probe.program.runs
        self.assertEqual(JointSearch(probe, 30, fields).find(), [fields[3], fields[2000]])
        self.assertLessEqual(probe.program.runs - runs, 2 * 4)
        self.assertEqual(max(len(group) for group in probe.asked()), -(-3 * len(fields) // BLOCKS) + 2)

    def test_beside_a_thread(self) -> None:
        """A thread that holds all does not hide fields that hold it only together."""
        every = [field("app/A.a"), field("lib/B.b"), Candidate(THREAD, "main", 1, ["main"])]
        self.assertEqual(self.found([([["main"], ["app/A.a", "lib/B.b"]], 100)], every), ["together app/A.a, lib/B.b"])

    def test_roots(self) -> None:
        """Roots that hold only together what a field holds are found, if no single root does."""
        roots = [Candidate(STATIC, "app/A.a", 1), Candidate(STATIC, "lib/B.b", 1)]
        ways, queue = [["app/A.a", "lib/B.b"], ["app/C.queue"]], field("app/C.queue")
        both = ["together static app/A.a, static lib/B.b"]
        self.assertEqual(self.found([(ways, 100)], [*roots, queue]), both)
        self.assertEqual(self.found([([*ways, ["app/A.a"]], 100)], [*roots, queue]), [])

    def test_names(self) -> None:
        """Of many names only the first ones are in a line: those that hold most alone."""
        names = [field(f"A.{name}") for name in "edcba"]
        self.assertEqual(joint_name(names[:1]), "A.e")
        self.assertEqual(joint_name(names[:4]), "together A.e, A.d, A.c, A.b")
        self.assertEqual(joint_name(names), "together A.e, A.d, A.c .. and 2 more")
        statics = [Candidate(STATIC, f"app/{name}", 1) for name in ("A.b", "B.c")]
        found = self.found([([["app/A.b", "app/B.c"]], 90), ([["app/B.c"]], 5)], statics)
        self.assertEqual(found, ["together static app/B.c, static app/A.b"])


class PathsTest(unittest.TestCase):
    """What is above what was found."""

    def test_not_above(self) -> None:
        """Nothing is above a static field, and several fields are not above one of them."""
        one, other = field("app/A.a"), field("app/A.b")
        upper, lower = (Candidate(STATIC, f"app/{name}.ALL", 1) for name in "BC")
        ways = [["app/A.a"], ["app/B.ALL"]]
        probe = ToldGains([], [([*ways, ["app/C.ALL"]], 40), (ways, 10), ([["app/A.a", "app/A.b"]], 50)])
        found = [probe.retained(group) for group in ([one, other], [one], [upper], [lower])]
        self.assertEqual([ReferencePaths(probe, found).above(each) for each in found[1:]], [[], [], []])

    def test_alone_and_together(self) -> None:
        """What holds something together is not above one of these, though both are above a third one."""
        one, other, lower = field("app/A.a"), field("app/A.b"), field("app/C.c")
        ways = [["app/A.a"], ["app/C.c"]]
        probe = ToldGains([], [([["app/A.a", "app/A.b"]], 50), (ways[:1], 20), (ways, 10)])
        found = [probe.retained(group) for group in ([one, other], [one], [lower])]
        self.assertEqual(ReferencePaths(probe, found).above(found[2]), found[:1])

    def test_known(self) -> None:
        """What both of two lines hold is in the table that knows both: a path asks nothing."""
        names = [f"app/A{number}.it" for number in range(9)]
        probe = ToldGains([], [([[name] for name in names[: number + 1]], 10) for number in range(9)])
        ask([(probe.side, [[field(name)] for name in names])])
        found = [probe.retained([field(name)]) for name in names]
        runs = probe.program.runs
        for lower in (8, 4, 0):
            self.assertEqual(ReferencePaths(probe, found).above(found[lower]), found[:lower])
        self.assertEqual(probe.program.runs, runs)

    def test_both(self) -> None:
        """What two hold only together does not make one of them hold more of the other."""
        things: Things = [([["A.a"], ["B.b"]], 90), ([["A.a", "B.b"]], 500), ([["B.b"]], 10)]
        probe = ToldGains([], things)
        upper, lower = (probe.retained([field(name)]) for name in ("A.a", "B.b"))
        self.assertTrue(probe.holds_part(upper, lower, NEARLY))
        self.assertFalse(probe.holds_all(upper, lower))


#: How many pairs of dumps made at random are searched, and how many of them with heapmark and retained, too.
PAIRS, PAIRS_OF_PROGRAMS = int(os.environ.get("RANDOM_PAIRS", "200")), 10
AT_LEAST = 30


class RandomTest(unittest.TestCase):
    """Searches in pairs of dumps that are made at random."""

    def pairs(self, count: int) -> Iterator[Tuple[int, GrowthProbe]]:
        """Yields the first `count` numbers of pairs that grew, and what asks them."""
        seed = 0
        while count:
            probe = self.probe(*(MarkedRuns(HeapDump(each.bytes())) for each in random_pair(seed)))
            if probe.growth.bytes > 0:
                count -= 1
                yield seed, probe
            seed += 1

    def probe(self, *both: DumpRuns) -> GrowthProbe:
        """Returns what asks two dumps about the growth of their bytes."""
        counts = WhatCounts(both)
        bases = counts.reports(Way())
        growth = bases[1].reachable.bytes - bases[0].reachable.bytes
        way = without_running_calls(counts, Weak.NONE, bases, None, Unit.BYTES, growth, AT_LEAST - 1)
        first, last = sides_of(both, way)
        return GrowthProbe(first, last, None, Unit.BYTES)

    def candidates(self, probe: Probe) -> List[Candidate]:
        """Returns all that can hold objects in the last dump."""
        of_dump = probe.candidates
        return [*of_dump.statics(), *of_dump.locals(), *of_dump.threads(), *of_dump.fields(probe.base)]

    def test_all_found(self) -> None:
        """All that gained enough alone are found, and none too many. Only fields are left out, of which all that is not
        below static fields that hold as much as before is too little to have been gained."""
        some = moved = 0
        for seed, probe in self.pairs(PAIRS):
            every = [each for each in self.candidates(probe) if self.share(probe, each) >= AT_LEAST]
            search = Search(probe, AT_LEAST)
            search.find()
            wanted = [each for each in every if each.kind != FIELD or self.beside(probe, each, search) >= AT_LEAST]
            found = [held.candidates[0] for held in search.found]
            self.assertEqual({str(it) for it in found if it.kind != THREADS}, set(map(str, wanted)), seed)
            some, moved = some + len(every), moved + len(every) - len(wanted)
        self.assertGreater(some, PAIRS)
        self.assertLess(moved, some / 20)

    def share(self, probe: GrowthProbe, candidate: Candidate) -> float:
        """Returns what a candidate gained, by what is not reachable if it is cut in each dump, in percent."""
        sizes = []
        for side in probe.sides():
            assert isinstance(side.runs, MarkedRuns)
            objects = lost(side, probe.retained([candidate]))
            sizes.append(side.runs.report_of(objects).reachable.bytes)
        return 100 * (sizes[0] - sizes[1]) / probe.growth.bytes

    def beside(self, probe: GrowthProbe, candidate: Candidate, search: Search) -> float:
        """Returns the share in percent of the objects that a field holds, but none of the static fields set aside."""
        assert isinstance(probe.runs, MarkedRuns)
        objects = lost(probe.side, probe.retained([candidate]))
        for each in search.aside:
            objects -= lost(probe.side, probe.retained([each]))
        return 100 * probe.runs.report_of(objects).reachable.bytes / probe.growth.bytes

    def test_figures(self) -> None:
        """What the first run says of each candidate, and of each group, is the difference of two reports."""
        for seed, probe in self.pairs(PAIRS // 4):
            for side in probe.sides():
                assert isinstance(side.runs, MarkedRuns)
                groups = first_groups(side)
                ask([(side, groups)])
                whole = side.runs.report_of(side.runs.reachable(side.cut, side.roots))
                self.assertEqual((side.base.reachable, side.base.families), (whole.reachable, whole.families), seed)
                table = side.tables[-1]
                for group in groups:
                    held = side.held(table.table, table.sets(key_of(group)))
                    left = side.runs.reachable([*side.cut, *side.places(group)], side.roots)
                    self.assertEqual(held.heap, whole.reachable.minus(side.runs.report_of(left).reachable), seed)

    def test_joint(self) -> None:
        """Each of several that hold something only together is needed: without it, the others gained less."""
        count = 0
        for seed, probe in self.pairs(PAIRS):
            few = probe.candidates.few()
            found = JointSearch(probe, AT_LEAST, few).find()
            count += len(found) > 1
            self.assertLessEqual(len(found), 3, seed)
            if len(found) > 1:
                together = probe.unit.percent(probe.gain_beside(found, alone(few)), probe.growth)
                self.assertGreaterEqual(max(together, probe.share(found)), AT_LEAST, seed)
                self.assertEqual(with_effect(probe, found), found, seed)
        self.assertGreater(count, PAIRS / 20)

    def test_top(self) -> None:
        """Fewer lines are the first of all lines, and the others are counted."""
        for seed, probe in self.pairs(PAIRS // 2):
            every = answer_of(probe, Bounds(AT_LEAST, top=1000, shows_all=True))
            self.assertEqual(every.hidden, 0, seed)
            for top in (1, 2, 4, 8):
                answer = answer_of(probe, Bounds(AT_LEAST, top=top, shows_all=True))
                self.assertEqual(
                    [self.line(each) for each in answer.lines], [self.line(each) for each in every.lines[:top]]
                )
                self.assertEqual(len(answer.lines) + answer.hidden, len(every.lines), (seed, top))
                objects = [[line.objects and line.objects.objects for line in of.lines] for of in (answer, every)]
                self.assertEqual(objects[0], objects[1][:top], seed)

    def test_lines(self) -> None:
        """Each line has what is not reachable any more if its references are cut, too, in what those above it leave;
        the first is the first of all, none is above another, and what is in no line is the rest of the growth."""
        several = 0
        for seed, probe in self.pairs(PAIRS // 2):
            answer = answer_of(probe, Bounds(AT_LEAST))
            first = answer_of(probe, Bounds(AT_LEAST, shows_all=True)).lines[:1]
            self.assertEqual([self.line(each) for each in answer.lines[:1]], [self.line(each) for each in first], seed)
            several += len(answer.lines) > 1
            cut: List[Candidate] = []
            left = probe.growth
            for line in answer.lines:
                group = line.held.candidates
                now, was = (held_beside(side, group, cut) for side in probe.sides())
                self.assertEqual((line.held.amount, line.before), (now, was), seed)
                cut, left = [*cut, *group], left.minus(now.minus(was))
            self.assertEqual(answer.left, left, seed)
            above = {step.key for line in answer.lines for step in line.above}
            self.assertTrue(above.isdisjoint(line.held.key for line in answer.lines), seed)
        self.assertGreater(several, PAIRS // 20)

    def line(self, line: Line) -> Tuple[str, Amount, Amount, Amount, int]:
        """Returns what a line shows."""
        return line.path(), line.held.amount, line.before, line.held.heap, line.held.instances

    def test_paths(self) -> None:
        """Each step of a path holds all that the next one does, object for object; no field is above a static one."""
        steps = 0
        for seed, probe in self.pairs(PAIRS // 2):
            for line in answer_of(probe, Bounds(AT_LEAST, top=8, shows_all=True)).lines:
                path = [*line.above, line.held]
                for upper, lower in zip(path, path[1:]):
                    self.assertGreater(lost(probe.side, upper), lost(probe.side, lower), (seed, line.path()))
                    self.assertFalse(set(upper.candidates) & set(lower.candidates), line.path())
                    self.assertNotEqual(lower.candidates[0].kind, STATIC, line.path())
                    steps += 1
        self.assertGreater(steps, PAIRS / 4)

    def test_programs(self) -> None:
        """heapmark and retained find what these tests do, with the same amounts."""
        if not all(os.access(program, os.X_OK) for program in (HEAPMARK, RETAINED)):
            self.skipTest("heapmark or retained is not built")
        for seed, probe in self.pairs(PAIRS_OF_PROGRAMS):
            variables = {"HEAPMARK": HEAPMARK, "RETAINED": RETAINED}
            with tempfile.TemporaryDirectory() as folder, mock.patch.dict(os.environ, variables):
                both = []
                for name, dump in zip(("before", "after"), random_pair(seed)):
                    dump.write(f"{folder}/{name}")
                    both.append(DumpRuns.of(Heapmark(), f"{folder}/{name}", "leaks"))
                proved = self.probe(*both)
                for shows_all in (False, True):
                    bounds = Bounds(AT_LEAST, top=8, shows_all=shows_all)
                    lines = [list(map(self.line, answer_of(each, bounds).lines)) for each in (probe, proved)]
                    self.assertEqual(lines[0], lines[1], (seed, shows_all))
            self.assertEqual(probe.growth, proved.growth)


def held_beside(side: DumpSide, group: Sequence[Candidate], cut: Sequence[Candidate]) -> Amount:
    """Returns what is not reachable any more if the references of `group` are cut besides those of `cut`."""
    assert isinstance(side.runs, MarkedRuns)
    with_group = side.runs.reachable([*side.cut, *side.places(cut)], side.roots)
    return side.runs.report_of(with_group - side.runs.reachable(side.without([*cut, *group]).cut, side.roots)).reachable


if __name__ == "__main__":
    unittest.main()
