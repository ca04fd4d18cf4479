"""Tests when the local variables of running calls lead nowhere, and what each way to count leaves."""

import unittest
from typing import Any, Dict, List, Optional, Tuple

from heap_tools.reports import Amount, Report, Row, Unit
from heap_tools.what_counts import (
    PASSING,
    WAYS_TO_COUNT,
    Calls,
    Way,
    Weak,
    WhatCounts,
    side_of,
    without_running_calls,
)
from tests.support.marked import RETAINED, MarkedRuns, marked
from tests.support.services import Service, running


def report_of(lost: int) -> Report:
    """Returns the report without `lost` orders of 1,000, of 10 bytes each."""
    return Report([Row("Order", Amount(1_000 - lost, 10 * (1_000 - lost)))], reachable=Amount(9_999 - lost, 99_999))


class Told:
    """Stands in for dumps: it is told how many orders are lost in each without the calls of the JDK, and without the
    others too."""

    def __init__(self, lost: List[Tuple[int, int]]) -> None:
        self.lost = lost

    def reports(self, way: Way) -> List[Report]:
        """Returns the reports by a way."""
        return [report_of({Calls.ALL: sum(it), Calls.OF_JDK: it[0], None: 0}[way.calls]) for it in self.lost]


class RunningCallsTest(unittest.TestCase):
    """without_running_calls"""

    def calls(self, lost: List[Tuple[int, int]], whole: int = 1_000, **more: Any) -> Optional[Calls]:
        """Returns which calls do not count."""
        told: Any = Told(lost)
        how: Dict[str, Any] = {"families": ["Order"], "unit": Unit.OBJECTS, "whole": whole, **more}
        return without_running_calls(told, Weak.NONE, told.reports(Way()), **how).calls

    def test_bound(self) -> None:
        """None count, or none of the JDK, if that loses at most the given part in each dump."""
        cases: List[Tuple[List[Tuple[int, int]], Optional[Calls]]] = [
            ([(0, 0)], Calls.ALL),
            ([(25, 25)], Calls.ALL),
            ([(25, 26)], Calls.OF_JDK),
            ([(50, 400)], Calls.OF_JDK),
            ([(51, 0)], None),
            ([(0, 0), (0, 51)], Calls.OF_JDK),
            ([(51, 0), (0, 0)], None),
        ]
        for dumps, wanted in cases:
            self.assertEqual(self.calls(dumps), wanted, dumps)
        self.assertEqual(PASSING, 5)

    def test_percent(self) -> None:
        """Another part may be given, and the whole may be that of bytes or of all classes."""
        for most, wanted in ((29.0, Calls.OF_JDK), (30.0, Calls.ALL), (9.0, None)):
            self.assertEqual(self.calls([(100, 200)], most=most), wanted)
        self.assertEqual(self.calls([(100, 200)], 60_000, unit=Unit.BYTES), Calls.ALL)
        self.assertEqual(self.calls([(100, 200)], 6_000, families=None), Calls.ALL)


class WaysTest(unittest.TestCase):
    """WhatCounts"""

    def runs(self) -> MarkedRuns:
        """Returns a dump with local variables of a method of the program and of the JDK, and a weak reference."""
        dump = running(50)
        dump.of_class(10, "java/lang/ref/Reference", fields=["referent"])
        dump.of_class(12, "java/lang/ref/WeakReference", superclass=10)
        dump.of_class(11, "java/util/Queue")
        dump.instance(9000, 12, 9001)
        dump.values(9001, 8, bytes(7))
        dump.values(9002, 8, bytes(5))
        dump.root(9000)
        dump.thread(8, 708, [(11, "take")])
        dump.local(8, 0, 9002)
        return marked(dump)

    def test_reports(self) -> None:
        """The report by each way is that of the dump in which what it does not follow is cut. All take one run."""
        runs, before = self.runs(), RETAINED.runs
        counts, sizes = WhatCounts([runs]), {}
        for way in WAYS_TO_COUNT:
            (report,), side = counts.reports(way), side_of(runs, way)
            whole = runs.report_of(runs.reachable(side.cut, side.roots))
            self.assertEqual((report.families, report.reachable), (whole.families, whole.reachable), way)
            sizes[way] = report.reachable.bytes
        self.assertEqual(RETAINED.runs - before, 1)
        self.assertEqual(sizes[Way(Weak.ALL)] - sizes[Way()], 7)
        self.assertEqual(sizes[Way()] - sizes[Way(Weak.NONE, Calls.OF_JDK)], 5)


class UsualWayTest(unittest.TestCase):
    """WhatCounts.usual_way"""

    def counts(self, own: int, jdk: int = 0, weak: int = 0) -> WhatCounts:
        """Returns what counts in a dump of some 200 objects, beside which only local variables of a method of the
        program, of one of the JDK, and a weak reference hold so many."""
        dump = Service()
        dump.of_class(10, "java/lang/ref/Reference", fields=["referent"])
        dump.of_class(11, "java/lang/Thread")
        dump.of_class(12, "shop/Batch")
        dump.of_class(13, "java/util/Queue")
        for at, count in ((3000, own), (4000, jdk), (5000, weak)):
            dump.array(at, 4, *range(at + 1, at + 1 + count))
            for number in range(at + 1, at + 1 + count):
                dump.values(number, 8, bytes(4))
        for thread, of_class, array in ((1, 12, 3000), (2, 13, 4000)):
            dump.thread(thread, 700 + thread, [(of_class, "run")])
            dump.instance(700 + thread, 11)
            dump.local(thread, 0, array)
        dump.instance(710, 10, 5000)
        dump.root(710)
        return WhatCounts([marked(dump)])

    def test_usual_way(self) -> None:
        """It is the first that leaves hardly anything out of all that is reachable, one run for each way that is tried.
        There is none if both leave more out, or if the first one might do."""
        no_calls, own_calls = (Way(calls=calls) for calls in Calls)
        cases: List[Tuple[WhatCounts, float, Optional[Way], int]] = [
            (self.counts(2), 5, no_calls, 1),
            (self.counts(100), 5, own_calls, 2),
            (self.counts(100), 50, None, 2),
            (self.counts(100, jdk=2, weak=2), 5, own_calls, 2),
            (self.counts(2, jdk=100), 5, None, 2),
            (self.counts(2, weak=100), 5, None, 2),
        ]
        for number, (counts, most, wanted, runs) in enumerate(cases):
            before = RETAINED.runs
            self.assertEqual(counts.usual_way(None, Unit.OBJECTS, PASSING, most), wanted, number)
            self.assertEqual(RETAINED.runs - before, runs, number)

    def test_kept(self) -> None:
        """What was asked by a way is known: it is not asked once more."""
        counts = self.counts(2)
        asked = counts.sides(Way(calls=Calls.ALL))
        before = RETAINED.runs
        self.assertEqual(counts.usual_way(None, Unit.OBJECTS, PASSING), Way(calls=Calls.ALL))
        self.assertIs(counts.sides(Way(calls=Calls.ALL)), asked)
        self.assertEqual(RETAINED.runs, before)


if __name__ == "__main__":
    unittest.main()
