"""Tests which dumps are compared, which of those between the first and the last are asked, and how."""

import os
import unittest
from typing import Any, List, Tuple
from unittest import mock

from heap_tools.candidates import FIELD, WEAK, Candidates
from heap_tools.comparison import BETWEEN, Comparison, dumps_of, require_one_program, spread
from heap_tools.console import Progress
from heap_tools.dump_runs import DumpRuns
from heap_tools.faults import Fault
from heap_tools.heap_dump import HeapDump
from heap_tools.heapmark import Heapmark
from heap_tools.label_text import Place
from heap_tools.reports import Amount, Unit
from heap_tools.weak_growth import Followed
from heap_tools.what_counts import Calls, Way, Weak
from tests.support.dump_writer import DumpWriter
from tests.support.marked import MarkedRuns
from tests.support.services import of_main, running
from tests.support.tool_test import HEAPMARK, ToolTest


class SpreadTest(unittest.TestCase):
    """spread"""

    def test_spread(self) -> None:
        """A few dumps are all asked; of many some that are far from each other and from the ends."""
        for count, wanted in (
            (0, []),
            (1, [0]),
            (3, [0, 1, 2]),
            (4, [0, 2, 3]),
            (9, [1, 4, 7]),
            (98, [16, 49, 81]),
        ):
            dumps: Any = list(range(count))
            self.assertEqual(spread(dumps, BETWEEN), wanted, count)


class BetweenTest(unittest.TestCase):
    """The dumps between the first and the last, which a marker in place of heapmark marks."""

    def runs(self, dump: DumpWriter) -> MarkedRuns:
        """Returns the runs on a dump."""
        return MarkedRuns(HeapDump(dump.bytes()))

    def test_running_calls(self) -> None:
        """In the dumps between, too, the calls lead nowhere that do not count: all, those of the JDK, or none. Weak
        references are followed there as in the others."""
        dump = running(50)
        dump.of_class(10, "java/lang/ref/Reference", fields=["referent"])
        dump.instance(9000, 10, 0)
        dump.root(9000)
        dump.of_class(11, "java/util/Queue")
        dump.thread(8, 708, [(11, "take")])
        dump.local(8, 0, 5000)
        between = self.runs(dump)
        known = Candidates(between.dump, between.report)
        every, of_jdk = ([place for it in of for place in it.places] for of in (known.locals(), known.calls_of_jdk()))
        weak = list(known.places((FIELD, WEAK)))
        self.assertEqual((len(every), len(of_jdk), len(weak)), (2, 1, 1))
        cases: List[Tuple[Way, List[Place]]] = [
            (Way(Weak.NONE, Calls.ALL), [*weak, *every]),
            (Way(Weak.NONE, Calls.OF_JDK), [*weak, *of_jdk]),
            (Way(Weak.NONE), weak),
            (Way(Weak.ALL, Calls.ALL), every),
            (Way(Weak.ALL), []),
        ]
        for way, cut in cases:
            probe: Any = mock.Mock(families=["shop/Order"], unit=Unit.BYTES)
            dumps: Any = [None, between, None]
            comparison = Comparison(dumps, probe, Followed(way.follows), way, [], Amount())
            (found,) = comparison.probes_between([known.statics()], [])
            self.assertEqual(found.side.cut, cut, way)
            (found,) = comparison.probes_between([known.statics()], known.statics())
            self.assertEqual(found.side.cut, [*cut, *(place for each in known.statics() for place in each.places)])
            self.assertEqual((found.families, found.unit), (["shop/Order"], Unit.BYTES))
            (found,) = comparison.probes_between([known.statics()], [], way._replace(calls=None))
            self.assertEqual(found.side.cut, [each for each in cut if each not in every])

    def test_other_main(self) -> None:
        """Dumps with the same own classes are refused if they have other main classes."""
        first, same, other = (self.runs(of_main(f"shop/{name}", at)) for at, name in enumerate(("A", "A", "B")))
        for name, runs in (("first", first), ("same", same), ("other", other)):
            runs.path = name
        for last, said in ((same, None), (other, "the main class shop/B, not the shop/A")):
            if said is None:
                require_one_program([first, last])
            else:
                with self.assertRaisesRegex(Fault, f"^other: another program. it has {said} of first$"):
                    require_one_program([first, last])


class DumpsOfTest(ToolTest):
    """The dumps of a command line, of which heapmark makes the reports."""

    def read(self, *paths: str) -> List[DumpRuns]:
        """Returns what is read of these dumps."""
        with mock.patch.dict(os.environ, HEAPMARK=HEAPMARK):
            return dumps_of(paths, Heapmark(), Progress("leaks"))

    def test_many(self) -> None:
        """Of many dumps only those that will be asked stay in memory: the first, the last, and some between."""
        for number in range(7):
            of_main("shop/A", number).write(f"{number}")
        for count, kept in ((2, [0, 1]), (5, [0, 1, 2, 3, 4]), (6, [0, 1, 3, 4, 5]), (7, [0, 1, 3, 5, 6])):
            found = self.read(*map(str, range(count)))
            self.assertEqual([number for number, each in enumerate(found) if each.dump.bytes], kept)
            self.assertEqual([each.dump.time for each in found], [60_000 * number for number in range(count)])

    def test_same(self) -> None:
        """That two of many dumps are the same is seen, whether they stay in memory or not."""
        for number in range(7):
            of_main("shop/A", min(number, 4) if number < 6 else 6).write(f"{number}")
        with self.assertRaisesRegex(Fault, "^5: the same file as 4$"):
            self.read(*map(str, range(7)))
        with self.assertRaisesRegex(Fault, "^0: the same file as 0$"):
            self.read("0", "0")


if __name__ == "__main__":
    unittest.main()
