"""Tests which weak references are followed: those of a kind that alone hold most of what grew, but never soft ones."""

import unittest
from typing import Dict, List, Tuple, Union

from heap_tools.dump_runs import DumpRuns
from heap_tools.heap_dump import HeapDump
from heap_tools.reports import Amount, Unit
from heap_tools.weak_growth import Followed, followed_of, is_most
from heap_tools.weak_kinds import WeakKind, usual_class
from heap_tools.what_counts import Way, Weak, WhatCounts, side_of
from tests.support.dump_writer import BYTE, DumpWriter
from tests.support.marked import MarkedRuns

KINDS = {"soft": 11, "weak": 12, "final": 13, "phantom": 14}


def referring(kept: int, counts: Dict[str, int], blocked: bool = False) -> DumpRuns:
    """Returns a dump in which a static field has `kept` bytes, and each of so many references of a kind, which are
    roots, an array of 100 bytes. `blocked`: the thread of final references is in a method of the program."""
    dump = DumpWriter()
    dump.of_class(10, "java/lang/ref/Reference", fields=["referent"])
    for name, number in KINDS.items():
        dump.of_class(number, f"java/lang/ref/{name.capitalize()}Reference", superclass=10)
    dump.of_class(23, "java/lang/ref/Finalizer", superclass=13)
    dump.of_class(6, "shop/Main", {"KEPT": 600})
    dump.values(600, BYTE, bytes(kept))
    dump.root(6)
    number = 1000
    for name, count in counts.items():
        for _ in range(count):
            dump.instance(number, 23 if name == "final" else KINDS[name], number + 1)
            dump.values(number + 1, BYTE, bytes(100))
            dump.root(number)
            number += 2
    dump.of_class(30, "java/lang/Thread", fields=["name"])
    dump.of_class(31, "java/lang/String", fields=["value", "coder"])
    dump.of_class(32, "shop/Stream")
    dump.of_class(33, "java/lang/ref/ReferenceQueue")
    dump.thread(1, 700, [(32, "close"), (32, "finalize")] if blocked else [(33, "remove")])
    dump.instance(700, 30, 701)
    dump.instance(701, 31, 702, b"\0")
    dump.values(702, BYTE, b"Finalizer")
    return MarkedRuns(HeapDump(dump.bytes()))


class FollowedTest(unittest.TestCase):
    """followed_of"""

    def followed(self, *both: DumpRuns) -> Followed:
        """Returns what is followed in two dumps: the reports are those with that."""
        found, reports = followed_of(WhatCounts(both), None, Unit.BYTES)
        sides = [side_of(each, Way(found.follows)) for each in both]
        for side, report in zip(sides, reports):
            assert isinstance(side.runs, MarkedRuns)
            whole = side.runs.report_of(side.runs.reachable(side.cut, side.roots))
            self.assertEqual((report.families, report.reachable), (whole.families, whole.reachable))
        return found

    def test_kinds(self) -> None:
        """Those of one kind are followed if they alone hold most of the growth; soft ones never, and none if it takes
        several kinds. What is not followed is known."""
        cases: List[Tuple[Dict[str, int], int, bool, int]] = [
            ({"final": 30}, 500, True, 0),
            ({"weak": 30, "soft": 9}, 500, True, 0),
            ({"phantom": 30, "final": 20}, 500, True, 0),
            ({"soft": 30}, 500, False, 3000),
            ({"weak": 20, "phantom": 20, "soft": 20}, 2500, False, 6000),
            ({"final": 4}, 500, False, 400),
        ]
        for counts, grown, is_any, amount in cases:
            found = self.followed(referring(1000, {}), referring(1000 + grown, counts))
            self.assertEqual((found.is_any, found.amount.bytes), (is_any, amount), counts)
            if is_any:
                assert isinstance(found.follows, WeakKind)
                self.assertEqual(found.follows.noun, next(iter(counts)), counts)

    def test_shrunk(self) -> None:
        """Where the heap shrank, a little that weak references hold more is not most of the growth."""
        self.assertFalse(self.followed(referring(60_000, {}), referring(1000, {"final": 30})).is_any)
        self.assertTrue(self.followed(referring(2000, {}), referring(1000, {"final": 30})).is_any)
        for part, rest, wanted in ((6, 5, True), (5, 5, False), (5, -4, True), (5, -5, False), (0, -1, False)):
            self.assertEqual(is_most(part, rest), wanted, (part, rest))

    def test_words(self) -> None:
        """It is said which references are followed, of which class, and in which own method the thread is blocked that
        handles them."""
        said = (
            "30 objects more, 3,000 bytes more are held by final references alone, most of them java/lang/ref/Finalizer"
        )
        so = ": most of the growth; so these references are followed"
        self.assertEqual(self.followed(referring(9, {}), referring(9, {"final": 30})).why, said + so)
        blocked = '; thread "Finalizer" is in shop/Stream.close, shop/Stream.finalize'
        self.assertEqual(
            self.followed(referring(9, {}), referring(9, {"final": 30}, blocked=True)).why, said + blocked + so
        )

    def test_ways(self) -> None:
        """Only the references of the kind lead somewhere, in any dump."""
        runs = referring(9, {"soft": 2, "weak": 3, "final": 4, "phantom": 5})
        cases: List[Tuple[Union[Weak, WeakKind], int]]
        cases = [(Weak.NONE, 0), (Weak.ALL, 14), (WeakKind.WEAK, 3), (WeakKind.FINAL, 4)]
        for follows, arrays in cases:
            (report,) = WhatCounts([runs]).reports(Way(follows))
            held = report.amount("byte[]").minus(Amount(2, 18))
            self.assertEqual(held, Amount(arrays, 100 * arrays), follows)
        self.assertEqual(usual_class(runs.dump, WeakKind.SOFT), "java/lang/ref/SoftReference")


if __name__ == "__main__":
    unittest.main()
