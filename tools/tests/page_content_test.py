"""Tests what the page of leaks shows of reports and lines."""

import unittest
from typing import List, Tuple
from unittest import mock

from heap_tools.candidates import FIELD, STATIC, THREADS, Candidate
from heap_tools.leak_lines import Line
from heap_tools import page
from heap_tools.page_content import command_line, contents_of_growth, growth_entries, share_entries, steps_from
from heap_tools.probe import GrowthProbe, Retained
from heap_tools.reports import Amount, Report, Row, Unit


def report(*rows: Row) -> Report:
    """Returns a report with these rows."""
    return Report(list(rows))


def line(*candidates: Candidate) -> Line:
    """Returns a line of these candidates."""
    held = Retained(candidates, Amount(2, 20), Amount(2, 20), {})
    return Line(held, Amount(1, 10), 100.0, [], 1, 1)


class ContentTest(unittest.TestCase):
    """Functions that fill the page."""

    def test_grown_classes(self) -> None:
        """Classes that grew, with each of their amounts; class objects and what did not grow are left out."""
        first = report(Row("<class>", Amount(9, 0)), Row("A", Amount(1, 8)), Row("B", Amount(3, 9)))
        last = report(Row("<class>", Amount(99, 50)), Row("A", Amount(4, 32)), Row("B", Amount(3, 9)))
        last.families["C"] = Amount(9, 18)
        for unit, wanted in ((Unit.BYTES, ["A", "C"]), (Unit.OBJECTS, ["C", "A"])):
            found = growth_entries([first, report(), last], unit)
            self.assertEqual([each.name for each in found], wanted)
            of_a = next(each for each in found if each.name == "A")
            self.assertEqual(of_a.amounts, [Amount(1, 8), Amount(), Amount(4, 32)])
            self.assertEqual(of_a.growth, Amount(3, 24))

    def test_what_line_1_holds(self) -> None:
        """The classes of what it holds in the last dump and what it held in the first: those that grew most first."""
        static = Candidate(STATIC, "shop/Cache.ALL", 1, ())
        now = {"A": Amount(5, 50), "B": Amount(9, 40), "C": Amount(1, 1)}
        was = Retained([static], Amount(), Amount(), {"A": Amount(4, 40), "B": Amount(1, 10), "D": Amount(1, 2)})
        held = Retained([static], Amount(15, 91), Amount(15, 91), now)
        it = Line(held, Amount(6, 52), 100.0, [], 1, 1)
        for unit, wanted in ((Unit.BYTES, "BACD"), (Unit.OBJECTS, "BACD")):
            probe = mock.create_autospec(GrowthProbe, instance=True, unit=unit)
            probe.before.return_value = was
            found = contents_of_growth(it, probe)
            self.assertEqual("".join(each.name for each in found), wanted)
            self.assertEqual(found[0].amounts, [Amount(1, 10), Amount(9, 40)])
            self.assertEqual(found[3].amounts, [Amount(1, 2), Amount()])
        share = page.ShareEntry([page.FieldEntry(STATIC, "shop/Cache.ALL")], now)
        self.assertEqual([share_entries([it, it], each) for each in (False, True)], [[share, share], [share]])
        self.assertEqual(share_entries([], False), [])

    def test_steps(self) -> None:
        """Commands on the first line and the first own class; held has no word for all threads."""
        static = Candidate(STATIC, "shop/Cache.ALL", 1)
        field = Candidate(FIELD, "shop/Cache$Node.next", 7)
        every = Candidate(THREADS, "", 9)
        classes = ["java/lang/String", "shop/Order"]
        cases: List[Tuple[List[Line], List[str], List[str]]] = [
            ([line(static), line(field)], classes, ["held -- -d 'static shop/Cache.ALL'", "holders -- -d shop/Order"]),
            ([line(field, static)], [], ["held -- -d 'shop/Cache$Node.next, static shop/Cache.ALL'"]),
            ([line(every)], classes[:1], ["holders -- -d java/lang/String"]),
            ([], [], []),
        ]
        for lines, names, wanted in cases:
            self.assertEqual([each.command for each in steps_from("-d", lines, names, False)], wanted)
        weak = [each.command for each in steps_from("d", [line(static)], classes, True)]
        self.assertEqual(weak, ["held --weak d 'static shop/Cache.ALL'", "holders --weak d shop/Order"])
        self.assertEqual(command_line(["held"], "two words", "A.b"), "held 'two words' A.b")


if __name__ == "__main__":
    unittest.main()
