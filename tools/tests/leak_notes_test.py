"""Tests what leaks says beside its lines."""

import unittest
from typing import Dict, List
from unittest import mock

from heap_tools.candidates import FIELD, Candidate, joint_name
from heap_tools.leak_answer import Answer, Beside
from heap_tools.leak_lines import Line, LineObjects
from heap_tools.leak_notes import NOTHING_LASTS, PATTERNS, Notes, captured_words, lines_words, notes_of, notes_words
from heap_tools.leak_notes import own_classes_words, rest_words, without_values
from heap_tools.leak_options import Bounds
from heap_tools.line_order import LASTS
from heap_tools.naming import Name
from heap_tools.probe import Retained
from heap_tools.reports import Amount, Report, Row, Unit
from heap_tools.thread_counts import ThreadCount
from heap_tools.which_object import HoldingObject


def line(name: str, holders: int, share: float = 90.0, before: int = 9) -> Line:
    """Returns a line about a field with so many holders: nine hold 90 bytes now, and as many as there were held ten
    bytes each before, or none."""
    held = Retained([Candidate(FIELD, name, holders)], Amount(9, 90), Amount(9, 90), {})
    was = Amount(before, 10 * before) if before < 9 else Amount()
    return Line(held, was, share, [], holders, before)


def holding(*names: str) -> List[HoldingObject]:
    """Returns an object with these names."""
    return [
        HoldingObject(
            "shop/Basket", [Name("its field name", name) for name in names], Amount(1, 80), 88.0, of=9, instances=9
        )
    ]


OWN = line("shop/Basket.items", 9)


class LeakNotesTest(unittest.TestCase):
    """What is said beside the lines."""

    def test_objects(self) -> None:
        """Which objects of each line gained most, or hold most; without texts of the dump if these are not to be
        shown."""
        found = LineObjects(OWN.held, holding("one"))
        gained = found._replace(objects=[each._replace(has_gained=True) for each in holding("one") * 2])
        lines = [OWN, OWN._replace(objects=found), OWN._replace(objects=gained)]
        second, third = lines_words(lines)
        said = "line 2: 1 of 9 shop/Basket.items holds most: shop/Basket (its field name one): 88%"
        self.assertEqual(second, said)
        self.assertIn("line 3: 2 of 9 shop/Basket.items gained most: ", third)
        hidden, _ = lines_words(without_values(lines, False))
        self.assertIn("holds most: shop/Basket (its field name): 88%", hidden)
        self.assertEqual(without_values(lines, True), lines)

    def test_rest(self) -> None:
        """What is in no line, and which option shows more."""
        search = mock.Mock(probe=mock.Mock(unit=Unit.BYTES))
        bounds, more = Bounds(30, 10, 2), "18 bytes"
        for count, hidden, left, of, said in (
            (0, 0, 90, bounds, ["no field, local variable or thread alone holds 30% of 18 bytes: see --at-least"]),
            (0, 0, 90, Bounds(1, 1), ["no field, local variable or thread alone holds 1% of 18 bytes"]),
            (1, 0, 8, bounds, []),
            (1, 0, -8, bounds, []),
            (1, 0, 9, bounds, ["10% of 18 bytes are in no line: nothing else that lasts holds 10%"]),
            (2, 0, 9, bounds, ["10% of 18 bytes are in no line: see --top"]),
            (2, 1, 9, Bounds(30, 10, 2, True), ["1 more holds 30% or more: see --top"]),
            (2, 2, 9, Bounds(30, 10, 2, True), ["2 more hold 30% or more: see --top"]),
            (2, 0, 9, Bounds(30, 10, 9, True), []),
        ):
            answer = Answer([OWN] * count, hidden, search, Amount(9, 90), Amount(0, left), True)
            self.assertEqual(rest_words(answer, of, more), said)
        answer = Answer([OWN], 0, search, Amount(9, 90), Amount(0, 9), True, is_above=True)
        said = ["10% of 18 bytes are in no line: what is above a line holds 10% or more: see --all"]
        self.assertEqual(rest_words(answer, bounds, more), said)
        answer = answer._replace(left=Amount(), beside=Beside(OWN.held, 40.4))
        name = joint_name(OWN.held.candidates)
        said = [f"beside the lines, {name} gained 40% of 18 bytes, while as much was lost elsewhere: see --all"]
        self.assertEqual(rest_words(answer, bounds, more), said)

    def test_nothing_lasts(self) -> None:
        """The sentence says which part of the growth something that lasts should have."""
        self.assertEqual((LASTS, "a quarter of what grew" in NOTHING_LASTS), (1 / 4, True))

    def test_captured(self) -> None:
        """Of fields of lambdas the first one is explained, from the first line and the top of its path down."""
        first, second = line("shop/Bus$$Lambda.arg$2", 9), line("shop/Mailer$$Lambda.arg$1", 9)
        said = "field shop/Bus$$Lambda.arg$2 is a variable that a lambda in shop/Bus captured: "
        for lines in ([OWN, first, second], [second._replace(above=[OWN.held, first.held]), second]):
            self.assertEqual(captured_words(lines).partition("arg$1 is")[0], said)
        self.assertEqual(captured_words([OWN, line("shop/Lambda.arg$1", 9)]), "")

    def test_threads(self) -> None:
        """Of many patterns of threads only the first ones are said."""
        counts = [ThreadCount(f"pool-{letter}-*", 1, 9, []) for letter in "abcdefgh"]
        with mock.patch("heap_tools.leak_notes.grown_thread_counts", return_value=counts):
            comparison = mock.Mock(weak_words="", dumps=[])
            for dump in (comparison.first.dump, comparison.last.dump):
                dump.classes = dump.names = {}
            found = notes_of(comparison, [])
        self.assertEqual((found, PATTERNS), (Notes(counts[:3], []), 3))

    def test_own_classes(self) -> None:
        """The own classes of which there are most objects more, those first that grew at each step; in one sentence."""

        def reports(*steps: Dict[str, int]) -> List[Report]:
            rows = [[Row(name, Amount(count, 9 * count)) for name, count in step.items()] for step in steps]
            return [Report(each) for each in rows]

        before = {"shop/Job": 5, "shop/Task": 9, "java/lang/String": 1, "byte[]": 1, "<class>": 1}
        after = {"shop/Job": 6005, "shop/Task": 9, "java/lang/String": 70, "byte[]": 70, "<class>": 70}
        said = "own classes that grew: 6,000 shop/Job"
        self.assertEqual(own_classes_words(reports(before, after)), said)
        self.assertEqual(own_classes_words(reports(after, before)), "")
        more = {**after, "A$$Lambda$1+0x0a": 2, "A$$Lambda$2+0x0b": 2, "B": 3, "[LC;": 2, "D": 1}
        said = "own classes that grew: 6,000 shop/Job, 4 A$$Lambda, 3 B, and 2 classes more: see grown --own"
        self.assertEqual(own_classes_words(reports(before, more)), said)
        middle = {**before, "shop/Job": 6005, "B": 1}
        said = "own classes that grew: 3 B, 6,000 shop/Job, 4 A$$Lambda, and 2 classes more: see grown --own"
        self.assertEqual(own_classes_words(reports(before, middle, more)), said)
        found = Notes([], ["the end"], own_classes="own classes that grew: 3 B")
        self.assertEqual(notes_words(found), ["own classes that grew: 3 B", "the end"])


if __name__ == "__main__":
    unittest.main()
