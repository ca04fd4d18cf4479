"""Tests what the order of lines is told of what was found, and of which lines it is asked which objects gained most."""

import unittest
from typing import List, Optional, Sequence, Tuple
from unittest import mock

from heap_tools.candidates import FIELD, STATIC, Candidate
from heap_tools.field_values import values_by_field
from heap_tools.heap_objects import FieldValue
from heap_tools.leak_lines import LineObjects, Lines
from heap_tools.line_order import NEARLY, lasting_gain
from heap_tools.naming import Name
from heap_tools.object_parts import Parts
from heap_tools.reports import Amount
from heap_tools.which_object import HoldingObject, PartsOfField
from tests.support.dump_writer import BYTE, DumpWriter
from tests.support.marked import growth_of, held_by, probe_of
from tests.support.told_probe import Things, ToldGains, field

ROOT, INBOX, TEXT = (
    Candidate(STATIC, "shop/A.ALL", 1),
    field("shop/Tenant.inbox", 500),
    field("shop/Mail.text", 900),
)
FIELDS = [field(f"shop/{name}") for name in ("S.blue", "S.green", "Other.all")]
#: All three lead to the mails, and the first two to more.
MAILS: Things = [([[each.name] for each in (ROOT, INBOX, TEXT)], 100), ([["shop/A.ALL"], ["shop/Tenant.inbox"]], 5)]


def holding(*percents: float) -> List[HoldingObject]:
    """Returns objects with these shares of what a field gained."""
    return [
        HoldingObject("shop/Tenant", [Name("its field name", "one")], Amount(1, 80), each, True) for each in percents
    ]


class NearlyAllTest(unittest.TestCase):
    """Whether a line counts as above another one."""

    def test_holds_part(self) -> None:
        """It is above one that has up to a tenth of its objects elsewhere."""
        for elsewhere, is_above in ((10, True), (11, False)):
            things: Things = [([["A.a"], ["L.list"]], 90), ([["L.list"]], elsewhere)]
            probe = ToldGains([], things)
            upper, lower = (probe.retained([field(name)]) for name in ("A.a", "L.list"))
            self.assertEqual(probe.holds_part(upper, lower, NEARLY), is_above, elsewhere)


class LinesTest(unittest.TestCase):
    """Lines"""

    def lines(
        self,
        found: Sequence[Candidate],
        earlier: Things,
        things: Things,
        before: int = 0,
        with_value: Optional[int] = None,
    ) -> Lines:
        """Returns the lines about `found`, each of which had `before` instances, and has a value in all or in
        `with_value`."""
        probe = ToldGains(earlier, things, FIELDS)
        uses = mock.Mock(count=lambda each: each.count if with_value is None else with_value)
        search = mock.Mock(found=[probe.retained([each]) for each in found], steady=[])
        with mock.patch.object(type(probe.earlier), "instances", return_value=before):
            with mock.patch("heap_tools.leak_lines.FieldUses", return_value=uses):
                return Lines(search, probe, [])

    def asked(self, objects: Sequence[List[HoldingObject]]) -> Tuple[Optional[LineObjects], List[str], int]:
        """Asks of the mails which objects gained most: `objects` are what is found, of one line after another. Returns
        what is noted, the line that is the answer then, and how often it was asked."""
        lines = self.lines([ROOT, INBOX, TEXT], [], MAILS, before=0)
        with mock.patch("heap_tools.leak_lines.objects_with_most", side_effect=objects) as asked:
            found = lines.ask_for_objects()
        return found, [str(held.candidates[0]) for held in lines.sorted()], asked.call_count

    def test_objects(self) -> None:
        """A line of which one object gained most is the answer; no other one is asked then. If several did, the first
        such line is noted, and the order stays."""
        found, names, count = self.asked([holding(88)])
        assert found
        self.assertEqual((found.objects, names[0], count), (holding(88), "shop/Tenant.inbox", 1))
        found, names, count = self.asked([[], holding(40, 30), []])
        assert found
        self.assertEqual((str(found.held.candidates[0]), names[0], count), ("shop/Mail.text", "static shop/A.ALL", 3))
        self.assertEqual(self.asked([[], [], []])[::2], (None, 3))

    def leading(self, answer: Candidate, named: bool) -> Tuple[Optional[LineObjects], List[int]]:
        """Returns what leads to the answer `answer`, the object 77, below fields of 24 and of 9 instances, and how many
        instances have the fields that are asked which of them does: it has a name if `named`."""
        above = [field("shop/Topic.feed", 24), field("shop/Feed.store", 9), Candidate(STATIC, "shop/A.ALL", 1)]
        things: Things = [([[each.name] for each in [answer, *above]], 100), ([["shop/A.ALL"], [above[0].name]], 5)]
        things.append(([[each.name] for each in above], 1))
        lines = self.lines([*above, answer], [], things, before=1)
        lines.uses = mock.Mock(**{"of.return_value": Parts([FieldValue(77, 78)])})
        (found,) = holding(100)
        found = found if named else found._replace(names=[])
        with mock.patch("heap_tools.leak_lines.objects_with_most", return_value=[]):
            with mock.patch("heap_tools.leak_lines.object_leading_to", return_value=found) as asked:
                leading = lines.ask_for_objects()
        self.assertEqual({call[0][2] for call in asked.call_args_list} - {77}, set())
        return leading, [call[0][1].instances for call in asked.call_args_list]

    def test_leading(self) -> None:
        """If the answer is the field of one object, that is named by what leads there of the nearest line above; by the
        next one if that has no name. It is not asked for if it is a static field, or if several have the field."""
        found, asked = self.leading(field("shop/Store.events"), True)
        assert found
        self.assertEqual((str(found.held.candidates[0]), asked), ("shop/Feed.store", [9]))
        self.assertEqual(self.leading(field("shop/Store.events"), False), (None, [9, 24]))
        self.assertEqual(self.leading(field("shop/Store.events", 2), True), (None, []))
        self.assertEqual(self.leading(Candidate(STATIC, "shop/Store.EVENTS", 1), True), (None, []))

    def test_elements(self) -> None:
        """A field that came with new instances is the answer if elements of what was the answer gained most by it."""
        for part, wanted in ((0.8, "shop/Tenant.inbox"), (0.4, "static shop/A.ALL")):
            lines = self.lines([ROOT, INBOX], [], MAILS, before=0)
            with mock.patch("heap_tools.leak_lines.LastingElements") as elements:
                elements.return_value.gain.side_effect = lambda asked: part * 105
                lines.ask_for_elements()
            self.assertEqual(elements.return_value.gain.call_args_list, [mock.call(INBOX)])
            self.assertEqual(elements.call_args[0][1].candidates, [ROOT])
            self.assertEqual(str(lines.sorted()[0].candidates[0]), wanted)

    def test_kin(self) -> None:
        """What a field of the same class held before did not grow."""
        _, green, other = FIELDS
        ways = [["shop/S.blue"], ["shop/S.green"]]
        lines = self.lines([green, other], [(ways[:1], 90)], [(ways[1:], 90), ([["shop/Other.all"]], 40)], before=1)
        self.assertEqual([str(held.candidates[0]) for held in lines.sorted()], ["shop/Other.all", "shop/S.green"])

    def test_kin_of_what_held_hardly_any(self) -> None:
        """What the fields of a class held before is asked only of a field that held up to a tenth of what it holds."""
        _, green, _ = FIELDS
        for before, is_asked in ((10, True), (11, False)):
            earlier: Things = [([["shop/S.green"]], before), ([["shop/S.blue"]], 90)]
            lines = self.lines([green], earlier, [([["shop/S.blue"], ["shop/S.green"]], 100)], before=1)
            assert isinstance(lines.probe, ToldGains)
            asked = ["shop/S.blue", "shop/S.green"] in lines.probe.asked("before")
            self.assertEqual(asked, is_asked, before)

    def test_chain(self) -> None:
        """A field that holds more than half of its own instances, and has a value in more than half, is a chain."""
        for held, with_value, is_chain in ((100, 199, False), (101, 199, True), (199, 100, False), (199, 101, True)):
            follower = Candidate(FIELD, "shop/Thing.next", 200, classes=frozenset(["shop/Thing"]))
            lines = self.lines([follower], [], [([["shop/Thing.next"]], held)], with_value=with_value)
            self.assertEqual(lines.features[0].is_chain, is_chain, (held, with_value))

    def test_with_value(self) -> None:
        """If too many instances have a value to count them, all count, and no more than are reachable."""
        for every, count, wanted in ((500_000, 100_001, 500_000), (500_000, 100_000, 100_000), (9, 12, 9), (9, 0, 1)):
            lines = self.lines([field("shop/Thing.next", every)], [], MAILS, with_value=count)
            self.assertEqual(lines.features[0].with_value, wanted)

    def test_evenness(self) -> None:
        """How evenly a line gained is seen by what it held in the dumps between, and when these were made."""
        for held, time, wanted in ((50, 30, 1.0), (20, 30, 0.4), (20, 12, 1.0), (0, 30, 0.0)):
            probe = ToldGains([], [([["shop/A.ALL"]], 100)])
            between = mock.Mock(**{"retained.return_value": probe.retained([ROOT])._replace(amount=Amount(1, held))})
            probe.earlier.runs.dump.time, between.runs.dump.time, probe.runs.dump.time = 0, time, 60
            search = mock.Mock(found=[probe.retained([ROOT])], steady=[])
            with mock.patch("heap_tools.leak_lines.uses_of"):
                lines = Lines(search, probe, [between])
            self.assertAlmostEqual(lines.features[0].evenness, wanted)

    def test_kin_of_which(self) -> None:
        """What the fields of a class hold counts only if they held more than half of it before: else it cannot show
        that they gained little."""
        _, green, _ = FIELDS
        for before, is_asked in ((50, False), (51, True)):
            things: Things = [([["shop/S.blue"], ["shop/S.green"]], 100)]
            lines = self.lines([green], [([["shop/S.blue"]], before)], things, before=1)
            assert isinstance(lines.probe, ToldGains)
            self.assertEqual(len(lines.others), is_asked)
            self.assertIn(["shop/S.blue", "shop/S.green"], lines.probe.asked("before"))


class Tree(DumpWriter):
    """A static field names a node, which has a node for each of `leaves`, and that so many. Each has the former in the
    array of its field `children`, null if there are none, and 100 bytes."""

    def __init__(self, leaves: Sequence[int]) -> None:
        super().__init__()
        self.of_class(1, "shop/Tree", {"ROOT": 1000})
        self.of_class(2, "shop/Node", fields=["children", "content"])
        self.of_class(3, "[Lshop/Node;")
        self.node(1000, range(1001, 1001 + len(leaves)))
        for number, count in enumerate(leaves):
            every = range(10_000 * (number + 1), 10_000 * (number + 1) + count)
            self.node(1001 + number, every)
            for leaf in every:
                self.node(leaf, ())
        self.root(1)

    def node(self, number: int, children: Sequence[int]) -> None:
        """Writes a node."""
        self.instance(number, 2, number + 2_000_000 if children else 0, number + 4_000_000)
        if children:
            self.array(number + 2_000_000, 3, *children)
        self.values(number + 4_000_000, BYTE, bytes(100))


class TreeTest(unittest.TestCase):
    """Lines about a field of nodes, most of which have no value in it."""

    def lines(self, before: Sequence[int], after: Sequence[int], name: str = "children") -> Lines:
        """Returns the lines about a field between two dumps of a tree."""
        probe = growth_of(Tree(before), Tree(after))
        return Lines(mock.Mock(found=[held_by(probe, f"shop/Node.{name}")], steady=[]), probe)

    def test_full_node(self) -> None:
        """What one of 100 nodes gained in leaves did not come with new nodes, since these have no children. It can be
        asked which node that is: a tree is no chain."""
        lines = self.lines([3] * 100, [3] * 99 + [900])
        (line,) = lines.features
        self.assertEqual((line.instances, line.with_value), (1298, 101))
        self.assertEqual((line.instances_before, line.with_value_before), (401, 101))
        self.assertEqual((lasting_gain(line), line.is_chain), (line.gain, False))
        found = lines.ask_for_objects()
        assert found
        self.assertEqual([(each.class_name, each.of) for each in found.objects], [("shop/Node", 101)])

    def test_new_nodes(self) -> None:
        """What new nodes with children hold came with them."""
        (line,) = self.lines([3] * 100, [3] * 400).features
        self.assertEqual((line.with_value_before, line.with_value), (101, 401))
        self.assertLess(lasting_gain(line), 0.01 * line.gain)

    def test_asked(self) -> None:
        """How many had a value in the first dump is asked only if more instances have the field now, and some of them
        no value."""
        for before, after, name, is_asked in (
            ([3] * 100, [4] * 100, "children", True),
            ([4] * 100, [3] * 99 + [99], "children", False),
            ([3] * 100, [4] * 100, "content", False),
        ):
            with mock.patch("heap_tools.object_parts.values_by_field", wraps=values_by_field) as walks:
                lines = self.lines(before, after, name)
            self.assertEqual(walks.call_count, 2 if is_asked else 1, (name, is_asked))
            if not is_asked:
                self.assertEqual(lines.features[0].with_value_before, lines.features[0].instances_before)


class Carts(DumpWriter):
    """A static field names an array of carts, of which each has so many bytes in its field `items`. The second cart and
    the third have the same bytes if they are `sharing`."""

    def __init__(self, sizes: Sequence[int], sharing: bool = False) -> None:
        super().__init__()
        self.of_class(1, "shop/Shop", {"CARTS": 1000})
        self.of_class(2, "shop/Cart", fields=["items"])
        self.of_class(3, "[Lshop/Cart;")
        self.array(1000, 3, *range(2000, 2000 + len(sizes)))
        for number, size in enumerate(sizes):
            self.instance(2000 + number, 2, 30_000 + (1 if sharing and number == 2 else number))
            self.values(30_000 + number, BYTE, bytes(size))
        self.root(1)


class NewInstancesTest(unittest.TestCase):
    """Lines about a field of many instances, of which some came."""

    def answer(self, sizes: Sequence[int], later: Sequence[int]) -> Tuple[str, Optional[float]]:
        """Returns the answer between two dumps with carts of these sizes, and what is known of the largest ones."""
        probe = growth_of(Carts(sizes), Carts(later))
        found = [held_by(probe, "shop/Shop.CARTS"), held_by(probe, "shop/Cart.items")]
        lines = Lines(mock.Mock(found=found, steady=[]), probe)
        lines.ask_for_objects()
        return str(lines.sorted()[0].candidates[0]), lines.features[1].of_largest

    def test_larger(self) -> None:
        """If as many of the largest carts as came hold what was gained, an average over all carts shows nothing that
        lasts: what came is held above them."""
        holder, of_largest = self.answer([10] * 100, [10] * 100 + [500] * 12)
        assert of_largest
        self.assertEqual(holder, "static shop/Shop.CARTS")
        self.assertAlmostEqual(of_largest, 6000 / 7000)

    def test_all(self) -> None:
        """If each cart gained as much, those that were there before gained most, whichever came."""
        holder, of_largest = self.answer([10] * 100, [70] * 112)
        assert of_largest
        self.assertEqual(holder, "shop/Cart.items")
        self.assertAlmostEqual(of_largest, 12 / 112)

    def test_none_came(self) -> None:
        """It is not asked if no cart came, or if the carts are few."""
        self.assertEqual(self.answer([10] * 100, [70] * 100), ("shop/Cart.items", None))
        self.assertEqual(self.answer([10] * 40, [70] * 50), ("shop/Cart.items", None))

    def test_too_many(self) -> None:
        """Of more carts than can be asked it is not known, and it is not asked again."""
        with mock.patch("heap_tools.which_object.MOST_OBJECTS", 100):
            holder, of_largest = self.answer([10] * 100, [10] * 100 + [500] * 12)
        self.assertEqual((holder, of_largest), ("shop/Cart.items", 0.0))

    def test_part_of_largest(self) -> None:
        """What two hold only together is held by none of them."""
        probe = probe_of(Carts([60, 20, 10, 30], sharing=True))
        shares = PartsOfField(probe, held_by(probe, "shop/Cart.items")).shares
        parts = [round(shares.part_of_largest(count), 3) for count in range(5)]
        self.assertEqual(parts, [round(size / 110, 3) for size in (0, 60, 90, 90, 90)])


if __name__ == "__main__":
    unittest.main()
