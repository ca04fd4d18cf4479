"""Tests by which objects a field is said to hold what it holds, and how much of a dump is read for that."""

import unittest
from typing import List
from unittest import mock

from heap_tools import object_parts
from heap_tools.candidates import FIELD, STATIC, Candidate
from heap_tools.field_values import values_by_field
from heap_tools.heap_objects import HeapObjects
from heap_tools.object_parts import FieldUses, elements
from tests.support.dump_writer import BYTE, DumpWriter
from tests.support.laid_out_heap import read
from tests.support.marked import RETAINED, probe_of


class UsesTest(unittest.TestCase):
    """FieldUses"""

    def test_together(self) -> None:
        """The fields that are given are read in one walk, when one of them is asked for, or in one that was begun
        before; another one in a walk of its own, each of them once. Static fields have no instances."""
        dump = DumpWriter()
        dump.of_class(1, "shop/Mail", fields=["cc", "text"])
        dump.of_class(2, "shop/Chat", {"ALL": 8}, fields=["room"])
        for number, values in enumerate(((7, 8), (0, 8))):
            dump.instance(1000 + number, 1, *values)
        dump.instance(2000, 2, 9)
        mails = [Candidate(FIELD, f"shop/Mail.{name}", 2) for name in ("cc", "text")]
        every, room = (Candidate(kind, f"shop/Chat.{name}", 1) for kind, name in ((STATIC, "ALL"), (FIELD, "room")))
        found = read(dump)
        uses = FieldUses(HeapObjects(found), mails)
        with mock.patch.object(object_parts, "values_by_field", side_effect=values_by_field) as walk:
            self.assertEqual((uses.of(every).values, walk.call_count), ([], 0))
            self.assertEqual([uses.count(each) for each in mails], [1, 2])
            self.assertEqual(([uses.only_target(each) for each in mails], walk.call_count), ([0, 8], 1))
            self.assertEqual(([uses.only_target(room), uses.count(room)], walk.call_count), ([9, 1], 2))
        ((instance, value, _),), (other,) = uses.of(mails[0]).values, uses.of(mails[0]).others
        self.assertEqual([found.id(at) for at in (instance + 1, value, other + 1)], [1000, 7, 1001])

    def test_shares(self) -> None:
        """What the instances of a field hold by it is asked once of each probe."""
        dump = DumpWriter()
        dump.of_class(1, "shop/Mail", {"ALL": 1000}, fields=["text"])
        dump.instance(1000, 1, 8)
        dump.values(8, BYTE, bytes(5))
        dump.root(1)
        first, other = (probe_of(dump) for _ in range(2))
        uses, text = FieldUses(HeapObjects(first.runs.dump)), Candidate(FIELD, "shop/Mail.text", 1)
        before = RETAINED.runs
        shares = uses.shares(first, text)
        self.assertEqual(first.unit.of(shares.together), 5)
        self.assertIs(uses.shares(first, text), shares)
        self.assertEqual(RETAINED.runs, before + 1)
        self.assertIsNot(uses.shares(other, text), shares)


class ElementsTest(unittest.TestCase):
    """elements"""

    def test_elements(self) -> None:
        """The elements are objects, not null, class objects or missing ones; nothing is looked up if there are more of
        them than are wanted, but for references that may name no object."""
        for id_size in (4, 8):
            cases: List[List[int]] = [
                [1000, 0, 1001, 1002],
                [1001, 1000, 1001, 0, 1002],
                [1002, 1, 1000, 0, 999, 2, 1001],
            ]
            for targets in cases:
                dump = DumpWriter(id_size)
                dump.of_class(1, "shop/Shop")
                dump.of_class(2, "[Lshop/Queue;")
                dump.array(500, 2, *targets)
                for number in range(1000, 1003):
                    dump.values(number, BYTE, b"7")
                found = read(dump)
                objects = HeapObjects(found)
                wanted, missing = [each for each in targets if each >= 1000], targets.count(999)
                for most in (None, 2, 3, 4):
                    with mock.patch.object(
                        HeapObjects, "places_of", autospec=True, side_effect=HeapObjects.places_of
                    ) as asked:
                        values, _, are_elements, _ = elements(objects, {500}, most, missing)
                    is_too_many = most is not None and len(wanted) > most
                    self.assertEqual(any(1000 in words[0][1] for words in asked.call_args_list), not is_too_many)
                    pairs = [(found.id(each.instance + 1), found.id(each.value)) for each in values]
                    self.assertEqual((pairs, are_elements), ([] if is_too_many else [(it, it) for it in wanted], True))

    def test_unresolved(self) -> None:
        """While an element may be one of the references that name no object, the elements are looked up."""
        dump = DumpWriter()
        dump.of_class(2, "[Lshop/Queue;")
        dump.array(500, 2, 1000, 1000, 1000)
        dump.values(1000, BYTE, b"7")
        for unresolved, count in ((0, 0), (1, 3)):
            self.assertEqual(len(elements(HeapObjects(read(dump)), {500}, 2, unresolved).values), count)


if __name__ == "__main__":
    unittest.main()
