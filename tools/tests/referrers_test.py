"""Tests what refers to objects of a dump, and how often all references are read for that."""

import unittest
from typing import List, Tuple
from unittest import mock

from heap_tools import object_places
from heap_tools.heap_dump import HeapDump
from heap_tools.heap_objects import HeapObjects
from heap_tools.referrers import MOST_OWNERS, Referrers
from tests.support.dump_writer import BYTE, DumpWriter, word


class ReferrersTest(unittest.TestCase):
    """What refers to objects."""

    def found(self, dump: DumpWriter, *numbers: int) -> List[List[Tuple[int, str]]]:
        """Returns what refers to each of the objects with these identifiers: its identifier, and the field."""
        read = HeapDump(dump.bytes())
        known = Referrers(HeapObjects(read))
        known.look_up(numbers)
        self.assertEqual(known.searches, 1)
        return [[(read.id(each.place + 1), each.field) for each in known.of(number)] for number in numbers]

    def test_references(self) -> None:
        """Bytes that look like an identifier are no reference if they are in a number or across values, and an array
        refers once to each element, a static field like one of an instance, also an inherited one."""
        for id_size in (4, 8):
            dump = DumpWriter(id_size)
            dump.of_class(20, "shop/Atom", fields=["state"])
            dump.of_class(21, "shop/Pair", {"LAST": 300}, fields=["first", "second", "intCount"])
            dump.of_class(22, "[Lshop/Atom;")
            dump.of_class(23, "shop/Triple", fields=["third"], superclass=21)
            dump.instance(300, 20, 0)
            dump.instance(310, 21, 301, 300, word(300))
            dump.values(311, BYTE, dump.form.spell([300]) * 3)
            dump.array(312, 22, 301, 300, 300)
            dump.instance(313, 23, 300, 301, 300, word(301))
            wanted: List[List[Tuple[int, str]]] = [
                [(21, "LAST"), (310, "second"), (312, ""), (313, "second"), (313, "third")],
                [(310, "first"), (312, ""), (313, "first")],
                [],
            ]
            found = self.found(dump, 300, 301, 310)
            self.assertEqual([sorted(each) for each in found], [sorted(each) for each in wanted])

    def test_many(self) -> None:
        """Of objects of one class that refer by one field one more is known than may name something, in one process or
        in several; those of another field are all known."""
        for at_once in (object_places.AT_ONCE, 1):
            dump = DumpWriter()
            dump.of_class(20, "shop/Order", fields=["next", "first"])
            for number in range(100):
                dump.instance(500 + number, 20, 300, 300 if number > 95 else 0)
            with mock.patch.object(object_places, "AT_ONCE", at_once):
                (found,) = self.found(dump, 300)
            by_next = [(500 + number, "next") for number in range(MOST_OWNERS + 1)]
            self.assertEqual(found, by_next + [(500 + number, "first") for number in range(96, 100)])

    def test_searches(self) -> None:
        """Each search goes up by one reference from all objects that were looked up: of a thousand chains of four it
        takes four to come to the end of all, and what is known takes none."""
        dump = DumpWriter()
        dump.of_class(20, "shop/Order", fields=["next"])
        for chain in range(1000):
            for number in range(4):
                first = 10_000 + 10 * chain
                dump.instance(first + number, 20, first + number - 1 if number else 0)
        known = Referrers(HeapObjects(HeapDump(dump.bytes())))
        for number in range(3):
            for chain in range(1000):
                known.look_up([10_000 + 10 * chain + number] if chain or number else range(10_000, 20_000, 10))
                self.assertEqual(
                    [known.dump.id(each.place + 1) for each in known.of(10_000 + 10 * chain + number)][:1],
                    [10_001 + 10 * chain + number],
                )
        self.assertEqual(known.searches, 3)


if __name__ == "__main__":
    unittest.main()
