"""Tests of how objects are found by their identifiers, and how much of a dump is read for that."""

import random
import unittest
from typing import List, Sequence
from unittest import mock

from heap_tools import hprof_format as hprof
from heap_tools import object_places, object_records
from heap_tools.heap_dump import HeapDump, Span
from heap_tools.heap_objects import HeapObjects
from heap_tools.object_places import places_by_class
from heap_tools.span_order import SpanOrder, order_of_segments
from tests.support.dump_writer import BYTE, DumpWriter
from tests.support.laid_out_heap import read

#: How many objects a segment of these dumps has.
IN_A_SEGMENT = 5
#: The identifiers of the class of instances and of that of arrays.
ORDER, ORDERS = 1, 2


def dump_of(identifiers: Sequence[int], id_size: int = 8) -> HeapDump:
    """Returns a dump of objects with these identifiers, instances and arrays in turn."""
    dump = DumpWriter(id_size)
    dump.of_class(ORDER, "shop/Order", fields=["next"])
    dump.of_class(ORDERS, "[Lshop/Order;")
    for number, identifier in enumerate(identifiers):
        if number % IN_A_SEGMENT == 0:
            dump.cut()
        if number % 3 == 0:
            dump.instance(identifier, ORDER, 0)
        elif number % 3 == 1:
            dump.array(identifier, ORDERS, *[0] * (number % 4))
        else:
            dump.values(identifier, BYTE, bytes(number % 7))
    return read(dump)


def ordered(count: int) -> List[int]:
    """Returns `count` identifiers in ascending order."""
    return [1000 + 8 * number for number in range(count)]


def two_spaces(count: int) -> List[int]:
    """Returns `count` identifiers of which the last half comes first: the young objects of a generational heap."""
    return ordered(count)[count // 2 :] + ordered(count)[: count // 2]


def mixed(count: int) -> List[int]:
    """Returns `count` identifiers in no order."""
    return random.Random(5).sample(ordered(count), count)


class OrderTest(unittest.TestCase):
    """SpanOrder"""

    def test_around(self) -> None:
        """The parts around identifiers of objects have the objects, also if a space of higher addresses comes first."""
        for identifiers in (ordered(100), two_spaces(100)):
            dump = dump_of(identifiers)
            order = SpanOrder(dump, dump.segments)
            self.assertTrue(order.is_ascending)
            for number, identifier in enumerate(identifiers):
                found = order.around([identifier])
                self.assertIn(1 + number // IN_A_SEGMENT, found)
                self.assertLessEqual(len(found), 2)
                self.assertEqual(list(found.values()), [[identifier]] * len(found))

    def test_no_order(self) -> None:
        """In a dump whose identifiers are in no order they do not ascend; in one without objects nothing is found."""
        self.assertFalse(order_of_segments(dump_of(mixed(100))).is_ascending)
        self.assertEqual(order_of_segments(dump_of([])).around([1000]), {})

    def test_once(self) -> None:
        """The order of a dump is found once."""
        dump = dump_of(ordered(20))
        self.assertIs(order_of_segments(dump), order_of_segments(dump))


class PlacesTest(unittest.TestCase):
    """HeapObjects.places_of"""

    def read_for(self, dump: HeapDump, wanted: Sequence[int]) -> List[Span]:
        """Looks objects up, and returns which segments are read for that."""
        with mock.patch.object(object_places, "placed_part", wraps=object_records.placed_part) as read:
            HeapObjects(dump).places_of(wanted)
        return [call[0][1] for call in read.call_args_list]

    def test_places(self) -> None:
        """In any order of the identifiers each object is found where it is, in the order of the file; null, a class and
        what is missing are no objects."""
        for id_size in (4, 8):
            for order in (ordered, two_spaces, mixed):
                identifiers = order(60)
                dump = dump_of(identifiers, id_size)
                every = [(dump.id(at + 1), at) for at, tag in dump.sub_records(dump.segments) if tag in hprof.OBJECTS]
                objects = HeapObjects(dump)
                self.assertEqual(list(objects.places_of([0, ORDER, 7, *reversed(identifiers)]).items()), every)
                for identifier, at in every:
                    self.assertEqual(objects.places_of([identifier, 1004]), {identifier: at})

    def test_cost(self) -> None:
        """If identifiers ascend, at most two segments are read for an object, and none for a class; for one that is
        missing all are, but none twice."""
        identifiers = two_spaces(100)  # in so few segments that this process reads them
        dump = dump_of(identifiers)
        self.assertEqual(self.read_for(dump, [0, ORDER, ORDERS]), [])
        for some in (identifiers[:1], identifiers[70:71], [identifiers[3], identifiers[50], identifiers[80]]):
            self.assertLessEqual(len(self.read_for(dump_of(identifiers), some)), 2 * len(some))
            self.read_for(dump, some)
            self.assertEqual(self.read_for(dump, some), [])
        self.assertEqual(sorted(self.read_for(dump_of(identifiers), [*identifiers[:1], 1004])), dump.segments)


class ChosenTest(unittest.TestCase):
    """chosen_objects"""

    def test_chosen(self) -> None:
        """Objects are chosen by their identifiers, in the order of the file."""
        for id_size in (4, 8):
            identifiers = mixed(30)
            dump = dump_of(identifiers, id_size)
            for some in (identifiers[4:9], identifiers, identifiers[:0]):
                found = list(object_places.chosen_objects(dump, dump.segments, {*some}))
                self.assertEqual([identifier for identifier, _ in found], some)
                self.assertEqual([dump.id(at + 1) for _, at in found], some)


class PlacesByClassTest(unittest.TestCase):
    """places_by_class"""

    def test_places(self) -> None:
        """Instances are found by their class, in one process or several, and with 0 what else may refer to others; the
        objects are walked over once for each dump."""
        for id_size in (4, 8):
            identifiers = mixed(300)
            dump = dump_of(identifiers, id_size)
            with mock.patch.object(object_places, "placed_objects", wraps=object_records.placed_objects) as walks:
                for _ in range(2):
                    found = places_by_class(dump)
            self.assertEqual([dump.id(at + 1) for at in found[ORDER]], identifiers[::3])
            others = {dump.bytes[at] for at in found[0]}
            self.assertEqual(others, {hprof.CLASS_DUMP, hprof.OBJECT_ARRAY})
            self.assertLessEqual(walks.call_count, 1)  # none, if other processes did it


if __name__ == "__main__":
    unittest.main()
