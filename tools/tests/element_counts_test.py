"""Tests how many elements the containers are said to have to which fields lead."""

import struct
import unittest
from typing import Optional

from heap_tools.element_counts import MOST_CONTAINERS, counts_of, element_counts
from heap_tools.heap_dump import HeapDump
from heap_tools.heap_objects import HeapObjects
from tests.support.dump_writer import BYTE, DumpWriter, word
from tests.support.marked import held_by, probe_of


def long(number: int) -> bytes:
    """Returns a long."""
    return struct.pack(">q", number)


def containers(id_size: int = 8) -> DumpWriter:
    """Returns a dump with containers of the JDK, each with its elements, or their number, at another place."""
    dump = DumpWriter(id_size)
    dump.of_class(1, "java/util/ArrayList", fields=["elementData", "size"])
    dump.of_class(2, "java/util/HashMap", fields=["table", "size"])
    dump.of_class(3, "java/util/LinkedHashMap", fields=["head"], superclass=2)
    dump.of_class(4, "java/util/HashSet", fields=["map"])
    dump.of_class(5, "[Ljava/lang/Object;")
    dump.of_class(6, "java/util/ArrayDeque", fields=["elements", "head int"])
    dump.of_class(7, "java/util/concurrent/ConcurrentHashMap", fields=["counterCells", "baseCount long"])
    dump.of_class(8, "[Ljava/util/concurrent/ConcurrentHashMap$CounterCell;")
    dump.of_class(9, "java/util/concurrent/ConcurrentHashMap$CounterCell", fields=["value long"])
    dump.of_class(10, "java/util/concurrent/LinkedBlockingQueue", fields=["head", "count"])
    dump.of_class(11, "java/util/concurrent/atomic/AtomicInteger", fields=["value int"])
    dump.of_class(12, "java/util/Collections$SynchronizedMap", fields=["m"])
    dump.of_class(13, "shop/Order", fields=["size", "count int"])
    dump.instance(100, 1, 0, word(7))
    dump.instance(101, 3, 900, 0, word(3))
    dump.instance(102, 4, 101)
    dump.array(103, 5, 100, 0, 101, 0)
    dump.instance(104, 6, 103, word(1))
    dump.instance(105, 7, 106, long(-2))
    dump.array(106, 8, 107, 0, 108)
    dump.instance(107, 9, long(5))
    dump.instance(108, 9, long(40))
    dump.instance(109, 10, 0, 110)
    dump.instance(110, 11, word(600))
    dump.instance(111, 12, 105)
    dump.instance(112, 13, word(9), word(9))
    dump.values(113, BYTE, bytes(50))
    return dump


class CountsTest(unittest.TestCase):
    """counts_of"""

    def test_containers(self) -> None:
        """The number that a container of the JDK keeps, or the references in its array, also if it wraps another one.
        Of what is no such container nothing is known."""
        known = {100: 7, 101: 3, 102: 3, 103: 2, 104: 2, 105: 43, 109: 600, 111: 43}
        for id_size in (4, 8):
            objects = HeapObjects(HeapDump(containers(id_size).bytes()))
            self.assertEqual(counts_of(objects, [*known, 112, 113, 0, 999]), known)


class OfLinesTest(unittest.TestCase):
    """element_counts"""

    def count(self, dump: DumpWriter, name: str) -> Optional[int]:
        """Returns how many elements the containers have to which a field leads."""
        probe = probe_of(dump)
        (found,) = element_counts(probe, [held_by(probe, name).candidates])
        return found

    def test_fields(self) -> None:
        """Of a static field, of one field of several instances together, a container of which two know once."""
        for targets, count in (((100, 101, 100), 10), ((104,), 2), ((100, 112), None)):
            dump = containers()
            dump.of_class(20, "shop/Shop", {"ALL": 200, "LIST": targets[0]}, fields=["stock"])
            dump.array(200, 5, *range(201, 201 + len(targets)))
            for number, target in enumerate(targets, 201):
                dump.instance(number, 20, target)
            dump.root(20)
            self.assertEqual(self.count(dump, "shop/Shop.stock"), count)
            self.assertEqual(self.count(dump, "shop/Shop.LIST"), {100: 7, 104: 2}[targets[0]])
            self.assertEqual(self.count(dump, "shop/Shop.ALL"), len(targets))

    def test_none(self) -> None:
        """None of several fields, of too many instances, and if some instances are unreachable."""
        for count, lost, known in ((3, 0, 21), (3, 1, None), (MOST_CONTAINERS + 1, 0, None)):
            dump = containers()
            dump.of_class(20, "shop/Shop", {"ALL": 2000, "LIST": 100}, fields=["stock"])
            dump.array(2000, 5, *range(2001, 2001 + count))
            for number in range(2001, 2001 + count + lost):
                dump.instance(number, 20, number + 5000)
                dump.instance(number + 5000, 1, 0, word(7))
            dump.root(20)
            self.assertEqual(self.count(dump, "shop/Shop.stock"), known)
            probe = probe_of(dump)
            both = [*held_by(probe, "shop/Shop.LIST").candidates, *held_by(probe, "shop/Shop.ALL").candidates]
            self.assertEqual(element_counts(probe, [both, []]), [None, None])


if __name__ == "__main__":
    unittest.main()
