"""Tests of the class objects that a heap has and its dump lacks."""

import unittest
from unittest import mock

from heap_tools import unloaded_classes as module
from heap_tools.heap_dump import HeapDump
from heap_tools.heap_layout import Layout
from heap_tools.reports import Amount
from heap_tools.unloaded_classes import unloaded_classes
from tests.support.dump_writer import BYTE
from tests.support.laid_out_heap import LaidOutHeap

#: What class objects take that the archive has and the dump lacks.
SIZES = [112, 120, 136, 424]


def archive(id_size: int = 8, shuffled: bool = False, hole: int = 0) -> HeapDump:
    """Returns a dump with an array of the virtual machine that refers to class objects which were loaded and to others,
    to strings, and to nothing. The last of the others has a hole of so many bytes after it."""
    heap = LaidOutHeap(Layout(8, 12, 4, 16) if id_size == 8 else Layout(8, 8, 4, 12), id_size)
    heap.mixed(200)
    text = heap.of_class("java/lang/String", 1, 2)
    lacking = []
    for number, size in enumerate(SIZES):
        heap.of_class(f"jdk/Loaded{number}", number=heap.place(112))
        lacking.append(heap.place(size))
        heap.place(hole if size == SIZES[-1] else 0)
        heap.instance(text)
    table = heap.of_class("[Ljava/lang/Object;", number=heap.place(112))
    strings = [heap.instance(text) for _ in range(100)]
    heap.array(table, 400, [*lacking, 0, *strings, *list(heap.classes)[-3:], lacking[0]])
    # The identifier of the array's class in an array of bytes, and in one of another class.
    heap.values(BYTE, 8)
    heap.array(heap.of_class("[Lshop/Table;", number=heap.place(112)), 2, [lacking[0] + 8, table])
    heap.mixed(200)
    return heap.read(shuffled)


class UnloadedClassesTest(unittest.TestCase):
    """The class objects that an array refers to, but the dump lacks."""

    def test_sizes(self) -> None:
        """They are counted once each, and take what is between them and the next object; in either order of a file and
        in either form of identifiers."""
        for id_size in (4, 8):
            for shuffled in (False, True):
                found = unloaded_classes(archive(id_size, shuffled), not shuffled, 5)
                self.assertEqual(found, Amount(4, sum(SIZES)), (id_size, shuffled))

    def test_none(self) -> None:
        """If all references name objects, nothing is read."""
        with mock.patch.object(module, "short_spans", side_effect=AssertionError):
            self.assertEqual(unloaded_classes(archive(), True, 0), Amount())

    def test_hole(self) -> None:
        """One with a hole after it takes as much as the mean of the others."""
        self.assertEqual(unloaded_classes(archive(hole=9000), True, 5), Amount(4, (112 + 120 + 136) * 4 // 3))

    def test_order(self) -> None:
        """If identifiers do not ascend where they are said to, all is read; what is more than the references that name
        no object is not believed."""
        self.assertEqual(unloaded_classes(archive(shuffled=True), True, 5), Amount(4, sum(SIZES)))
        self.assertEqual(unloaded_classes(archive(), True, 3), Amount())

    def test_ranges(self) -> None:
        """Only the ranges with most class objects are searched, so that a heap with many takes no more memory."""
        dump = archive()
        self.assertLessEqual(len(module._ranges(dump)), 3 * module.RANGES)
        with mock.patch.object(module, "NEAR_BITS", 4), mock.patch.object(module, "RANGES", 1):
            self.assertLess(unloaded_classes(dump, True, 5).objects, 4)


if __name__ == "__main__":
    unittest.main()
