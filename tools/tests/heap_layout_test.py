"""Tests of how the layout of a heap is found in a dump of it."""

import random
import struct
import unittest
from typing import Callable, List
from unittest import mock

from heap_tools import heap_sample, object_records
from heap_tools.field_placing import Placing, fields_by_class
from heap_tools.heap_dump import HeapDump
from heap_tools.heap_layout import Layout, UnknownLayout, layout_of
from heap_tools.heap_sample import sample_of
from heap_tools.object_records import heap_objects, short_spans
from tests.support.dump_writer import BYTE, DumpWriter
from tests.support.laid_out_heap import LaidOutHeap, read

COMPRESSED = Layout(8, 12, 4, 16)
#: Identifiers of so many bytes, and the layouts that virtual machines with such have.
LAYOUTS = [
    (8, COMPRESSED),
    (8, Layout(8, 12, 8, 16)),  # no compressed references
    (8, Layout(8, 16, 4, 24)),  # no compressed classes
    (8, Layout(8, 16, 4, 20)),  # the same from JDK 23 on
    (8, Layout(8, 16, 8, 24)),
    (8, Layout(8, 8, 4, 12)),  # compact headers
    (8, Layout(8, 8, 8, 12)),
    (8, Layout(16, 12, 4, 16)),  # -XX:ObjectAlignmentInBytes=16
    (8, Layout(32, 12, 4, 16)),
    (4, Layout(8, 8, 4, 12)),  # 32 bits
]


def found_in(dump: HeapDump) -> Layout:
    """Returns the layout that is found."""
    return layout_of(sample_of(dump), fields_by_class(dump), dump.id_size)


class WithLayout(unittest.TestCase):
    """A test of layouts."""

    def require_unknown(self, dump: HeapDump, why: str) -> None:
        """Tests that no layout is found, and why."""
        with self.assertRaisesRegex(UnknownLayout, why):
            found_in(dump)


class LayoutTest(WithLayout):
    """The layout of a heap."""

    def test_layouts(self) -> None:
        """Each layout is found, of objects in the order of their addresses and in no order."""
        for id_size, layout in LAYOUTS:
            for shuffled in (False, True):
                with self.subTest(layout=layout, shuffled=shuffled):
                    heap = LaidOutHeap(layout, id_size)
                    heap.mixed(200)
                    dump = heap.read(shuffled)
                    self.assertEqual(sample_of(dump).is_ascending, not shuffled)
                    self.assertEqual(found_in(dump), layout)

    def test_placing(self) -> None:
        """How fields are placed is found, if there are instances of which it is not all the same. For references of 8
        bytes it is the same whether these come first."""
        layouts = [COMPRESSED._replace(placing=each) for each in Placing]
        for layout in (*layouts, Layout(8, 16, 8, 24, Placing.REFERENCES_LAST)):
            for shuffled in (False, True):
                heap = LaidOutHeap(layout)
                heap.mixed(200)
                flag = heap.of_class("shop/Flag", has_byte=True)
                flags = heap.of_class("shop/Flags", 0, 0, flag, has_byte=True)
                pair = heap.of_class("shop/Pair", 2, has_long=True)
                named = heap.of_class("shop/Named", 1, has_long=True)
                timed = heap.of_class("shop/Timed", 0, 1, has_long=True)
                for each in (named, timed, flags, heap.of_class("shop/Link", 0, 1, pair), pair, flag):
                    heap.instance(each)
                self.assertEqual(found_in(heap.read(shuffled)), layout)

    def test_holes(self) -> None:
        """Holes make distances larger, so that fewer objects agree, but not on another layout."""
        for hole in (16, 24, 1 << 17):
            heap = LaidOutHeap(COMPRESSED)
            heap.mixed(200, hole)
            self.assertEqual(found_in(heap.read()), COMPRESSED)

    def test_class_objects(self) -> None:
        """A class object between two objects is no hole."""
        heap = LaidOutHeap(COMPRESSED)
        order = heap.of_class("shop/Order", 2)
        for number in range(1000):
            heap.instance(order)
            heap.values(BYTE, number % 9)
            if number % 2:
                heap.of_class(f"shop/Class{number}", number=heap.place(112))
        self.assertEqual(found_in(heap.read()), COMPRESSED)

    def test_too_few(self) -> None:
        """There is no layout without some hundreds of instances and of arrays."""
        heap = LaidOutHeap(COMPRESSED)
        heap.mixed(10)
        self.require_unknown(heap.read(), "too few objects")
        for only_arrays in (False, True):
            heap = LaidOutHeap(COMPRESSED)
            order = heap.of_class("shop/Order", 2)
            for number in range(5000):
                heap.values(BYTE, number % 9) if only_arrays else heap.instance(order)
            self.require_unknown(heap.read(), "too few objects")
        self.require_unknown(LaidOutHeap(COMPRESSED).read(), "too few objects")

    def test_no_addresses(self) -> None:
        """There is no layout if identifiers are numbers in a series, or at random."""
        generator = random.Random(3)
        steps: List[Callable[[], int]] = [lambda: 1, lambda: 8, lambda: 8 * generator.randrange(1, 9)]
        for step in steps:
            dump = DumpWriter()
            dump.of_class(1, "shop/Order", fields=["next", "other"])
            identifier = 1 << 20
            for number in range(2000):
                identifier += step()
                dump.instance(identifier, 1, 0, 0)
                identifier += step()
                dump.values(identifier, BYTE, bytes(number % 40))
            self.require_unknown(read(dump), "too few neighbours agree")

    def test_holes_after_most(self) -> None:
        """There is no layout if more than half of one kind of objects have a hole after them."""
        heap = LaidOutHeap(COMPRESSED)
        order = heap.of_class("shop/Order", 2)
        for number in range(2000):
            for _ in range(4):
                heap.instance(order)
            heap.values(BYTE, number % 9)
            heap.place(16 + 8 * (number % 5))
        self.require_unknown(heap.read(), "too few neighbours agree")

    def test_overlaps(self) -> None:
        """There is no layout by which objects overlap, though most agree with it: a fifth of the arrays, or a few more
        than a hundredth of all. A few may be nearer to the next than they are long."""
        for every, is_known in ((5, False), (45, False), (60, True)):
            heap = LaidOutHeap(COMPRESSED)
            order = heap.of_class("shop/Order", 2)
            for number in range(3000):
                heap.instance(order)
                heap.values(BYTE, number % 9)
                if number % every == 0:
                    heap.at -= 8
            if is_known:
                self.assertEqual(found_in(heap.read()), COMPRESSED)
            else:
                self.require_unknown(heap.read(), "too few neighbours agree")

    def test_words(self) -> None:
        """A layout in words: references of 4 bytes are compressed, unless the header is that of 32 bits."""
        for layout, header, references, more in (
            (COMPRESSED, "12 bytes, of an array 16", "4 (compressed)", ""),
            (Layout(8, 12, 8, 16), "12 bytes, of an array 16", "8", ""),
            (Layout(8, 8, 4, 12), "8 bytes, of an array 12", "4", ""),
            (
                COMPRESSED._replace(placing=Placing.REFERENCES_LAST),
                "12 bytes, of an array 16",
                "4 (compressed)",
                ", fields begin after those of superclasses",
            ),
            (
                COMPRESSED._replace(placing=Placing.FIRST_WITH_GAPS),
                "12 bytes, of an array 16",
                "4 (compressed)",
                ", fields begin after those of superclasses, references first, with gaps",
            ),
        ):
            text = f"header {header}, references {references}, sizes are multiples of 8{more}"
            self.assertEqual(layout.words(), text)


class SampleTest(WithLayout):
    """What is read of a dump."""

    def test_bound(self) -> None:
        """A sample is about as large as it is to be, in either order, and is of the whole file."""
        for shuffled in (False, True):
            heap = LaidOutHeap(COMPRESSED)
            heap.mixed(2500)
            dump = heap.read(shuffled)
            with mock.patch.object(heap_sample, "SAMPLED", 4000):
                sample = sample_of(dump)
            self.assertEqual(layout_of(sample, fields_by_class(dump), 8), COMPRESSED)
            self.assertLess(2000, sum(sample.neighbours.values()))
            self.assertLess(sum(sample.neighbours.values()), 10000)

    def test_neighbours(self) -> None:
        """What follows an object in the sample is not its neighbour if the file has others between: jobs are in it only
        since threads are before them."""
        for shuffled in (False, True):
            heap = LaidOutHeap(COMPRESSED)
            order, thread, job = (heap.of_class(name, 3) for name in ("shop/Order", "java/lang/Thread", "shop/Job"))
            for number in range(4000):
                heap.instance(order)
                heap.values(BYTE, number % 9)
                if 1950 < number < 2050:
                    heap.dump.thread(number, heap.instance(thread))
                    heap.instance(job)
                    heap.values(BYTE, 40)
            dump = heap.read(shuffled)
            with mock.patch.object(heap_sample, "SAMPLED", 2000), mock.patch.object(heap_sample, "PARTS", 3):
                sample = sample_of(dump)
            gaps = {of: {it.gap for it in sample.neighbours if it[:2] == (of, 0)} for of in (thread, job)}
            self.assertEqual((gaps[thread], gaps[job] - {24}), ({24}, set()), shuffled)
            self.assertEqual(layout_of(sample, fields_by_class(dump), 8), COMPRESSED)

    def test_backwards(self) -> None:
        """What follows in the file at a lower address is no neighbour, nor is the first object of the next space."""
        heap = LaidOutHeap(COMPRESSED)
        order = heap.of_class("shop/Order", 2)
        first = [heap.instance(order) for _ in range(400)]
        heap.at += 1 << 20
        for _ in range(400):
            heap.values(BYTE, 8)
        heap.at = first[0] - 24 * 300
        for _ in range(300):
            heap.instance(order)
        sample = sample_of(heap.read())
        self.assertEqual({(each.kind, each.gap) for each in sample.neighbours}, {(0, 24), (BYTE, 24)})
        self.assertEqual(sum(sample.neighbours.values()), 399 + 399 + 299)

    def test_large_arrays(self) -> None:
        """Arrays that are larger than a neighbour may be far show the layout themselves; parts of the file that have
        few objects, since large arrays fill them, are more."""
        heap = LaidOutHeap(COMPRESSED)
        order = heap.of_class("shop/Order", 2)
        for number in range(20_000):
            heap.values(BYTE, 900 + 8 * (number % 31)) if number % 20 else heap.instance(order)
        dump = heap.read()
        with mock.patch.multiple(heap_sample, LONGEST=512, PARTS=3, SAMPLED=2600, ENOUGH_SAMPLED=20):
            self.assertEqual(found_in(dump), COMPRESSED)
            self.assertGreater(sum(sample_of(dump).neighbours.values()), 5000)
            with mock.patch.object(heap_sample, "ENOUGH_SAMPLED", 0):
                self.require_unknown(dump, "too few objects have a neighbour")

    def test_rough(self) -> None:
        """A rough sample has a fifth of the objects, and shows the same layout, in any order of the file."""
        heap = LaidOutHeap(COMPRESSED)
        heap.mixed(9000)
        for shuffled in (False, True):
            dump = heap.read(shuffled)
            with mock.patch.multiple(heap_sample, PARTS=8, SAMPLED=8000):
                whole, rough = (sample_of(dump, is_rough) for is_rough in (False, True))
            fields = fields_by_class(dump)
            self.assertEqual([layout_of(each, fields, dump.id_size) for each in (whole, rough)], [COMPRESSED] * 2)
            self.assertLess(2 * sum(rough.neighbours.values()), sum(whole.neighbours.values()))

    def test_all_ranges(self) -> None:
        """If a sample has room for all objects, those that are alone in their range of addresses are in it."""
        heap = LaidOutHeap(COMPRESSED)
        heap.mixed(1000)
        heap.at += 1 << 20
        rare = heap.of_class("shop/Rare", 3)
        for _ in range(2):
            heap.instance(rare)
        sample = sample_of(heap.read(shuffled=True))
        self.assertEqual(sum(n for each, n in sample.neighbours.items() if each.class_id == rare), 1)

    def test_few_of_a_kind(self) -> None:
        """A class loader and instances of a class with added fields are in the sample, whatever it is of."""
        heap = LaidOutHeap(COMPRESSED)
        heap.mixed(1000)
        loader = heap.of_class("shop/Loader", 3)
        module = heap.of_class("java/lang/Module", 3)
        pool = heap.of_class("java/util/concurrent/ForkJoinPool", 5)
        heap.instance(pool)
        for number in range(3000):
            heap.values(BYTE, number % 99)
        numbers = [heap.instance(each) for each in (loader, module)]
        heap.classes.clear()
        heap.of_class("shop/Order", loader=numbers[0], number=4096)
        heap.mixed(1000)
        for shuffled in (False, True):
            with mock.patch.object(heap_sample, "SAMPLED", 2000), mock.patch.object(heap_sample, "PARTS", 3):
                sample = sample_of(heap.read(shuffled))
            self.assertLessEqual({loader, module, pool}, {each.class_id for each in sample.neighbours})


class LongRecordTest(unittest.TestCase):
    """A heap in one long record."""

    def test_cut(self) -> None:
        """It is read in parts that begin with an object, as a whole the same."""
        dump, parts = DumpWriter(), []
        dump.of_class(1, "java/lang/String", fields=["value", "coder"])
        like_one = b"\x21" + bytes(12) + struct.pack(">QI", 1, 9) + bytes(20)
        numbers = list(range(1 << 20, (1 << 20) + 9000))
        for number in numbers:
            if number % 3:
                dump.instance(number, 1, 0, b"\0")
            else:  # an array in which something like an instance is
                dump.values(number, BYTE, like_one)
            parts.append(dump.heap)
            dump.heap = b""
        dump.heap = b"".join(parts)
        found = read(dump)
        self.assertEqual(short_spans(found), found.segments)
        with mock.patch.multiple(object_records, LONG_RECORD=1 << 16, PART=1 << 13):
            spans = short_spans(found)
        self.assertGreater(len(spans), 30)
        self.assertEqual([each[0] for each in heap_objects(found, spans)], numbers)
        self.assertEqual(spans, sorted(spans))


if __name__ == "__main__":
    unittest.main()
