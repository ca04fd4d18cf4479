"""Tests of what objects take in the heap, by a dump of it."""

import itertools
import lzma
import pathlib
import random
import unittest
from typing import Dict, List, Sequence, Tuple

from heap_tools.class_names import CLASSES
from heap_tools.field_placing import OwnFields, aligned
from heap_tools.heap_dump import HeapDump
from heap_tools.heap_layout import STACK, Layout, UnknownLayout
from heap_tools.held_table import RowPart, by_row
from heap_tools.object_sizes import Linear, ObjectSizes
from heap_tools.object_totals import Total, totals_of
from heap_tools.reports import Amount, Report, Row, read_text
from tests.support.dump_writer import BYTE, LONG
from tests.support.laid_out_heap import COMPRESSED, LaidOutHeap

COMPACT = Layout(8, 8, 4, 12)
REAL = pathlib.Path(__file__).parent / "../../bench/real"


def sizes_of(heap: LaidOutHeap, shuffled: bool = False, hole: int = 0) -> ObjectSizes:
    """Returns the sizes in a heap to which some hundreds of other objects are added, with a hole of `hole` bytes after
    every ninth."""
    heap.mixed(200, hole)
    return ObjectSizes(heap.read(shuffled))


class AddedFieldsTest(unittest.TestCase):
    """What the virtual machine adds."""

    def sizes(
        self, added: Sequence[int], name: str = "shop/Order", count: int = 1, shuffled: bool = False, hole: int = 0
    ) -> List[int]:
        """Returns the sizes that are found of classes with one reference and one int, which have 20 bytes, if `count`
        objects of each have so many more. The heap has holes of `hole` bytes."""
        heap = LaidOutHeap(COMPRESSED)
        classes = [heap.of_class(f"{name}{at or ''}", 1, 1) for at in range(len(added))]
        for _ in range(count):
            for each, more in zip(classes, added):
                heap.instance(each, more)
        found = sizes_of(heap, shuffled, hole)
        return [found.instance(each) for each in classes]

    def test_too_small_for_an_object(self) -> None:
        """What is smaller than any object is no hole: one object shows it."""
        for shuffled in (False, True):
            self.assertEqual(self.sizes([0, 8], shuffled=shuffled), [24, 32])

    def test_holes(self) -> None:
        """What is as large as an object counts if four objects show it, but not if garbage may have been there."""
        for count, shuffled, size in ((3, False, 24), (4, False, 40), (9, True, 24)):
            self.assertEqual(self.sizes([16], count=count, shuffled=shuffled), [size], (count, shuffled))
        for hole in (16, 24):
            self.assertEqual(self.sizes([16], count=9, hole=hole), [24], hole)

    def test_a_word(self) -> None:
        """Of classes to which OpenJDK adds one word, that is taken if no object shows how much it is."""
        cases: List[Tuple[str, List[int], int]] = [
            ("java/lang/Module", [], 32),
            ("java/lang/Module", [300], 32),
            ("java/lang/Module", [8], 32),
            ("java/lang/Module", [16, 16], 40),
            ("java/lang/Module", [0], 24),
            ("java/lang/ClassLoader", [], 32),
            ("java/lang/Thread", [], 24),
        ]
        for name, added, size in cases:
            heap = LaidOutHeap(COMPRESSED)
            of_class = heap.of_class(name, 1, 1)
            subclass = heap.of_class("shop/Heir", 0, 0, of_class)
            for more in added:
                heap.instance(of_class, more)
            found = sizes_of(heap)
            self.assertEqual([found.instance(each) for each in (of_class, subclass)], [size] * 2, (name, added))

    def test_classes_of_the_virtual_machine(self) -> None:
        """Of classes to which the virtual machine adds fields two objects show how many."""
        for count, size in ((1, 24), (2, 48)):
            for shuffled in (False, True):  # in a file in order, the objects of such classes are looked for, too
                found = self.sizes([24], "java/lang/VirtualThread", count, shuffled=shuffled)
                self.assertEqual(found, [size], (count, shuffled))

    def test_room(self) -> None:
        """One object shows room around fields that several threads write; more are needed if there are holes as long
        as that after one of ten others."""
        for count, hole, size in ((1, 0, 280), (1, 24, 280), (1, 256, 24), (4, 256, 280)):
            for shuffled in (False, True):
                found = self.sizes([256], count=count, shuffled=shuffled, hole=hole)
                self.assertEqual(found, [size], (count, hole, shuffled))

    def test_two_that_agree(self) -> None:
        """Of classes to which the virtual machine adds fields, and of room, two objects count that have the same, and
        are most of those of their class."""
        for name, added, size in (
            ("shop/Order", [256, 256], 280),
            ("shop/Order", [256, 264], 24),
            ("shop/Order", [256, 256, 272], 280),
            ("shop/Order", [256, 256, 272, 280], 24),
            ("shop/Order", [168, 168, 168], 24),
            ("shop/Order", [144, 144, 144], 168),
            ("shop/Order", [152, 152, 152], 24),
            ("shop/Order", [520, 520], 544),
            ("shop/Order", [640, 640], 24),
            ("java/lang/VirtualThread", [24, 24], 48),
            ("java/lang/VirtualThread", [24, 32], 24),
            ("java/lang/VirtualThread", [24, 24, 32], 48),
            ("java/lang/VirtualThread", [24, 24, 32, 40], 24),
        ):
            heap = LaidOutHeap(COMPRESSED)
            order = heap.of_class(name, 1, 1)
            for more in added:
                heap.instance(order, more)
            self.assertEqual(sizes_of(heap, shuffled=True).instance(order), size, (name, added))

    def test_pools(self) -> None:
        """One object of a class that is known to have room shows it, also if others have a hole after it."""
        pool = "java/util/concurrent/ForkJoinPool"
        cases: List[Tuple[List[int], int]] = [
            ([256], 280),
            ([128], 152),
            ([264], 288),
            ([256, 368, 368, 368, 400], 280),
            ([300], 24),
            ([112], 24),
            ([], 24),
        ]
        for added, size in cases:
            heap = LaidOutHeap(COMPRESSED)
            of_class = heap.of_class(pool, 1, 1)
            for more in added:
                heap.instance(of_class, more)
            self.assertEqual(sizes_of(heap, shuffled=True).instance(of_class), size, added)

    def test_smallest_of_cms(self) -> None:
        """Objects of 16 bytes that are 24 from the next are no larger if those of several classes are, as in the old
        space of CMS: but for those to which the virtual machine adds fields."""
        for small, sizes in ((1, [24, 16, 24]), (2, [16, 16, 24])):
            heap = LaidOutHeap(COMPRESSED)
            classes = [heap.of_class(f"shop/Box{number}", 0, 1) for number in range(small)]
            young = heap.of_class("shop/Young", 0, 1)
            method = heap.of_class("java/lang/invoke/ResolvedMethodName", 0, 1)
            for of_class in (*classes, method):
                heap.instance(of_class, 8)
            for more in (0, 8, 8):
                heap.instance(young, more)
            found = sizes_of(heap)
            self.assertEqual([found.instance(each) for each in (classes[0], young, method)], sizes, small)

    def test_holes_as_small(self) -> None:
        """A hole between the fields of two classes is no sign of CMS."""
        heap = LaidOutHeap(COMPRESSED)
        base = heap.of_class("shop/Base", has_byte=True)
        heirs = [heap.of_class(f"shop/Heir{number}", superclass=base, has_byte=True) for number in range(3)]
        for each in heirs:
            heap.instance(each, 8)
        found = sizes_of(heap)
        self.assertEqual([found.instance(each) for each in (base, *heirs)], [16, 24, 24, 24])

    def test_some_without(self) -> None:
        """What some objects of a class lack is not added to any."""
        heap = LaidOutHeap(COMPRESSED)
        order = heap.of_class("shop/Order", 1, 1)
        for more in (16, 16, 16, 16, 16, 0):
            heap.instance(order, more)
        self.assertEqual(sizes_of(heap).instance(order), 24)

    def test_inherited(self) -> None:
        """What is added to a superclass is added to its subclasses, and is so much that it suits all: alignment hides
        some of it."""
        for shuffled in (False, True):
            heap = LaidOutHeap(COMPRESSED)
            thread = heap.of_class("java/lang/Thread", 3, 2)  # 32 bytes
            subclasses = [heap.of_class(f"shop/Thread{ints}", 0, ints, thread) for ints in range(3)]
            unseen = heap.of_class("shop/Unseen", 0, 1, thread)
            for _ in range(2):
                for each in (thread, *subclasses):
                    heap.instance(each, 266)
            found = sizes_of(heap, shuffled)
            sizes = [found.instance(each) for each in (thread, *subclasses, unseen)]
            self.assertEqual(sizes, [304, 304, 304, 312, 304], shuffled)

    def test_loaders(self) -> None:
        """One object of each of some class loaders shows what is added to all, also if alignment hides it in one."""
        for layout in (COMPRESSED, COMPACT, Layout(16, 12, 4, 16)):
            heap = LaidOutHeap(layout)
            loader = heap.of_class("java/lang/ClassLoader", 3)
            subclasses = [heap.of_class(f"shop/Loader{at}", at, 0, loader) for at in range(4)]
            for each in subclasses[1:]:
                heap.instance(each, 8)
            found = sizes_of(heap)
            wanted = [layout.aligned(layout.header + 12 + 4 * at + 8) for at in range(4)]
            self.assertEqual([found.instance(each) for each in subclasses], wanted)

    def test_one_loader(self) -> None:
        """One object of one class loader shows it, too, however large the smallest object is."""
        for alignment in (8, 16):
            heap = LaidOutHeap(Layout(alignment, 12, 4, 16))
            loader = heap.of_class("shop/Loader", 0, 1, heap.of_class("java/lang/ClassLoader", 4))  # 32 bytes
            heap.instance(loader, 8)
            self.assertEqual(sizes_of(heap).instance(loader), 32 + alignment)

    def test_subclass_with_holes(self) -> None:
        """Objects of a class of the virtual machine show what is added to it, though more of a subclass have a hole
        after them; two are needed, which are most of its own."""
        for of_thread, size in (([24, 24], 56), ([24, 24, 64], 56), ([24], 32), ([24, 24, 64, 80], 32)):
            heap = LaidOutHeap(COMPRESSED)
            thread = heap.of_class("java/lang/Thread", 3, 2)  # 32 bytes
            worker = heap.of_class("shop/Worker", 0, 2, thread)
            for more in of_thread:
                heap.instance(thread, more)
            for _ in range(9):
                heap.instance(worker, 96)
            found = sizes_of(heap, shuffled=True)
            self.assertEqual((found.instance(thread), found.instance(worker)), (size, size + 8), of_thread)

    def test_one_subclass(self) -> None:
        """What is added to one subclass is not added to the others."""
        heap = LaidOutHeap(COMPRESSED)
        error = heap.of_class("java/lang/VirtualMachineError", 3)
        internal = heap.of_class("java/lang/InternalError", 0, 0, error)
        other = heap.of_class("java/lang/OutOfMemoryError", 0, 0, error)
        heap.instance(internal, 8)
        found = sizes_of(heap)
        self.assertEqual([found.instance(each) for each in (internal, other)], [32, 24])

    def test_hole_between_fields(self) -> None:
        """Up to JDK 14 the fields of a subclass begin at a multiple of 4, or of 8: a hole may be before them."""
        heap = LaidOutHeap(COMPRESSED)
        order = heap.of_class("shop/Order", 1, 2)  # 24 bytes
        express = heap.of_class("shop/Express", 0, 0, order)
        heap.instance(order)
        heap.instance(express, 4)
        found = sizes_of(heap)
        self.assertEqual([found.instance(each) for each in (order, express)], [24, 32])


class DoubtsTest(unittest.TestCase):
    """Of which classes it is not sure what their objects take."""

    def test_holes(self) -> None:
        """Of those whose objects are all farther from the next than they are long, if that is no addition."""
        cases: List[Tuple[List[int], Dict[str, int]]] = [([], {}), ([0, 48], {}), ([48, 64], {"shop/Order": 48})]
        cases += [([8], {}), ([48] * 4, {})]
        for added, off in cases:
            heap = LaidOutHeap(COMPRESSED)
            order = heap.of_class("shop/Order", 2, 1)  # 24 bytes
            for more in added:
                heap.instance(order, more)
            found = sizes_of(heap)
            self.assertEqual(found.rows.doubts, off, added)
            rows = [Row("shop/Order", Amount(5, 1)), Row("shop/Other", Amount(9, 1))]
            self.assertEqual(found.rows.unsure(rows), (len(off), 5 * off.get("shop/Order", 0)))

    def test_nearer(self) -> None:
        """Of those that are nearer to the next than they are long."""
        cases: List[Tuple[List[int], Dict[str, int]]] = [([0, 0], {}), ([0, -8], {"shop/Order": 8})]
        for added, off in cases:
            heap = LaidOutHeap(COMPRESSED)
            order = heap.of_class("shop/Order", 3, 1)  # 28 bytes
            for more in added:
                heap.instance(order, more)
            found = sizes_of(heap)
            self.assertEqual((found.instance(order), found.rows.doubts), (32, off), added)

    def test_smallest_of_cms(self) -> None:
        """What is smaller than any object is no hole."""
        heap = LaidOutHeap(COMPRESSED)
        for name in ("shop/Box", "shop/Case"):
            heap.instance(heap.of_class(name, 0, 1), 8)
        self.assertEqual(sizes_of(heap).rows.doubts, {})

    def test_placing(self) -> None:
        """Of those without a neighbour, if their fields may be placed in another way: less than four objects show that
        they are not, or others have the size that they then would have."""
        for instances, of_three in (([0] * 3, 8), ([0] * 4, 0), ([0] * 8 + [8] * 2, 0), ([0] * 7 + [8] * 2, 8)):
            heap = LaidOutHeap(COMPRESSED)
            flag = heap.of_class("shop/Flag", has_byte=True)
            flags = heap.of_class("shop/Flags", 0, 0, flag, has_byte=True)
            three = heap.of_class("shop/Three", 0, 0, flags, has_byte=True)
            for more in instances:
                heap.instance(flags, more)
            found = sizes_of(heap)
            self.assertEqual((found.instance(three), found.rows.doubts.get("shop/Three", 0)), (16, of_three), instances)


def end_up_to_jdk_14(declared: Sequence[OwnFields], style: int, is_compact: bool) -> int:
    """Returns where the fields of an instance end, after a header of 12 bytes and with references of 4, as HotSpot
    places them with -XX:FieldsAllocationStyle=`style`, and -XX:-CompactFields unless `is_compact`: a second time, by
    the steps of its source."""
    end = last_reference = 12
    for own in declared:
        references, ints, small, begin = own.references, own.ints, own.bytes, end
        is_first = style == 0 or style == 2 and begin == last_reference > 12
        if is_first:
            end += 4 * references
            last_reference = end if references else last_reference
        gap = -end % 8 if own.longs else 0
        end += gap
        if is_compact and gap:
            if ints:
                ints -= 1
            else:
                gap -= min(small, gap)
                small -= min(small, 4)
                if gap == 4 and references and not is_first:
                    references, last_reference = references - 1, end
        end += 8 * own.longs + 4 * ints + small
        if references and not is_first:
            end = last_reference = aligned(end, 4) + 4 * references
        end = aligned(end, 4)
    return end


class OldPlacingTest(unittest.TestCase):
    """Heaps of virtual machines up to JDK 14."""

    def test_hierarchies(self) -> None:
        """Of classes in deep hierarchies, with small fields and with many or few objects, what these take is right, or
        it is not sure; with options that are no known placing there may be no layout."""
        for seed, (style, is_compact) in enumerate(itertools.product((0, 1, 2), (True, False))):
            generator, heap = random.Random(seed), LaidOutHeap(COMPRESSED)
            sizes: Dict[int, int] = {}
            for number in range(40):
                superclass = generator.choice([0, *list(sizes)[-8:]])
                references, ints = generator.choices([0, 1, 2], [3, 1, 1], k=2)
                small, long = generator.random() < 0.6, generator.random() < 0.3
                of_class = heap.of_class(f"shop/C{number}", references, ints, superclass, has_byte=small, has_long=long)
                fields = heap.classes[of_class]
                end = end_up_to_jdk_14(fields.declared, style, is_compact)
                sizes[of_class] = aligned(end, 8)
                for _ in range(generator.choice([1, 3, 50, 400])):
                    heap.instance(of_class, end - COMPRESSED.instance(fields))
            try:
                found = sizes_of(heap, shuffled=seed % 2 == 1)
            except UnknownLayout:
                self.assertEqual(style, 2)
                continue
            off = {found.dump.names[each]: found.instance(each) - size for each, size in sizes.items()}
            silent = [name for name, more in off.items() if more and found.rows.doubts.get(name, 0) < abs(more)]
            self.assertEqual(silent, [], (style, is_compact))
            self.assertEqual(style < 2 and any(off.values()), False, (style, is_compact))


class RowsTest(unittest.TestCase):
    """What rows of a report take."""

    def test_report(self) -> None:
        """A report in heap bytes has the objects of the report, and the bytes of its rows; what is unreachable takes as
        much as the mean of all."""
        heap = LaidOutHeap(COMPRESSED)
        order = heap.of_class("shop/Order", 2, 1)
        table = heap.of_class("[Lshop/Order;")
        for length in range(400):
            heap.instance(order)
            heap.values(BYTE, 8)
            heap.array(table, 3)
        found = ObjectSizes(heap.read())
        rows = [("shop/Order", 10, 200), ("byte[]", 10, 80), ("[Lshop/Order;", 10, 240), ("shop/Other", 1, 9)]
        given = Report([Row(name, Amount(*amount)) for name, *amount in rows], Amount(31, 529), Amount(30, 520), 7)
        report = found.rows.report(given)
        wanted = [("shop/Order", 10, 240), ("byte[]", 10, 240), ("[Lshop/Order;", 10, 320), ("shop/Other", 1, 9)]
        self.assertEqual(report.rows, [Row(name, Amount(*amount)) for name, *amount in wanted])
        self.assertEqual((report.reachable, report.unresolved), (Amount(31, 809), 7))
        self.assertEqual(report.unreachable, Amount(30, 800))

    def test_padding(self) -> None:
        """Arrays have the mean padding of those in the dump, each row a multiple of the alignment."""
        heap = LaidOutHeap(COMPRESSED)
        for length in range(800):
            heap.values(BYTE, 1 if length % 2 else 8)  # 24 bytes
            heap.values(LONG, 1)  # 24 bytes
        found = sizes_of(heap)
        self.assertEqual(found.rows.of("byte[]", Amount(800, 3600)).bytes % 8, 0)
        self.assertAlmostEqual(found.rows.of("byte[]", Amount(800, 3600)).bytes, 19200, delta=600)
        self.assertEqual(found.rows.of("long[]", Amount(1000, 8000)), Amount(1000, 24000))

    def test_arrays_of_each_length(self) -> None:
        """Arrays of a table take exactly their header and elements, rounded up, and so do several of one remainder."""
        names = {"byte[]": (1, 1), "char[]": (2, 2), "int[]": (4, 4), "long[]": (8, 8), "[Lshop/Entry;": (8, 4)}
        for layout in (COMPRESSED, COMPACT):
            found = sizes_of(LaidOutHeap(layout))
            for name, (written, element) in names.items():
                begin = 16 if element == 8 else layout.array_header
                taken = [8 * ((begin + element * length + 7) // 8) for length in range(41)]
                for length in range(41):
                    part = RowPart(name, length * written % 16)
                    self.assertEqual(
                        found.rows.taken({part: Amount(1, length * written)}), {name: Amount(1, taken[length])}
                    )
                    alike = [each for each in range(41) if each * written % 16 == part.remainder]
                    wanted = Amount(len(alike), sum(taken[each] for each in alike))
                    amount = Amount(len(alike), sum(each * written for each in alike))
                    self.assertEqual(found.rows.taken({part: amount}), {name: wanted}, (name, length))

    def test_large_alignment(self) -> None:
        """If sizes are multiples of 16, arrays of references of which every second byte counts have a mean padding, all
        others their own; if they are multiples of 32, all have a mean padding."""
        for alignment, is_known in ((16, True), (32, False)):
            found = sizes_of(LaidOutHeap(Layout(alignment, 12, 4, 16)))
            self.assertEqual(found.layout.alignment, alignment)
            amounts = {RowPart("[Lshop/Entry;", 8): Amount(3, 72), RowPart("[Lshop/Entry;", 0): Amount(2, 80)}
            mean = found.rows.of("[Lshop/Entry;", Amount(5, 152))
            self.assertEqual(found.rows.taken(amounts), {"[Lshop/Entry;": mean})
            for length in range(41):
                exact = Amount(1, 16 * ((16 + length + 15) // 16))
                wanted = exact if is_known else found.rows.of("byte[]", Amount(1, length))
                taken = found.rows.taken({RowPart("byte[]", length % 16): Amount(1, length)})
                self.assertEqual(taken, {"byte[]": wanted}, (alignment, length))

    def test_narrow_identifiers(self) -> None:
        """So is it of arrays of references that take as much as in the dump."""
        heap = LaidOutHeap(Layout(8, 8, 4, 12), 4)
        found = sizes_of(heap)
        for length in range(41):
            taken = found.rows.taken({RowPart("[Lshop/Entry;", 4 * length % 16): Amount(1, 4 * length)})
            self.assertEqual(taken, {"[Lshop/Entry;": Amount(1, 8 * ((12 + 4 * length + 7) // 8))}, length)

    def test_padding_of_a_table(self) -> None:
        """A report takes the padding of the arrays of a table in place of the sample's: its rows have what those of the
        table take, and objects that the table lacks the mean."""
        found = sizes_of(LaidOutHeap(COMPRESSED)).rows
        parts = {RowPart("byte[]", 1): Amount(1000, 17_000), RowPart("byte[]", 8): Amount(1, 8)}
        parts.update({RowPart("shop/Entry0"): Amount(7, 84), RowPart("other/Class"): Amount(1, 9)})
        taken = {"byte[]": Amount(1001, 40_024), "shop/Entry0": Amount(7, 7 * 24), "other/Class": Amount(1, 9)}
        self.assertEqual(found.taken(parts), taken)
        rows = [Row(name, amount) for name, amount in by_row(parts).items()]
        padded = found.padded_as(parts)
        self.assertEqual(padded.report(Report(rows)).by_name(), taken)
        self.assertNotEqual(found.report(Report(rows)).by_name(), taken)
        self.assertEqual(padded.of("byte[]", Amount(2002, 34_016)), Amount(2002, 80_048))
        self.assertEqual(padded.of("int[]", Amount(10, 120)), found.of("int[]", Amount(10, 120)))

    def test_longs_of_compact_headers(self) -> None:
        """Elements of 8 bytes begin at a multiple of 8."""
        heap = LaidOutHeap(COMPACT)
        for _ in range(800):
            heap.values(LONG, 2)  # 16 + 16
            heap.values(BYTE, 4)  # 12 + 4
        found = sizes_of(heap)
        self.assertEqual(found.rows.of("long[]", Amount(1, 16)), Amount(1, 32))
        self.assertEqual(found.rows.of("byte[]", Amount(100, 400)).bytes % 8, 0)

    def test_classes_of_one_name(self) -> None:
        """Objects of two classes of one name: the bytes of the row say how many there are of each."""
        heap = LaidOutHeap(COMPRESSED)
        for references in (1, 4):
            heap.instance(heap.of_class("shop/Order", references))
        found = sizes_of(heap)
        self.assertEqual(found.rows.of("shop/Order", Amount(5, 2 * 8 + 3 * 32)), Amount(5, 2 * 16 + 3 * 32))

    def test_stacks(self) -> None:
        """The stack of a waiting virtual thread is in an object that is as long as it is far to the next."""
        sizes = list(range(400, 4400, 40))
        for shuffled in (False, True):
            heap = LaidOutHeap(COMPRESSED)
            chunk = heap.of_class(STACK, 2, 3)
            for size in sizes:
                heap.instance(chunk, size - 32)
                heap.values(BYTE, 3)
            found = sizes_of(heap, shuffled)
            self.assertEqual(found.rows.of(STACK, Amount(100, 2800)), Amount(100, sum(sizes)))
            self.assertEqual(totals_of(found.dump, found)[STACK], Total(Amount(100, 2800), Amount(100, sum(sizes))))

    def test_class_objects(self) -> None:
        """A class object has the fields of java/lang/Class, what is added to them, and the static fields; what the dump
        shows as such, but is kept elsewhere, does not count."""
        heap = LaidOutHeap(COMPRESSED)
        heap.of_class("java/lang/Class", 10)  # 52 bytes, 104 with what is added
        heap.of_class("shop/Far", statics=["FIRST"])
        for number in range(20):
            statics = [f"S{at}" for at in range(number % 4)] + ["<resolved_references>"]
            size = 104 + 4 * (number % 4)
            heap.of_class(f"shop/Class{number}", 0, 0, 0, statics, number=heap.place(size))
            heap.values(BYTE, 3)
        found = sizes_of(heap)
        far = next(each for each, name in found.dump.names.items() if name == "shop/Far")
        self.assertEqual((found.class_object, found.of_class_object(far)), (104, 112))
        every = totals_of(found.dump, found)[CLASSES]
        self.assertEqual(found.rows.of(CLASSES, every.written).bytes, every.taken.bytes)

    def test_totals(self) -> None:
        """All objects are counted, reachable or not, in one process and in several."""
        heap = LaidOutHeap(COMPRESSED)
        order = heap.of_class("shop/Order", 2, 1)
        for length in range(900):
            heap.instance(order)
            heap.values(BYTE, length % 5)
        found = sizes_of(heap)
        totals = totals_of(found.dump, found)
        self.assertEqual(totals["shop/Order"], Total(Amount(900, 900 * 20), Amount(900, 900 * 24)))
        self.assertEqual(totals["[Lshop/Entry;"].written.objects, 800)
        self.assertEqual(sum(each.taken.bytes for name, each in totals.items() if name != CLASSES), heap.at - (1 << 20))

    def test_linear(self) -> None:
        """What a row takes grows with its objects and bytes."""
        self.assertEqual(Linear(16.5, 0.5).of(Amount(3, 24), 8), Amount(3, 64))


class RealDumpsTest(unittest.TestCase):
    """The dumps of virtual machines that are kept, and their own histograms of the same moment."""

    def test_histograms(self) -> None:
        """All classes that have as many objects take as many bytes, to 1%, and all of them to 0.3%."""
        for name in ("jdk17", "jdk21", "jdk25"):
            dump = HeapDump(lzma.open(REAL / f"{name}.hprof.xz").read())
            with (REAL / f"{name}.histogram").open("rb") as text:
                histogram = read_text(text, name)
            assert histogram
            sizes = ObjectSizes(dump)
            here = {each: total.taken for each, total in totals_of(dump, sizes).items()}
            here["java/lang/Class"] = here["java/lang/Class"].plus(here.pop(CLASSES))
            there: Dict[str, Amount] = {row.name: row.amount for row in histogram[1].rows}
            same = [each for each in there if here.get(each, Amount()).objects == there[each].objects]
            off = [each for each in same if abs(here[each].bytes - there[each].bytes) > 0.01 * there[each].bytes]
            self.assertLessEqual(len(off), 0.01 * len(same), (name, off))
            total = sum(there[each].bytes for each in same)
            self.assertAlmostEqual(sum(here[each].bytes for each in same) / total, 1, delta=0.003)
            self.assertGreater(len(same), 0.95 * len(there), name)


if __name__ == "__main__":
    unittest.main()
