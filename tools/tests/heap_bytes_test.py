"""Tests of which bytes count: those of the heap, or those of the dump."""

import os
import pathlib
import tempfile
import unittest
from dataclasses import replace
from unittest import mock

from heap_tools import heap_bytes, heap_sample
from heap_tools.class_growth import growths
from heap_tools.dump_file import state_of
from heap_tools.faults import Fault
from heap_tools.heap_bytes import counted_in_heap, layout_words, measure
from heap_tools.heap_layout import Layout
from heap_tools.probe import GrowthProbe
from heap_tools.reports import Amount, Report, Row, Unit
from heap_tools.snapshot_bytes import in_common_bytes
from heap_tools.snapshots import Snapshot
from heap_tools.what_counts import Way, sides_of
from tests.support.dump_writer import BYTE
from tests.support.laid_out_heap import COMPRESSED, LaidOutHeap, bytes_of_odd_arrays, odd_arrays
from tests.support.marked import MarkedRuns, held_by


def heap(lengths: int, layout: Layout = COMPRESSED) -> LaidOutHeap:
    """Returns a heap with 400 orders of 24 bytes and 800 arrays of up to `lengths` bytes."""
    it = LaidOutHeap(layout)
    order = it.of_class("shop/Order", 2)
    for number in range(400):
        it.dump.root(it.instance(order))
        for _ in range(2):
            it.dump.root(it.values(BYTE, 1 + number % lengths))
    return it


class DumpsTest(unittest.TestCase):
    """Dumps of leaks, holders and held."""

    def test_heap(self) -> None:
        """Bytes are those of the heap, about which nothing is said, unless the user wants those of the dump."""
        runs = MarkedRuns(heap(8).read())
        found = counted_in_heap([runs], False)
        self.assertEqual(found.dump.report.amount("shop/Order"), Amount(400, 9600))
        self.assertTrue(found.dump.report.in_heap)
        self.assertEqual(found.words, "")
        words = (
            "bytes are those of the heap, by its layout (header 12 bytes, of an array 16, references 4 (compressed), "
        )
        self.assertEqual(
            layout_words(found.dump.sizes), f"{words}sizes are multiples of 8); --dump-bytes counts those of the dump"
        )
        self.assertEqual(counted_in_heap([runs], True), ([runs], ""))
        self.assertEqual((found.dump.written, found.dump.path), (runs.report, runs.path))

    def test_unknown(self) -> None:
        """If the layout of one dump is not known, bytes are those of the dumps, which is said of those that a virtual
        machine may have written."""
        few = LaidOutHeap(COMPRESSED)
        few.mixed(2)
        dumps = [MarkedRuns(heap(8).read()), MarkedRuns(few.read())]
        self.assertEqual(counted_in_heap(dumps, False), (dumps, ""))
        with mock.patch.object(heap_bytes, "FEWEST_OF_HEAP", 10):
            self.assertRegex(
                counted_in_heap(dumps, False).words, "those of the dump, .* too few objects have a neighbour"
            )

    def test_same_sizes(self) -> None:
        """What is the same in two dumps takes the same, though the padding of the arrays in their samples differs."""
        first, last = MarkedRuns(heap(1).read()), MarkedRuns(heap(7).read())
        found = counted_in_heap([first, last], False).dumps
        assert found[0].sizes
        self.assertEqual(found[0].sizes.report(last.report).rows, found[1].report.rows)

    def test_measured_before(self) -> None:
        """A dump whose content is forgotten has the sizes that it had, or none."""
        for it, is_known in ((heap(8), True), (LaidOutHeap(COMPRESSED), False)):
            every = [MarkedRuns(it.read()) for _ in range(2)]
            measure(every[1].dump)
            every[1].dump.forget()
            last = MarkedRuns(heap(8).read())
            found = [counted_in_heap([each, last], False) for each in every]
            self.assertEqual(found[0].words, found[1].words)
            self.assertEqual([each.dumps[0].report.in_heap for each in found], [is_known] * 2)
            self.assertEqual(*(each.dumps[0].report.rows for each in found))

    def test_unsure(self) -> None:
        """It is said of how many of the reachable bytes it is not sure."""
        for reachable in (3, 1, 0):
            it = heap(8)
            rare = it.of_class("shop/Rare", 2)
            it.dump.root(*[it.instance(rare, 48) for _ in range(3)][:reachable])
            it.values(BYTE, 8)
            words = "it is not sure what the objects of 1 class take, since no neighbour shows it: up to "
            words += f"{48 * reachable} bytes more or less"
            found = counted_in_heap([MarkedRuns(it.read())], False)
            self.assertEqual(found.words, words if reachable else "")

    def test_two_layouts(self) -> None:
        """Dumps with two layouts have their own sizes each."""
        wide = Layout(8, 16, 4, 24)
        dumps = [MarkedRuns(heap(8).read()), MarkedRuns(heap(8, wide).read())]
        found = counted_in_heap(dumps, False).dumps
        self.assertEqual([each.report.amount("byte[]").bytes for each in found], [800 * 24, 800 * 32])


class TablesTest(unittest.TestCase):
    """What tables of retained say of dumps, in bytes of the heap."""

    def probe(self, *counts: int) -> GrowthProbe:
        """Returns what asks two heaps with odd arrays."""
        dumps = counted_in_heap([MarkedRuns(odd_arrays(count).read()) for count in counts], False).dumps
        first, last = sides_of(dumps, Way())
        return GrowthProbe(first, last, None, Unit.BYTES)

    def test_arrays(self) -> None:
        """What a field holds, and what it gained, is exact to the byte, whatever the lengths of the arrays are; and so
        are the reports of the dumps."""
        probe = self.probe(100, 1001)
        held = held_by(probe, "shop/Cache.field0")
        before, after = (bytes_of_odd_arrays(count) for count in (100, 1001))
        self.assertEqual(held.amount, Amount(1002, after))
        self.assertEqual(probe.gain(held.candidates), Amount(901, after - before))
        self.assertEqual(probe.growth, Amount(901, after - before))
        self.assertEqual(sum(each.bytes for each in held.lost.values()), after)
        known = probe.side.knows(held.key)
        assert known
        rest = probe.side.report_without(known.table, known.labels[held.key])
        self.assertEqual(probe.base.reachable.minus(rest.reachable), held.amount)
        for each in (probe, probe.earlier):
            for name in ("byte[]", "int[]", "[Ljava/lang/Object;"):
                self.assertEqual(each.runs.report.amount(name), each.base.amount(name), name)

    def test_unchanged(self) -> None:
        """Nothing grew between dumps that have the same objects."""
        self.assertEqual(self.probe(300, 300).growth, Amount())


class FilesTest(unittest.TestCase):
    """Files of grown."""

    def setUp(self) -> None:
        folder = tempfile.TemporaryDirectory()
        self.addCleanup(folder.cleanup)
        self.addCleanup(os.chdir, os.getcwd())
        os.chdir(folder.name)
        report = MarkedRuns(heap(8).read()).report
        self.dump = self.written(heap(8), "dump", report)
        self.report = Snapshot("report", "report", report)
        rows = [Row("shop/Order", Amount(300, 7200)), Row("java/lang/Class", Amount(2, 200))]
        rows += [Row("int[]", Amount(1, 24)), Row("[Ljdk/internal/vm/FillerElement;", Amount(2, 48))]
        self.histogram = Snapshot("histogram", "histogram", Report(rows, in_heap=True))

    def written(self, it: LaidOutHeap, path: str, report: Report) -> Snapshot:
        """Writes a dump, and returns what grown has of it."""
        it.written().write(path)
        return Snapshot(path, "dump", report, state=state_of(path))

    def test_dumps(self) -> None:
        """Dumps count bytes of the heap, but not beside a report, not from a pipe, and not if the user says so."""
        (found, _), words = in_common_bytes([self.dump, self.dump], False)
        self.assertEqual(found.report.amount("shop/Order"), Amount(400, 9600))
        self.assertEqual(words, "")
        pipe = self.dump._replace(path="/dev/null")
        for files, dump_bytes in (
            ([self.dump] * 2, True),
            ([self.dump, self.report], False),
            ([self.dump, pipe], False),
        ):
            self.assertEqual(in_common_bytes(files, dump_bytes), (files, ""))

    def test_histograms(self) -> None:
        """Histograms are compared with dumps whose layout is known, by rows that both have."""
        (dump, histogram), _ = in_common_bytes([self.dump, self.histogram], False)
        self.assertEqual(histogram.report.amount("int[]"), Amount(3, 72))
        self.assertEqual(dump.report.amount("<class>"), Amount())
        self.assertGreater(dump.report.amount("java/lang/Class").objects, 0)
        self.assertEqual(dump.report.amount("byte[]"), Amount(800, 19200))
        self.assertEqual(in_common_bytes([self.histogram] * 2, True), ([self.histogram] * 2, ""))
        few = LaidOutHeap(COMPRESSED)
        few.mixed(2)
        small = self.written(few, "few", self.dump.report)
        for other, dump_bytes in ((self.report, False), (self.dump, True), (small, False)):
            with self.assertRaisesRegex(Fault, "histogram: a histogram: its bytes are not those of"):
                in_common_bytes([self.histogram, other], dump_bytes)
        self.assertTrue(pathlib.Path("few").exists())

    def test_same_sizes(self) -> None:
        """What is the same in two dumps takes the same, though the padding of the arrays in their samples differs:
        nothing grew."""
        report = MarkedRuns(heap(7).read()).report
        files = [self.written(heap(lengths), path, report) for lengths, path in ((1, "short"), (7, "long"))]
        for some in files, files[::-1]:
            found, _ = in_common_bytes(some, False)
            self.assertEqual(growths([each.report for each in found], Unit.BYTES), [])

    def test_uneven_arrays(self) -> None:
        """A dump has as many bytes as a histogram of the same heap, though the mean padding of its arrays is another in
        the sample: nothing grew."""
        it = LaidOutHeap(COMPRESSED)
        it.dump.root(*it.uneven())
        dump = self.written(it, "dump", MarkedRuns(it.read()).report)
        with mock.patch.object(heap_sample, "SAMPLED", 2000):
            (alone, _), _ = in_common_bytes([dump, dump], False)
            rows = [Row("java/lang/Class", alone.report.amount("<class>")), Row("shop/Order", Amount(600, 14400))]
            report = Report([*rows, Row("byte[]", Amount(5400, 129600))], in_heap=True)
            for files in ([dump, self.histogram], [self.histogram, dump]):
                files = [each if each is dump else each._replace(report=report) for each in files]
                found, _ = in_common_bytes(files, False)
                self.assertEqual(growths([each.report for each in found], Unit.BYTES), [])
        self.assertNotEqual(alone.report.amount("byte[]").bytes, 129600)

    def test_class_objects(self) -> None:
        """Class objects that only the histogram has, since the dump omits them, are no growth and do not shrink."""
        it = heap(8)
        table = it.of_class("[Ljava/lang/Object;", number=it.place(112))
        lacking = [it.place(size) for size in (112, 120, 136)]
        it.dump.root(it.values(BYTE, 8), it.array(table, 4, [*lacking, table]))
        dump = self.written(it, "dump", replace(MarkedRuns(it.read()).report, unresolved=len(lacking)))
        (alone, _), _ = in_common_bytes([dump, dump], False)
        loaded = alone.report.amount("<class>")
        rows = [Row("java/lang/Class", loaded.plus(Amount(3, 368)))]
        rows += [row for row in alone.report.rows if row.name != "<class>"]
        histogram = self.histogram._replace(report=Report(rows, in_heap=True))
        for files in ([dump, histogram], [histogram, dump], [dump, histogram, dump]):
            found, _ = in_common_bytes(files, False)
            self.assertEqual(growths([each.report for each in found]), [])
            reports = [each.report for each in found if each.kind == "dump"]
            self.assertEqual({each.reachable for each in reports}, {alone.report.reachable})
        more = histogram._replace(
            report=replace(histogram.report, rows=[*rows, Row("java/lang/Class", Amount(1, 112))])
        )
        found, _ = in_common_bytes([dump, more], False)
        (growth,) = growths([each.report for each in found])
        self.assertEqual((growth.name, growth.amount), ("java/lang/Class", Amount(1, 112)))


if __name__ == "__main__":
    unittest.main()
