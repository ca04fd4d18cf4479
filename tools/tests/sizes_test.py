"""Runs sizes on small dumps, and compares what it prints."""

import pathlib
import re
import unittest
from typing import Dict, List
from unittest import mock

from heap_tools import heap_sample, page
from heap_tools.heap_layout import STACK, Layout
from heap_tools.heap_sizes import ClassSize, sizes_by_package, sizes_in, unreachable_first
from heap_tools.reports import Amount
from tests.support.dump_writer import BYTE
from tests.support.laid_out_heap import LaidOutHeap
from tests.support.marked import MarkedRuns
from tests.support.page_sample import one_dump
from tests.support.services import cache
from tests.support.tool_test import ToolTest

LAYOUT = (
    "sizes: the layout that neighbours show: header 12 bytes, of an array 16, references 4 (compressed), sizes are "
)
LAYOUT += "multiples of 8"


def shop() -> LaidOutHeap:
    """Returns a heap with 400 orders of 24 bytes and as many arrays of 24, of which 100 are reachable, and a table of
    them."""
    heap = LaidOutHeap(Layout(8, 12, 4, 16))
    order = heap.of_class("shop/sale/Order", 2)
    table = heap.of_class("[Lshop/sale/Order;")
    heap.of_class("java/lang/Class", 3)
    for number in range(400):
        orders = heap.instance(order), heap.values(BYTE, 8)
        if number < 100:
            heap.dump.root(*orders)
    heap.dump.root(heap.array(table, 100))
    return heap


def lines(text: str) -> Dict[str, List[str]]:
    """Returns the columns of lines by the class in their last one."""
    return {row[-1]: row[:-1] for row in (line.split(maxsplit=5) for line in text.splitlines())}


class HeapSizesTest(unittest.TestCase):
    """What classes take, and what of that is unreachable."""

    def test_uneven_arrays(self) -> None:
        """What is unreachable takes about what it does, never less than nothing, though the mean padding of arrays is
        another in the sample than in the dump, and another of what is reachable."""
        for lost, exact in ((range(4000, 4200), 200 * 24), (range(0), 0), (range(6000), 6000 * 24)):
            it = LaidOutHeap(Layout(8, 12, 4, 16))
            every = it.uneven()
            it.dump.root(*(each for number, each in enumerate(every) if number not in lost))
            with mock.patch.object(heap_sample, "SAMPLED", 2000):
                found = {each.name: each for each in sizes_in(MarkedRuns(it.read())).classes}
            taken = [found[name].every for name in ("shop/Order", "byte[]")]
            self.assertEqual(taken, [Amount(600, 14400), Amount(5400, 129600)])
            self.assertEqual([name for name, each in found.items() if each.unreachable.bytes < 0], [], exact)
            unreachable = sum(found[name].unreachable.bytes for name in ("shop/Order", "byte[]"))
            self.assertAlmostEqual(unreachable, exact, delta=0.05 * exact)


class SizesTest(ToolTest):
    """sizes on a heap."""

    tool = "sizes"

    def setUp(self) -> None:
        super().setUp()
        shop().written().write("shop.hprof")

    def test_lines(self) -> None:
        """Each class with all of its objects in heap bytes, and what of them is unreachable; and the totals."""
        ended = self.ran("shop.hprof")
        found = lines(ended.out)
        self.assertEqual(found["shop/sale/Order"], ["400", "9600", "24.0", "48.8%", "7200"])
        self.assertEqual(found["byte[]"], ["400", "9600", "24.0", "48.8%", "7200"])
        self.assertEqual(found["[Lshop/sale/Order;"], ["1", "416", "416.0", "2.1%", "0"])
        self.assertEqual(found["java/lang/Class"][0], "3")
        self.assertEqual(list(found)[-3:], ["(reachable)", "(unreachable)", "(all)"])
        self.assertEqual(found["(unreachable)"][:2], ["601", "14424"])
        whole = [int(found[name][1]) for name in ("(reachable)", "(unreachable)", "(all)")]
        self.assertEqual((whole[0] + whole[1], found["(all)"][4]), (whole[2], "14424"))
        self.assertEqual(list(found)[:2], ["byte[]", "shop/sale/Order"])
        said = ended.said.splitlines()
        self.assertTrue(re.match("sizes: 601 objects are unreachable: garbage", said[0]), said)
        self.assertEqual(said[1:], [LAYOUT])

    def test_classes_of_one_name(self) -> None:
        """Objects of classes of one name, from two loaders, are one row: all of them are reachable."""
        heap = LaidOutHeap(Layout(8, 12, 4, 16))
        for fields in (2, 2, 5):
            order = heap.of_class("shop/Order", fields)
            for _ in range(400):
                heap.dump.root(heap.instance(order), heap.values(BYTE, 8))
        heap.written().write("loaders.hprof")
        found = lines(self.ran("loaders.hprof").out)
        self.assertEqual((found["shop/Order"][:2], found["shop/Order"][4]), (["1200", str(800 * 24 + 400 * 32)], "0"))
        self.assertEqual((found["byte[]"][0], found["byte[]"][4]), ("1200", "0"))

    def test_options(self) -> None:
        """Packages, unreachable objects only, and few lines."""
        found = lines(self.ran("--packages", "shop.hprof").out)
        self.assertEqual(found["shop/sale"], ["401", "10016", "25.0", "50.9%", "7200"])
        self.assertEqual(found["(no package)"], ["400", "9600", "24.0", "48.8%", "7200"])
        ended = self.ran("--unreachable", "--top", "1", "shop.hprof")
        self.assertEqual(list(lines(ended.out)), ["byte[]", "(reachable)", "(unreachable)", "(all)"])
        self.assertIn("sizes: 2 lines more: see --top\n", ended.said)
        self.assertNotIn("table", lines(self.ran("--unreachable", "shop.hprof").out))

    def test_unknown_layout(self) -> None:
        """If the layout is not known, bytes are those of the dump, and a line says so."""
        cache(5).write("few.hprof")
        ended = self.ran("few.hprof")
        why = (
            "sizes: the sizes of objects in the heap are not known, since too few objects have a neighbour; bytes are "
        )
        self.assertEqual(ended.said.splitlines()[-1], f"{why}the dump's")
        self.assertEqual(lines(ended.out)["byte[]"][:2], ["105", "2100"])

    def test_unsure(self) -> None:
        """It is said of how many classes it is not sure what their objects take, if that is a thousandth of the heap:
        it may be 48 bytes more, after which nothing is in the dump."""
        for orders, said in (
            (400, "1 class take, since no neighbour shows it: up to 144 bytes more or less"),
            (6000, ""),
        ):
            heap = LaidOutHeap(Layout(8, 12, 4, 16))
            order, rare = heap.of_class("shop/Order", 2), heap.of_class("shop/Rare", 2)
            for number in range(orders):
                heap.instance(order)
                heap.values(BYTE, 8)
                if number in (10, 20, 30):
                    heap.instance(rare)
                    heap.place(48)
            heap.written().write("unsure.hprof")
            ended = self.ran("unsure.hprof")
            self.assertEqual(lines(ended.out)["shop/Rare"][:2], ["3", "72"])
            lines_of = [line for line in ended.said.splitlines() if "not sure" in line]
            self.assertEqual(lines_of, [f"sizes: it is not sure what the objects of {said}"] if said else [], orders)

    def test_stacks(self) -> None:
        """What the stacks of virtual threads that wait take is said."""
        heap = shop()
        chunk = heap.of_class(STACK, 2, 3)
        for size in (1000, 3000):
            heap.instance(chunk, size - 32)
            heap.values(BYTE, 1)
        heap.written().write("stacks.hprof")
        ended = self.ran("--top", "1", "stacks.hprof")
        self.assertIn("\nsizes: the stacks of virtual threads that wait take 4,000 bytes in 2 objects\n", ended.said)

    def test_omitted(self) -> None:
        """Class objects that the dump lacks are in the heap, too."""
        heap = shop()
        table = heap.of_class("[Ljava/lang/Object;", number=heap.place(112))
        lacking = [heap.place(size) for size in (112, 120, 136)]
        heap.values(BYTE, 8)
        heap.array(table, 5, [0, *lacking, table])
        heap.written().write("archive.hprof")
        ended = self.ran("--top", "1", "--html", "page.html", "archive.hprof")
        found = lines(ended.out)
        self.assertEqual(list(found)[-4:], ["(reachable)", "(unreachable)", "(omitted)", "(all)"])
        self.assertEqual((found["(omitted)"][:3], found["(omitted)"][4]), (["3", "368", "122.7"], "0"))
        parts = ("(reachable)", "(unreachable)", "(omitted)")
        for column in 0, 1:
            self.assertEqual(sum(int(found[name][column]) for name in parts), int(found["(all)"][column]))
        words = "the dump omits 3 class objects (368 bytes) of classes in the JDK's archive that were not loaded"
        self.assertIn(f"sizes: {words}\n", ended.said)
        text = pathlib.Path("page.html").read_text(encoding="utf-8")
        self.assertIn("that the dump omits.", text)
        self.assertIn(words[1:].partition("'")[0], text)
        self.assertIn("lines more: see --top\n", ended.said)
        self.assertNotIn("see --top", text)

    def test_on_terminal(self) -> None:
        """On a terminal the columns have heads."""
        _, seen = self.on_terminal("--top", "1", "--packages", "shop.hprof", stream="stdout")
        self.assertRegex(seen, r"^ +objects +bytes +an object share +unreachable  package\n")

    def test_page(self) -> None:
        """--html writes a page that says the same."""
        ended = self.ran("--html", "page.html", "shop.hprof")
        self.assertEqual(ended.status, 0, ended.said)
        text = pathlib.Path("page.html").read_text(encoding="utf-8")
        for words in (
            "header 12 bytes",
            "What the heap is made of",
            "What the unreachable part of the heap is made of",
        ):
            self.assertIn(words, text)
        self.expect(["--html", "shop.hprof", "shop.hprof"], said="sizes: shop.hprof: a dump: *", status=2)

    def test_faults(self) -> None:
        """Files that are no dump, and words that are wrong."""
        self.expect(["none"], said="sizes: none: no such file", status=1)
        pathlib.Path("text").write_text("1\n")
        self.assertEqual(self.ran("text").status, 1)
        self.check_wrong_words([], ["a", "b"], ["--top", "0", "a"], ["--bytes", "a"])
        self.check_help("Shows what the classes of a heap dump take in the heap: ")

    def test_output(self) -> None:
        """Output that cannot be written, and interrupts."""
        self.check_output(["--top", "1", "shop.hprof"], self.ran("--top", "1", "shop.hprof").out)
        self.check_interrupt("shop.hprof")


class RowsTest(unittest.TestCase):
    """Classes and packages."""

    def test_order(self) -> None:
        """The largest comes first, or the one of which most is unreachable; arrays count for the package of their
        elements."""
        classes = [
            ClassSize("a/B", Amount(1, 100), Amount(1, 10)),
            ClassSize("[[La/B;", Amount(2, 90), Amount(2, 60)),
            ClassSize("int[]", Amount(3, 80), Amount()),
        ]
        self.assertEqual([each.name for each in unreachable_first(classes)], ["[[La/B;", "a/B"])
        found = [ClassSize("a", Amount(3, 190), Amount(3, 70)), ClassSize("(no package)", Amount(3, 80), Amount())]
        self.assertEqual(sizes_by_package(classes), found)
        self.assertEqual(classes[0].reachable, Amount(0, 90))

    def test_page_without_unreachable(self) -> None:
        """A page has no section on what is unreachable if nothing is."""
        sample = one_dump()
        none = page.Amount(0, 0)
        content = page.Sizes(sample.dump, sample.classes, {}, none, False, sample.making, sample.program, ["Note."])
        text = page.html_of(content)
        self.assertNotIn("unreachable part", text)
        self.assertIn("Note.", text)


if __name__ == "__main__":
    unittest.main()
