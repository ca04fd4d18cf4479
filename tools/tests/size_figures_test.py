"""Tests bench/size_figures.py on small dumps of 32 and 64 bits, with histograms of the same moment."""

from __future__ import annotations

import pathlib
import re
import subprocess
import tempfile
import unittest

from heap_tools.heap_layout import Layout
from tests.support.dump_writer import BYTE, OBJECT
from tests.support.laid_out_heap import LaidOutHeap
from tests.support.tool_test import TOP, Row, histogram

#: Layouts by the bytes of an identifier, and what they are in the table.
LAYOUTS = {4: (Layout(8, 8, 4, 12), "8, 8, 12, 4"), 8: (Layout(8, 12, 4, 16), "8, 12, 16, 4")}
#: What class objects take that the dump has, and those that it lacks.
LOADED, LACKING = 3 * 24, [112, 120, 136]


def shop(id_size: int) -> LaidOutHeap:
    """Returns a heap with 400 orders and as many arrays of bytes, and an array that refers to class objects which the
    dump lacks."""
    heap = LaidOutHeap(LAYOUTS[id_size][0], id_size)
    classes = [("java/lang/Class", 3), ("shop/Order", 2), ("[Ljava/lang/Object;", 0)]
    _, order, table = (heap.of_class(*each, number=heap.place(24)) for each in classes)
    for _ in range(400):
        heap.values(BYTE, 8)
        heap.instance(order)
    lacking = [heap.place(size) for size in LACKING]
    heap.array(table, 4, [*lacking, table])
    return heap


def rows(id_size: int, an_order: int = 0, orders: int = 400) -> list[Row]:
    """Returns the histogram of such a heap. An order takes `an_order` bytes, as many as it does if that is 0."""
    layout = LAYOUTS[id_size][0]
    an_order = an_order or layout.aligned(layout.header + 8)
    found = [(orders, orders * an_order, "shop.Order"), (400, 400 * layout.array(BYTE, 8), "[B (java.base@17)")]
    found.append((1, layout.array(OBJECT, 4), "[Ljava.lang.Object; (java.base@17)"))
    return [*found, (6, LOADED + sum(LACKING), "java.lang.Class (java.base@17)")]


class SizeFiguresTest(unittest.TestCase):
    """A dump and a histogram."""

    def ended(self, id_size: int, counted: list[Row]) -> tuple[int, str]:
        """Runs the script on the dump and this histogram. Returns its status, and what it prints but for the costs."""
        with tempfile.TemporaryDirectory() as room:
            dump, text = (pathlib.Path(room) / name for name in ("shop.hprof", "shop.histogram"))
            shop(id_size).written().write(dump)
            text.write_text(f"4711:\nGC.class_histogram\n{histogram(*counted)}Heap dump file created\n")
            words = [str(TOP / "bench/size_figures.py"), str(dump), str(text)]
            run = subprocess.run(words, stdout=subprocess.PIPE, text=True, timeout=60, check=False)
        return run.returncode, re.sub(r" [0-9.]+ s, [0-9.]+ s of processors, [0-9]+ MB \|", "", run.stdout)

    def test_same(self) -> None:
        """All objects take what the histogram has, with the class objects that the dump lacks."""
        for id_size, (_, layout) in LAYOUTS.items():
            counted = rows(id_size)
            part = 1 - sum(LACKING) / sum(size for _, size, _ in counted)
            line = f"| shop | {layout} | 4 of 4 | {part:.5f} | 3 | 1.00000 | 0 |\n"
            self.assertEqual(self.ended(id_size, counted), (0, line))

    def test_off(self) -> None:
        """A class whose objects take another size is off, and one with another number of objects has a line, too."""
        status, out = self.ended(4, rows(4, an_order=24))
        self.assertEqual(status, 1)
        self.assertTrue(out.endswith(" | 1 |\n    shop/Order: 400 and 400 objects, 6400 and 9600 bytes\n"), out)
        status, out = self.ended(4, rows(4, orders=399))
        self.assertIn("| 3 of 4 |", out)
        self.assertTrue(out.endswith(" | 0 |\n    shop/Order: 400 and 399 objects, 6400 and 6384 bytes\n"), out)


if __name__ == "__main__":
    unittest.main()
