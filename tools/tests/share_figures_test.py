"""Tests bench/share_figures.py on small dumps, with a log that has histograms of the same moments."""

from __future__ import annotations

import os
import pathlib
import subprocess
import tempfile
import unittest

from heap_tools.heap_layout import Layout
from tests.support.dump_writer import BYTE
from tests.support.laid_out_heap import LaidOutHeap
from tests.support.tool_test import HEAPMARK, TOP, Row, histogram

#: The bytes of a page, in the dump and in the heap.
PAGE, TAKEN = 80, 96


def shop(orders: int, pages: int) -> LaidOutHeap:
    """Returns a heap in which a static field leads to an array of `orders` orders of 24 bytes, and another one to an
    array of `pages` pages."""
    heap = LaidOutHeap(Layout(8, 12, 4, 16))
    heap.of_class("java/lang/Class", 3)
    order = heap.of_class("shop/Order", 2)
    parts = [("Orders", [heap.instance(order) for _ in range(orders)])]
    parts.append(("Pages", [heap.values(BYTE, PAGE) for _ in range(pages)]))
    for name, numbers in parts:
        table = heap.array(heap.of_class(f"[Lshop/{name};"), len(numbers), numbers)
        heap.dump.of_class(heap.place(24), f"shop/{name}", {"ALL": table})
        heap.dump.root(heap.at - 24)
    return heap


def rows(orders: int, pages: int, an_order: int = 24) -> list[Row]:
    """Returns the histogram of such a heap, in which an order takes `an_order` bytes."""
    found = [(orders, an_order * orders, "shop.Order"), (pages, TAKEN * pages, "[B (java.base@17)")]
    found += [(1, 16 + 4 * orders, "[Lshop.Orders;"), (1, 16 + 4 * pages, "[Lshop.Pages;")]
    return [*found, (6, 600, "java.lang.Class (java.base@17)")]


def logged(number: int, cause: str, *histogram_rows: Row) -> str:
    """Returns what a virtual machine logs of a collection: a histogram before it, which has garbage, too, and one after
    it."""
    text = ""
    for when, some in (("before", [(9, 9000, "[B (java.base@17)")]), ("after", histogram_rows)):
        text += f"[0.512s][trace][gc,classhisto,start] Class Histogram ({when} full gc)\n"
        lines = histogram(*some).splitlines()[1:]
        text += "".join(f"[0.512s][trace][gc,classhisto      ] GC({number}) {line}\n" for line in lines)
        text += f"[0.514s][trace][gc,classhisto      ] GC({number}) Class Histogram ({when} full gc) 1.210ms\n"
    return f"{text}[0.515s][info ][gc                 ] GC({number}) Pause Full ({cause}) 5M->2M(62M) 6.4ms\n"


class ShareFiguresTest(unittest.TestCase):
    """Two dumps, between which orders and pages grew."""

    BEFORE, AFTER = (400, 400), (10_400, 1_400)

    def setUp(self) -> None:
        room = tempfile.TemporaryDirectory()
        self.addCleanup(room.cleanup)
        self.room = pathlib.Path(room.name)

    def ended(self, before: list[Row], after: list[Row]) -> tuple[int, str]:
        """Runs the script on the dumps and these histograms. Returns its status and what it prints."""
        files = [self.room / name for name in ("Shop-before.hprof", "Shop-after.hprof", "log")]
        for path, counts in zip(files, (self.BEFORE, self.AFTER)):
            shop(*counts).written().write(path)
        other = logged(1, "Diagnostic Command", (1, 8, "shop.Order"))
        dumped = [logged(at, "Heap Dump Initiated GC", *each) for at, each in ((0, before), (2, after))]
        files[2].write_text(other.join(dumped))
        run = subprocess.run(
            [str(TOP / "bench/share_figures.py"), *map(str, files)],
            env={**os.environ, "HEAPMARK": HEAPMARK},
            stdout=subprocess.PIPE,
            text=True,
            timeout=60,
            check=False,
        )
        return run.returncode, run.stdout

    def test_same_share(self) -> None:
        """The share is that of the histograms: 280,000 of 380,000 bytes."""
        status, out = self.ended(rows(*self.BEFORE), rows(*self.AFTER))
        self.assertEqual(out, "| Shop | `static shop/Orders.ALL` | 0.38 | 0.38 | 0.28 | 0.28 | 73.7 | 73.7 |\n")
        self.assertEqual(status, 0)

    def test_other_share(self) -> None:
        """By histograms in which an order takes 40 bytes, the share is another one."""
        status, out = self.ended(rows(*self.BEFORE, 40), rows(*self.AFTER, 40))
        self.assertEqual(out, "| Shop | `static shop/Orders.ALL` | 0.38 | 0.54 | 0.28 | 0.44 | 73.7 | 81.5 |\n")
        self.assertEqual(status, 1)


if __name__ == "__main__":
    unittest.main()
