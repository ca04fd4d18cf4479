"""The page of sizes as HTML: its words and its form."""

import unittest

from heap_tools import page
from tests.support.hostile_names import HOSTILE, hostile_leak
from tests.support.html_of_page import HtmlOfPage
from tests.support.page_sample import sizes


class PageOfSizesTest(HtmlOfPage):
    """The page of sizes as HTML."""

    def test_texts(self) -> None:
        """What the page says of the sample."""
        self.check_texts(
            sizes(),
            "heapmark · sizes",
            "55.9 MB in 1,123,641 objects",
            "The heap has 49.6 MB that are reachable, 6.1 MB that are not, and 117 kB that the dump omits.",
            "All in the dump",
            "All unreachable",
            "Bytes are those of the heap: objects begin at each 8th byte.",
            "What the unreachable part of the heap is made of",
            "the objects of each class, reachable or not, are counted by the tool. Bytes are those of the heap: counts",
            "Made by sizes of heapmark",
        )
        none = page.Amount(0, 0)
        found = self.outline(sizes(unreachable={}, omitted=none, has_heap_bytes=False)).text()
        self.assertIn("The heap has 49.6 MB that are reachable, and 6.1 MB that are not.", found)
        for words in ("unreachable part", "counts times sizes", "All reachable"):
            self.assertNotIn(words, found)

    def test_structure(self) -> None:
        """What a screen reader needs, and nothing that fetches or runs, whatever the names."""
        names = {name: page.Amount(1, 1) for name in HOSTILE}
        hostile = sizes(classes=names, unreachable=names, program=hostile_leak().program, notes=HOSTILE)
        for it in sizes(), sizes(unreachable={}, classes={}), hostile:
            self.check_structure(it)
            self.check_not_active(it)


if __name__ == "__main__":
    unittest.main()
