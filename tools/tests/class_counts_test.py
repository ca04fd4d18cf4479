"""Tests of which loaders it is said that there are more classes."""

import unittest

from heap_tools.class_counts import (
    FEW_CLASSES,
    MACHINE_LOADER,
    MANY,
    MANY_LOADERS,
    grown_class_counts,
    many_loaders_words,
)
from heap_tools.heap_dump import HeapDump
from heap_tools.reports import Amount, Report, Row
from tests.support.dump_writer import DumpWriter


def dump_of(loaders: int, classes: int, name: str = "shop/Plugin{}", others: int = 1) -> HeapDump:
    """Returns a dump in which so many loaders have `classes` classes each, and the virtual machine has `others`."""
    dump = DumpWriter()
    dump.of_class(5, "shop/Loader")
    number = 10_000
    for other in range(others):
        dump.of_class(100 + other, f"java/{'A' * (other + 1)}")
    for loader in range(1000, 1000 + loaders):
        dump.instance(loader, 5)
        for each in range(classes):
            dump.of_class(number, name.format(each), loader=loader)
            number += 1
    return HeapDump(dump.bytes())


class ClassCountsTest(unittest.TestCase):
    """grown_class_counts"""

    def said(self, first: HeapDump, last: HeapDump) -> "list[str]":
        """Returns what is said of two dumps."""
        return [str(each) for each in grown_class_counts(first, last)]

    def test_loaders(self) -> None:
        """Of loaders that are kept it is said how many there are, and how many classes they have."""
        said = "1,000 classes more of shop/Loader (1 loader, then 11): 100, then 1,100, most like shop/Plugin*"
        self.assertEqual(self.said(dump_of(1, 100), dump_of(11, 100)), [said])

    def test_generated(self) -> None:
        """Of generated classes of one loader the pattern of their names is said, if most have it."""
        said = "300 classes more of shop/Loader: 20, then 320, most like shop/$Proxy*"
        self.assertEqual(self.said(dump_of(1, 20, "shop/$Proxy{}"), dump_of(1, 320, "shop/$Proxy{}")), [said])
        said = f"{MANY} classes more of {MACHINE_LOADER}: 2, then {MANY + 2}"
        self.assertEqual(self.said(dump_of(1, 20), dump_of(1, 20, others=MANY + 1)), [said])

    def test_few(self) -> None:
        """A few classes more, as any program has, are not said, and nor are fewer."""
        self.assertEqual(self.said(dump_of(1, 20), dump_of(1, 19 + MANY)), [])
        self.assertEqual(self.said(dump_of(1, 900), dump_of(1, 20)), [])

    def test_many_loaders(self) -> None:
        """Of one dump it is said if very many loaders of one class are reachable that have hardly more than a class
        each."""
        every = MANY_LOADERS
        said = f"{every:,} loaders shop/Loader have {every:,} classes, most like shop/Plugin*"
        said += ": metadata of each is outside the heap"
        for loaders, classes, reachable, wanted in (
            (every, 1, every, [said]),
            (every, FEW_CLASSES, every, [said.replace(" 1,000 classes", f" {every * FEW_CLASSES:,} classes")]),
            (every, FEW_CLASSES + 1, every, []),
            (every, 1, every - 1, []),
            (every - 1, 1, every, []),
        ):
            report = Report([Row("shop/Loader", Amount(reachable, 0))])
            found = many_loaders_words(dump_of(loaders, classes), report)
            self.assertEqual(found, wanted)


if __name__ == "__main__":
    unittest.main()
