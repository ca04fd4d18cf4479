"""Tests what dumps of one program have in common."""

import pathlib
import tempfile
import unittest
from typing import Any, List, Optional, Tuple
from unittest import mock

from heap_tools.heap_dump import Frame, Root
from heap_tools.hprof_format import THREAD_OBJECT
from heap_tools.same_program import Taken, other_main, other_program, same_file, wrong_order


class SameProgramTest(unittest.TestCase):
    """What is said of dumps that do not go together, and of those that do."""

    def test_wrong_order(self) -> None:
        """A file must not be older than the one before it; those without a time may stand anywhere."""
        cases: List[Tuple[List[Optional[int]], Optional[Tuple[int, int]]]] = [
            ([5], None),
            ([5, 5, 6], None),
            ([5, None, 6, None], None),
            ([6, 5], (1, 0)),
            ([5, 6, 4, 3], (2, 1)),
            ([6, None, 5], (2, 0)),
            ([0, None, 0], None),
        ]
        for times, wrong in cases:
            said = wrong_order([Taken(f"file{number}", time) for number, time in enumerate(times)])
            wanted = wrong and f"file{wrong[0]}: wrong order? it was dumped earlier than file{wrong[1]}"
            self.assertEqual(said, wanted, times)

    def test_other_program(self) -> None:
        """At least half of the own classes of the smaller heap are in the other, whichever comes first."""
        jdk = ["java/lang/String", "byte[]", "<class>"]
        for common, first, last, said in (
            (2, 2, 9, None),
            (2, 9, 2, None),
            (1, 1, 2, None),
            (2, 3, 9, "2 of the 5 own classes"),
            (2, 9, 3, "2 of the 11 own classes"),
            (0, 1, 1, "0 of the 1 own classes"),
            (0, 0, 9, None),
            (0, 9, 0, None),
        ):
            both = [f"shop/A{number}" for number in range(common)]
            firsts = [*jdk, *both, *(f"shop/B{number}" for number in range(first))]
            lasts = [*jdk, *both, *(f"shop/C{number}" for number in range(last))]
            self.assertEqual(other_program(firsts, lasts), said, (common, first, last))

    def test_other_main(self) -> None:
        """The main classes are those of a stack that begins in `main`, of a launcher and what it launches. One of them
        may come or go; if each dump has one that the other lacks, they are of two programs."""
        cases: List[Tuple[List[str], List[str], Optional[str]]] = [
            (["main"], ["main"], None),
            (["main"], ["Stock.main"], "the main class Stock, not the Order"),
            (["main", "Stock.main"], ["main", "Late.main"], "the main class Late, not the Stock"),
            (["main", "Stock.main"], ["main"], None),
            (["main"], ["Stock.main", "main"], None),
            (["main"], ["Stock.run"], None),
            (["main", "run"], ["Stock.main", "run"], None),
            ([], ["Stock.main"], None),
        ]
        for first, last, said in cases:
            dumps = [self.dump(methods) for methods in (first, last)]
            self.assertEqual(other_main(*dumps), said, (first, last))

    def dump(self, methods: List[str]) -> Any:
        """Returns a dump of which the only thread is in these methods, the innermost first, each of a class or of
        `Order`."""
        stack = [Frame(each.rpartition(".")[0] or "Order", each.rpartition(".")[2]) for each in methods]
        return mock.Mock(roots=[Root(THREAD_OBJECT, 0, 1, None)], stack={1: stack}.get)

    def test_same_file(self) -> None:
        """Two files with one content after each other are the same, also by other names."""
        with tempfile.TemporaryDirectory() as folder:
            a, b, c = (str(pathlib.Path(folder, name)) for name in "abc")
            for path, content in ((a, b"one"), (b, b"two"), (c, b"two")):
                pathlib.Path(path).write_bytes(content)
            self.assertIsNone(same_file([a, b, a]))
            self.assertEqual(same_file([a, b, c]), f"{c}: the same file as {b}")
            self.assertEqual(same_file([a, a]), f"{a}: the same file as {a}")


if __name__ == "__main__":
    unittest.main()
