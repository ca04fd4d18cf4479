"""Tests the reading of reports and histograms."""

import io
import unittest

from heap_tools.faults import Fault
from heap_tools.reports import LONGEST_LINE, Amount, Report, read_text, report_bound
from tests.support.tool_test import histogram, report

#: More bytes than a number of 32 bits has, and more than a file of heapmark can hold objects.
HUGE = 12_345_678_901


class ReportsTest(unittest.TestCase):
    """Texts that are reports or histograms, or nearly."""

    def read(self, text: str) -> Report:
        """Reads a text, which is a report or a histogram."""
        found = read_text(io.BytesIO(text.encode()), "file")
        assert found
        return found[1]

    def test_large_numbers(self) -> None:
        """A row may have more than a gigabyte, in a report and in a histogram."""
        for text in (report((HUGE, HUGE, "byte[]")), histogram((HUGE, HUGE, "[B (java.base@17)"))):
            self.assertEqual(self.read(text).amount("byte[]"), Amount(HUGE, HUGE))

    def test_longest_names(self) -> None:
        """A name of a class has at most 65,535 bytes, of which a report may show each by four."""
        name = 65_535 * "\\x5c"
        self.assertEqual(self.read(report((1, 10, name))).amount(name), Amount(1, 10))

    def test_families(self) -> None:
        """Classes of one name are added together, and so are hidden classes but for their numbers."""
        found = self.read(report((1, 10, "A"), (2, 20, "A"), (3, 30, "B$$Lambda$1+0x0a"), (4, 40, "B$$Lambda$2+0x0b")))
        self.assertEqual(found.families, {"A": Amount(3, 30), "B$$Lambda": Amount(7, 70)})
        self.assertEqual(found.total(["A", "C"]), Amount(3, 30))
        self.assertEqual(found.total(None), found.reachable)

    def test_cut(self) -> None:
        """A text that was cut is neither, wherever it was cut between two lines."""
        for text in (report((1, 10, "A"), (2, 20, "B")), histogram((1, 10, "A"), (2, 20, "B"))):
            lines = text.splitlines(keepends=True)
            for count in range(len(lines)):
                self.assertIsNone(read_text(io.BytesIO("".join(lines[:count]).encode()), "file"))

    def test_two(self) -> None:
        """Two reports or two histograms in one file are refused."""
        for text in (report((1, 10, "A")), histogram((1, 10, "A"))):
            with self.assertRaises(Fault):
                read_text(io.BytesIO(text.encode() * 2), "file")


class BoundTest(unittest.TestCase):
    """What is the beginning of a report, as it comes."""

    def test_bound(self) -> None:
        """The first line is a row, there are no more rows than the dump may have classes, and no line is too long,
        however the text comes in parts."""
        row = b"         1               8  A\n"
        for length, text, is_report in (
            (43, row * 13, True),
            (43, row * 14, False),
            (430, row * 22, True),
            (430, row * 23, False),
            (0, b"12", True),
            (0, b"12\n", False),
            (0, row + b"anything", True),
            (0, b"x" * LONGEST_LINE, False),
            (0, row + b"x" * (LONGEST_LINE - 1), True),
            (0, row + b"x" * LONGEST_LINE, False),
            (0, row + b"x" * 99 + b"\n" + b"x" * (LONGEST_LINE - 1), True),
        ):
            for part in (1 << 30, 1 << 16, 1000):
                bound = report_bound(length)
                ends = [*range(part, len(text), part), len(text)]
                self.assertEqual(all([bound(text[:end]) for end in ends]), is_report, (length, text[:60], part))


if __name__ == "__main__":
    unittest.main()
