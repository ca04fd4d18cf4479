"""Numbers in words: sizes, times, and numbers of things."""

import unittest

from heap_tools import humanize


class HumanizeTest(unittest.TestCase):
    """Each function over a table."""

    def test_size(self) -> None:
        """Bytes in words, at the edges of each unit."""
        table = {
            0: "0 bytes",
            1: "1 byte",
            -1: "-1 byte",
            999: "999 bytes",
            1000: "1.0 kB",
            99_949: "99.9 kB",
            99_950: "100 kB",
            999_499: "999 kB",
            999_500: "1.0 MB",
            41_208_334: "41.2 MB",
            587_000_000: "587 MB",
            10**12: "1000 GB",
        }
        for number, wanted in table.items():
            with self.subTest(number):
                self.assertEqual(humanize.size(number), wanted)

    def test_counted(self) -> None:
        """One is no plural."""
        for number, noun, wanted in [
            (0, "object", "0 objects"),
            (1, "object", "1 object"),
            (-1, "object", "-1 object"),
            (1234, "object", "1,234 objects"),
            (1, "class", "1 class"),
            (2, "class", "2 classes"),
        ]:
            with self.subTest(wanted):
                self.assertEqual(humanize.counted(number, noun), wanted)

    def test_more_are(self) -> None:
        """What is not more is left out, and one is no plural."""
        for objects, size, wanted in [
            (2, 24, "2 objects more, 24 bytes more are"),
            (1, 24, "1 object more, 24 bytes more are"),
            (1, 0, "1 object more is"),
            (-124, 1, "1 byte more is"),
            (1_200, -8, "1,200 objects more are"),
        ]:
            with self.subTest(wanted):
                self.assertEqual(humanize.more_are(objects, size), wanted)

    def test_duration(self) -> None:
        """How long something took, in two units."""
        table = {
            0: "0 s",
            59_999: "1 min",
            754_000: "12 min 34 s",
            3_599_000: "59 min 59 s",
            3_600_000: "1 h",
            3_601_000: "1 h",
            3_660_000: "1 h 1 min",
            86_400_000: "1 day",
            273_600_000: "3 days 4 h",
        }
        for milliseconds, wanted in table.items():
            with self.subTest(milliseconds):
                self.assertEqual(humanize.duration(milliseconds), wanted)


if __name__ == "__main__":
    unittest.main()
