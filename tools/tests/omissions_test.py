"""What dumps do not have, in the words of the tools and of the page."""

import unittest

from heap_tools import omissions
from heap_tools.reports import Amount


class OmissionsTest(unittest.TestCase):
    """When something is said, and how."""

    def test_more_unreachable(self) -> None:
        """One is no plural, and what is not more is left out."""
        for more, wanted in [
            (Amount(1, 24), "1 object more, 24 bytes more are unreachable: garbage in"),
            (Amount(1, 0), "1 object more is unreachable: garbage in"),
            (Amount(-124, 1), "1 byte more is unreachable: garbage in"),
            (Amount(1_200, -8), "1,200 objects more are unreachable: garbage in"),
        ]:
            with self.subTest(wanted):
                self.assertTrue(omissions.more_unreachable(more).startswith(wanted), omissions.more_unreachable(more))

    def test_why(self) -> None:
        """A dump of an OutOfMemoryError has garbage, as one with -all has: no collection comes before either."""
        said = omissions.more_unreachable(Amount(2, 48))
        self.assertIn("garbage in dumps with -all or of an OutOfMemoryError; in live dumps only class objects", said)

    def test_on_page(self) -> None:
        """Only what is more is said."""
        self.assertEqual(omissions.on_page(Amount(-1, 0)), [])
        self.assertEqual(len(omissions.on_page(Amount(1, 0))), 1)

    def test_large_unreachable(self) -> None:
        """What is warned of: a fifth of all that there is more, and a hundredth of the heap."""
        megabyte = 10**6
        for more, grown, heap, percent in [
            (14.5, 2.76, 30, 84),
            (1, 4, 30, 20),
            (1, 4.1, 30, None),
            (0.2, 0, 30, None),
            (0.3, 0, 30, 100),
            (3, -20, 30, 100),
            (-3, 1, 30, None),
            (0, 0, 0, None),
        ]:
            with self.subTest(more=more, grown=grown):
                given = (Amount(1, int(number * megabyte)) for number in (more, grown, heap))
                said = omissions.large_unreachable(*given)
                self.assertEqual(said is not None, percent is not None, said)
                if said is not None:
                    self.assertIn(f" MB more are unreachable" if more >= 1 else "300 kB more are unreachable", said)
                    self.assertIn(f"That is {percent}% of all that the last dump has more", said)


if __name__ == "__main__":
    unittest.main()
