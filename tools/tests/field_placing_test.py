"""Tests of where virtual machines place fields."""

import unittest
from typing import Dict, List, Tuple

from heap_tools import hprof_format as hprof
from heap_tools.field_placing import Fields, OwnFields, Placing, aligned, end_of

REF = hprof.OBJECT
#: The fields of the classes of bench/java/sizes/Hierarchies.java, those of superclasses first.
FLAG, COUNT, PAIR = [hprof.BOOLEAN], [hprof.INT, REF, REF], [REF, REF, hprof.LONG]
TIME, SPAN = [hprof.LONG, hprof.BYTE], [hprof.SHORT, REF, REF, hprof.LONG]
CLASSES = {
    "Flag": [FLAG],
    "TwoFlags": [FLAG] * 2,
    "ThreeFlags": [FLAG] * 3,
    "FourFlags": [FLAG] * 4,
    "FiveFlags": [FLAG] * 5,
    "Rare": [*[FLAG] * 4, [hprof.LONG]],
    "Count": [COUNT],
    "Time": [COUNT, TIME],
    "Span": [COUNT, TIME, SPAN],
    "Named": [COUNT, TIME, SPAN, [hprof.CHAR, hprof.DOUBLE]],
    "Pair": [PAIR],
    "Link": [PAIR, [hprof.INT]],
}


class PlacingTest(unittest.TestCase):
    """What instances take."""

    def check(self, placing: Placing, header: int, reference: int, sizes: List[int]) -> None:
        """Compares the sizes of the classes above with those in the histogram of a virtual machine."""
        found: Dict[str, int] = {}
        for name, own in CLASSES.items():
            fields = Fields()
            for kinds in own:
                fields = fields.plus(OwnFields.of(kinds))
            found[name] = aligned(end_of(fields, header, reference, placing), 8)
        self.assertEqual(found, dict(zip(CLASSES, sizes)))

    def test_jdk_11(self) -> None:
        """JDK 11.0.24, G1."""
        self.check(Placing.REFERENCES_LAST, 12, 4, [16, 24, 24, 32, 32, 40, 24, 40, 56, 72, 32, 32])

    def test_references_first(self) -> None:
        """JDK 11.0.24, -XX:FieldsAllocationStyle=0."""
        self.check(Placing.REFERENCES_FIRST, 12, 4, [16, 24, 24, 32, 32, 40, 24, 40, 56, 72, 32, 40])

    def test_uncompressed(self) -> None:
        """JDK 11.0.24, -XX:-UseCompressedOops."""
        self.check(Placing.REFERENCES_LAST, 16, 8, [24, 32, 40, 48, 56, 56, 40, 56, 88, 104, 40, 48])

    def test_with_gaps(self) -> None:
        """JDK 11.0.24, -XX:-CompactFields, with both values of -XX:FieldsAllocationStyle."""
        for placing in (Placing.LAST_WITH_GAPS, Placing.FIRST_WITH_GAPS):
            self.check(placing, 12, 4, [16, 24, 24, 32, 32, 40, 24, 40, 64, 80, 32, 40])

    def test_filled(self) -> None:
        """JDK 17, G1 and ZGC, and JDK 25 with compact headers."""
        self.check(Placing.FILLED, 12, 4, [16, 16, 16, 16, 24, 24, 24, 40, 56, 64, 32, 32])
        self.check(Placing.FILLED, 12, 8, [16, 16, 16, 16, 24, 24, 32, 48, 72, 80, 40, 40])
        self.check(Placing.FILLED, 8, 4, [16, 16, 16, 16, 16, 24, 24, 32, 48, 64, 24, 32])

    def test_gap(self) -> None:
        """What is before the first value of 8 bytes has one value of 4, or some of 2 and 1, or else a reference; with
        gaps it has none."""
        cases: List[Tuple[List[int], int, int]] = [
            ([], 12, 24),
            ([], 16, 24),
            ([hprof.INT], 12, 24),
            ([hprof.INT, hprof.INT], 12, 28),
            ([hprof.SHORT, hprof.BYTE, hprof.BYTE], 12, 24),
            ([hprof.SHORT, hprof.SHORT, hprof.BYTE], 12, 28),
            ([hprof.BYTE] * 5, 12, 28),
            ([REF], 12, 24),
            ([REF, hprof.BYTE], 12, 28),
            ([REF], 16, 28),
        ]
        for others, begin, end in cases:
            own = OwnFields.of([hprof.LONG, *others])
            self.assertEqual(own.end(begin, 4, Placing.REFERENCES_LAST), end, (others, begin))
            unfilled = aligned(begin, 8) + aligned(own.other, 4) + 4 * own.references
            self.assertEqual(own.end(begin, 4, Placing.LAST_WITH_GAPS), unfilled, (others, begin))


if __name__ == "__main__":
    unittest.main()
