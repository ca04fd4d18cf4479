"""Tests what elements of a container that were there before gained by a field of theirs."""

import unittest
from typing import Sequence

from heap_tools.lasting_elements import LastingElements
from tests.support.dump_writer import BYTE, DumpWriter, word
from tests.support.marked import growth_of, held_by


class Net(DumpWriter):
    """A static field names a list of stations. Station `n` has `trips[n]` trips in the list of its field `edges`; with
    `between`, in that of the first of so many nodes there. `chained`: its field `next` leads to the first trip, and
    that to the next one. A trip has these fields, too, and 100 bytes."""

    def __init__(self, trips: Sequence[int], id_size: int = 8, between: int = 0, chained: bool = False) -> None:
        super().__init__(id_size)
        self.of_class(1, "shop/Service", {"NET": 100, "FIRST": 1000}, fields=[])
        self.of_class(2, "shop/Node", fields=["edges", "next", "content"])
        self.of_class(3, "java/util/ArrayList", fields=["size", "elementData"])
        self.of_class(4, "[Ljava/lang/Object;")
        self.list(100, range(1000, 1000 + len(trips)))
        for number, count in enumerate(trips):
            every = range(10_000 * (number + 1), 10_000 * (number + 1) + count)
            edges: Sequence[int] = () if chained else every
            nodes = range(2000 + 100 * number, 2000 + 100 * number + between)
            for node in nodes:
                self.node(node, edges if node == nodes[0] else (), 0)
            self.node(1000 + number, nodes or edges, every[0] if chained else 0)
            for trip in every:
                self.node(trip, (), trip + 1 if chained and trip + 1 in every else 0)
        self.root(1)

    def list(self, number: int, elements: Sequence[int]) -> None:
        """Writes a list."""
        self.instance(number, 3, word(len(elements)), number + 1_000_000)
        self.array(number + 1_000_000, 4, *elements)

    def node(self, number: int, edges: Sequence[int], follower: int) -> None:
        """Writes a node, and the list of its edges."""
        self.instance(number, 2, number + 2_000_000, follower, number + 4_000_000)
        self.list(number + 2_000_000, edges)
        self.values(number + 4_000_000, BYTE, bytes(100))


class LastingElementsTest(unittest.TestCase):
    """LastingElements"""

    def gain(self, before: DumpWriter, after: DumpWriter, name: str = "edges", of: str = "NET") -> float:
        """Returns what elements that were there before gained by a field, as a part of what all instances did."""
        probe = growth_of(before, after)
        held = held_by(probe, f"shop/Node.{name}")
        found = LastingElements(probe, held_by(probe, f"shop/Service.{of}")).gain(held.candidates[0])
        return found / probe.unit.of(probe.gain(held.candidates))

    def test_same(self) -> None:
        """Elements that are as many as before gained all that instances which came seem to have gained: each of them,
        or one."""
        for id_size in (4, 8):
            for trips in ([12] * 5, [3, 3, 48, 3, 3]):
                self.assertEqual(self.gain(Net([3] * 5, id_size), Net(trips, id_size)), 1.0, (id_size, trips))

    def test_came(self) -> None:
        """What elements have that came is not gained, but for what the others gained, too."""
        self.assertEqual(self.gain(Net([12] * 3), Net([12] * 9)), 0.0)
        self.assertAlmostEqual(self.gain(Net([3] * 5), Net([12] * 6)), 45 / 57, delta=0.02)
        self.assertEqual(self.gain(Net([3] * 5), Net([20] * 4)), 1.0)
        self.assertEqual(self.gain(Net([]), Net([20] * 4)), 0.0)

    def test_below(self) -> None:
        """The first nodes of trees gain nothing if it piles up below their own elements, be they as many as before or
        some more."""
        for between in (10, 11):
            self.assertEqual(self.gain(Net([3] * 5, between=10), Net([30] * 5, between=between)), 0.0)
        self.assertEqual(self.gain(Net([3] * 5, between=10), Net([30] * 5, between=20)), 1.0)

    def test_no_container(self) -> None:
        """A field that leads to no container gains nothing: the first of a chain is not where it piles up. There may be
        no elements."""
        pair = Net([3] * 5, chained=True), Net([12] * 5, chained=True)
        self.assertEqual(self.gain(*pair, "next"), 0.0)
        self.assertEqual(self.gain(*pair, "content"), 0.0)
        self.assertEqual(self.gain(Net([3] * 5), Net([12] * 5), of="FIRST"), 0.0)


if __name__ == "__main__":
    unittest.main()
