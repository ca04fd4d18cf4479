"""Tests how many elements containers have."""

import unittest
from heap_tools.container_sizes import container_sizes
from heap_tools.heap_objects import HeapObjects
from tests.support.dump_writer import BYTE, DumpWriter, word
from tests.support.marked import marked


class ContainerSizesTest(unittest.TestCase):
    """container_sizes"""

    def dump(self, id_size: int) -> DumpWriter:
        """Returns a dump of a service whose fields lead to a list with 900 places and 3 elements, to a map with an
        array of 64, to an array of 8, to an array of bytes, and nowhere. Each of two rooms has a list of 5 or 70."""
        dump = DumpWriter(id_size)
        dump.of_class(1, "shop/Service", {"ONE": 100}, fields=["list", "map", "array", "bytes", "nothing"])
        dump.of_class(2, "java/util/ArrayList", fields=["intOther", "size", "elementData"])
        dump.of_class(3, "java/util/HashMap", fields=["keySet", "table"])
        dump.of_class(4, "[Ljava/lang/Object;")
        dump.of_class(5, "shop/Room", fields=["guests"])
        dump.instance(100, 1, 200, 201, 202, 203, 0)
        self.write_list(dump, 200, 3, 900)
        dump.instance(201, 3, 0, 301)
        dump.array(301, 4, *[0] * 64)
        dump.array(202, 4, *[0] * 8)
        dump.values(203, BYTE, bytes(5000))
        for number, size in enumerate((5, 70)):
            dump.instance(110 + number, 5, 210 + number)
            self.write_list(dump, 210 + number, size, 0)
        return dump

    def write_list(self, dump: DumpWriter, number: int, size: int, places: int) -> None:
        """Writes a list with so many elements, and an array with so many places."""
        dump.instance(number, 2, word(9999), word(size), number + 100)
        dump.array(number + 100, 4, *[0] * places)

    def test_sizes(self) -> None:
        """The size that a collection keeps counts, or the length of an array. Of what is no object it is not known."""
        for id_size in (4, 8):
            objects = HeapObjects(marked(self.dump(id_size)).dump)
            found = container_sizes(objects, {200, 201, 202, 203, 211, 999, 0})
            self.assertEqual(found, {200: 3, 201: 64, 202: 8, 203: 0, 211: 70})


if __name__ == "__main__":
    unittest.main()
