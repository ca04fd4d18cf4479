"""Tests how much memory the heap of a program may have."""

import lzma
import unittest
from typing import Optional

from heap_tools.heap_capacity import OPTION, heap_capacity
from heap_tools.heap_dump import HeapDump
from tests.support.dump_writer import DumpWriter
from tests.support.services import add_capacity
from tests.support.tool_test import TOP


def machine(most_direct: int, key: str) -> bytes:
    """Returns a dump of a program whose direct buffers may have so much memory, with one property of this name."""
    dump = DumpWriter()
    add_capacity(dump, most_direct, key)
    return dump.bytes()


class HeapCapacityTest(unittest.TestCase):
    """Dumps of virtual machines, and written ones."""

    def capacity(self, content: bytes) -> Optional[int]:
        """Returns what a dump with this content says."""
        return heap_capacity(HeapDump(content))

    def test_virtual_machines(self) -> None:
        """Each was started with -Xmx24m."""
        for version in ("17", "21", "25"):
            content = lzma.decompress((TOP / f"bench/real/jdk{version}.hprof.xz").read_bytes())
            self.assertEqual(self.capacity(content), 24 << 20, version)

    def test_direct_memory(self) -> None:
        """Direct buffers have as much as the heap, unless an option says otherwise."""
        self.assertEqual(self.capacity(machine(48 << 20, "java.home")), 48 << 20)
        self.assertIsNone(self.capacity(machine(48 << 20, OPTION)))
        self.assertIsNone(self.capacity(machine(0, "java.home")))

    def test_nothing(self) -> None:
        """A dump of no virtual machine says nothing."""
        self.assertIsNone(self.capacity((TOP / "crates/heapmark/data/two_objects.hprof").read_bytes()))


if __name__ == "__main__":
    unittest.main()
