"""Tests how much memory of direct buffers a dump is said to have."""

import unittest
from unittest import mock

from heap_tools import direct_buffers
from heap_tools.direct_buffers import DirectMemory, direct_memory, more_direct_memory, worth_saying
from heap_tools.heap_dump import HeapDump
from tests.support.dump_writer import DumpWriter, word


class DirectBuffersTest(unittest.TestCase):
    """Dumps with buffers."""

    def test_capacities(self) -> None:
        """The capacities of buffers that have memory of their own are added up: not those of views, nor of heap
        buffers."""
        for id_size in (4, 8):
            dump = DumpWriter(id_size)
            dump.of_class(1, "java/nio/Buffer", fields=["intMark", "int_____"])
            dump.of_class(2, "java/nio/DirectByteBuffer", fields=["att", "cleaner"], superclass=1)
            dump.of_class(3, "java/nio/DirectByteBufferR", superclass=2)
            dump.of_class(4, "java/nio/HeapByteBuffer", superclass=1)
            dump.instance(200, 2, 0, 0, word(9), word(5000))
            dump.instance(201, 2, 0, 0, word(9), word(700))
            dump.instance(202, 2, 200, 0, word(9), word(4000))
            dump.instance(203, 3, 201, 0, word(9), word(700))
            dump.instance(204, 4, word(9), word(30))
            self.assertEqual(
                direct_memory(HeapDump(dump.bytes().replace(b"int_____", b"capacity"))), DirectMemory(2, 5700)
            )

    def test_mapped_classes(self) -> None:
        """The file of the JDK's own classes, which the virtual machine maps, is no memory of the program."""
        for attached, wanted in ((200, DirectMemory(1, 700)), (0, DirectMemory(2, 700 + 128_000_000))):
            dump = DumpWriter()
            dump.of_class(1, "java/nio/Buffer", fields=["int_____"])
            dump.of_class(2, "java/nio/DirectByteBuffer", fields=["att"], superclass=1)
            dump.of_class(5, "jdk/internal/jimage/BasicImageReader", fields=["memoryMap"])
            dump.instance(200, 2, 0, word(128_000_000))
            dump.instance(201, 2, 0, word(700))
            dump.instance(202, 2, attached or 201, word(attached and 128_000_000))
            dump.instance(300, 5, 202 if attached else 0)
            self.assertEqual(direct_memory(HeapDump(dump.bytes().replace(b"int_____", b"capacity"))), wanted)

    def test_none(self) -> None:
        """A dump without the class of direct buffers has none."""
        self.assertEqual(direct_memory(HeapDump(DumpWriter().bytes())), DirectMemory())

    def test_words(self) -> None:
        """Growth has a sentence, all else none."""
        few, more = DirectMemory(1, 1000), DirectMemory(3, 2_500_000)
        sentence = "direct buffers have 2,499,000 bytes more outside the heap (2 buffers more): 1,000, then 2,500,000"
        self.assertEqual(more_direct_memory(few, more), sentence)
        self.assertIn("heap: 1,000, then 1,001", more_direct_memory(few, DirectMemory(1, 1001)))
        for after in (few, DirectMemory(2, 999)):
            self.assertEqual(more_direct_memory(few, after), "")

    def test_first_dump(self) -> None:
        """The first dump is looked into only if the buffers of the last one would be worth a line without its own."""
        known = {"first": DirectMemory(1, 1000), "last": DirectMemory(2, 2000)}
        for growth, looked_into, said in ((1000, 2, True), (30_000, 2, False), (50_000, 1, False), (0, 2, True)):
            with mock.patch.object(direct_buffers, "direct_memory", side_effect=known.get) as found:
                words = direct_buffers.more_direct_words("first", "last", growth)  # type: ignore[arg-type]
            self.assertEqual((found.call_count, bool(words)), (looked_into, said), growth)

    def test_worth_saying(self) -> None:
        """A twentieth of the growth of the heap is worth a line, or if that did not grow, of what there was."""
        for was, now, growth, wanted in (
            (1000, 1002, 10_000_000, False),
            (0, 2, 10_000_000, False),
            (0, 500_000, 10_000_000, True),
            (0, 499_999, 10_000_000, False),
            (10**10, 10**10 + 10**8, 50_000_000, True),
            (1000, 1050, 0, True),
            (1000, 1049, -7, False),
            (1000, 1000, 0, False),
            (0, 0, 0, False),
            (0, 2, 0, True),
            (1000, 900, 10, False),
        ):
            found = worth_saying(DirectMemory(1, was), DirectMemory(1, now), growth)
            self.assertEqual(found, wanted, (was, now, growth))


if __name__ == "__main__":
    unittest.main()
