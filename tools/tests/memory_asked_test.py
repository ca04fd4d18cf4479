"""Tests what is said of a thread that ran out of memory while little of the heap is in use."""

import unittest
from typing import List, Optional, Tuple

from heap_tools.heap_dump import HeapDump
from heap_tools.memory_asked import LARGE_ARRAY, LITTLE_IN_USE, asked_words
from heap_tools.thread_stacks import threads_that_ran_out
from tests.support.dump_writer import BYTE, DumpWriter

#: Classes by their identifiers.
CLASSES = {4: "shop/Export", 5: "java/util/Arrays", 6: "java/lang/ClassLoader", 9: "java/lang/OutOfMemoryError"}
RAN_OUT, COPY, DEFINE, RENDER, SERVE = (9, "<init>"), (5, "copyOf"), (6, "defineClass1"), (4, "render"), (4, "serve")
METADATA = "for class metadata, which is outside the heap"


class MemoryAskedTest(unittest.TestCase):
    """asked_words"""

    def said(self, *stack: Tuple[int, str], size: int = 0, frame: int = 1, capacity: Optional[int] = 1000) -> str:
        """Returns what is said of a thread with a stack if 200 bytes are reachable. A local variable of a frame is an
        array of `size` bytes."""
        dump = DumpWriter()
        dump.of_class(1, "java/lang/Thread", fields=["name"])
        for number, name in CLASSES.items():
            dump.of_class(number, name)
        dump.of_class(7, "[Ljava/lang/Object;")
        frames: List[Tuple[int, str]] = [RAN_OUT, *stack]
        dump.thread(1, 100, frames)
        dump.instance(100, 1, 0)
        dump.values(101, BYTE, bytes(size))
        dump.array(102, 7, 0)
        dump.local(1, frame, 100, 101, 102)
        read = HeapDump(dump.bytes())
        (place,) = threads_that_ran_out(read)
        return asked_words(read, place, 200, capacity)

    def test_words(self) -> None:
        """The innermost method is said, and the array that it may copy; or that it makes a class."""
        only = "only 20% of the heap is in use:"
        array, copy = (
            "asked for one array that is too large",
            f"{only} java/util/Arrays.copyOf asked for one array that",
        )
        large = f"{copy} is too large; a local variable there is byte[] with 150 elements (150 bytes)"
        cases: List[Tuple[List[Tuple[int, str]], int, int, str]] = [
            ([COPY, RENDER, SERVE], 150, 1, large),
            ([COPY, RENDER, SERVE], 150, 2, large),
            ([COPY, RENDER, SERVE], 150, 3, f"{copy} is too large"),
            ([COPY, RENDER, SERVE], 200 * LARGE_ARRAY // 100 - 1, 1, f"{copy} is too large"),
            ([RENDER, SERVE], 0, 1, f"{only} shop/Export.render {array}, or {METADATA}"),
            ([DEFINE, RENDER], 150, 1, f"{only} java/lang/ClassLoader.defineClass1 asked {METADATA}"),
            ([], 0, 1, ""),
        ]
        for stack, size, frame, words in cases:
            self.assertEqual(self.said(*stack, size=size, frame=frame), words)

    def test_full(self) -> None:
        """Nothing is said if more of the heap is in use, or if it is not known how much it may have."""
        least = 200 * 100 // LITTLE_IN_USE
        for capacity, is_said in ((least, True), (least - 1, False), (None, False)):
            self.assertEqual(bool(self.said(RENDER, capacity=capacity)), is_said)


if __name__ == "__main__":
    unittest.main()
