"""Tests work that goes on in processes of its own."""

import os
import pathlib
import signal
import tempfile
import time
import unittest
from typing import List
from unittest import mock

from heap_tools.faults import Fault
from heap_tools.heap_dump import UnknownTag
from heap_tools.parallel import shared
from tests.support.waiting import time_limit, wait_until


def squares(numbers: List[int]) -> List[int]:
    """Returns the squares of numbers."""
    return [each * each for each in numbers]


class SharedTest(unittest.TestCase):
    """shared"""

    def setUp(self) -> None:
        folder = tempfile.TemporaryDirectory()
        self.addCleanup(folder.cleanup)
        self.folder = pathlib.Path(folder.name)
        self.use(3)

    def use(self, count: int) -> None:
        """Lets this process use so many processors."""
        patch = mock.patch("heap_tools.parallel.processors", return_value=count)
        patch.start()
        self.addCleanup(patch.stop)

    def noted(self, numbers: List[int]) -> int:
        """Writes a file that is called like the number of this process, and returns that number."""
        (self.folder / str(os.getpid())).touch()
        return os.getpid()

    def begun(self, count: int) -> List[int]:
        """Returns the numbers of the processes that have begun, when there are so many."""
        wait_until(lambda: len(os.listdir(self.folder)) >= count, f"one of {count} processes")
        return sorted(map(int, os.listdir(self.folder)))

    def test_results(self) -> None:
        """The results are in the order of the items, of which each part has as many as must be."""
        numbers = list(range(10))
        for least, parts in (1, [3, 3, 4]), (5, [5, 5]), (6, [10]):
            found = shared(squares, numbers, least)
            self.assertEqual([len(each) for each in found], parts)
            self.assertEqual([each for part in found for each in part], squares(numbers))

    def test_at_once(self) -> None:
        """All parts are done at once, each in a process of its own; a single one is done in this process."""

        def meeting(numbers: List[int]) -> int:
            self.noted(numbers)
            self.begun(3)
            return os.getpid()

        found = shared(meeting, [1, 2, 3], 1)
        self.assertEqual(sorted(found), self.begun(3))
        self.assertNotIn(os.getpid(), found)
        self.assertEqual(shared(self.noted, [1, 2, 3], 2), [os.getpid()])

    def test_end(self) -> None:
        """Processes end with the work, also if it is interrupted, and if one of them fails."""

        def sleeping(numbers: List[int]) -> None:
            self.noted(numbers)
            time.sleep(60)

        def interrupted(_: object) -> None:
            self.begun(3)
            raise KeyboardInterrupt

        with mock.patch("heap_tools.parallel._next_result", interrupted), time_limit(20):
            self.assertRaises(KeyboardInterrupt, shared, sleeping, [1, 2, 3], 1)
        self.assertEqual([each for each in self.begun(3) if os.path.exists(f"/proc/{each}")], [])
        with self.assertRaisesRegex(Fault, "ended early"), time_limit(20):
            shared(lambda numbers: os._exit(1) if 1 in numbers else sleeping(numbers), [1, 2, 3], 1)
        self.assertEqual([each for each in self.begun(3) if os.path.exists(f"/proc/{each}")], [])

    def test_faults(self) -> None:
        """What the first process that fails raised is raised: a fault of its own, that it is out of memory, or that it
        ended early, also if it has written a part of its result."""

        def fails(how: List[str]) -> bytes:
            if how == ["fault"]:
                raise UnknownTag("dump", 0x77, 99)
            if how == ["memory"]:
                raise MemoryError
            if how == ["early"]:
                os.kill(os.getpid(), signal.SIGKILL)
            return bytes(1 << 20)

        for how, kind, said in (
            ("fault", Fault, "^dump: the sub-record at 99 has the tag 0x77, which these tools do not know$"),
            ("memory", MemoryError, ""),
            ("early", Fault, "^a process that reads the dump ended early$"),
        ):
            with self.assertRaisesRegex(kind, said):
                shared(fails, ["none", how, "none"], 1)
        self.assertEqual(os.listdir("/proc/self/task"), [str(os.getpid())])

    def test_partly_written(self) -> None:
        """A process that ends while it writes its result has none."""
        with mock.patch(
            "heap_tools.parallel.pickle.dump", side_effect=lambda _, stream: stream.write(b"\x80") and 1 / 0
        ):
            with self.assertRaisesRegex(Fault, "ended early"):
                shared(squares, [1, 2, 3], 1)

    def test_no_more_processes(self) -> None:
        """If the system starts no more, all is done in this process, and none is left."""
        begun: List[int] = []
        fork = os.fork

        def forks() -> int:
            if begun:
                raise BlockingIOError(11, "Resource temporarily unavailable")
            begun.append(fork())
            return begun[0]

        with mock.patch("os.fork", forks):
            self.assertEqual(shared(squares, [1, 2, 3], 1), [[1, 4, 9]])
        self.assertFalse(os.path.exists(f"/proc/{begun[0]}"))


if __name__ == "__main__":
    unittest.main()
