"""Tests how the tools find and run heapmark, with stand-ins for it."""

import contextlib
import errno
import os
import pathlib
import signal
import sys
import unittest
from unittest import mock

from heap_tools.faults import NO_HEAPMARK, UNREADABLE, Fault
from heap_tools.heapmark import Heapmark
from tests.support.tool_test import ToolTest, report
from tests.support.waiting import time_limit


class HeapmarkTest(ToolTest):
    """Runs of a stand-in."""

    def heapmark(self, text: str) -> Heapmark:
        """Returns a heapmark that is a shell script."""
        with mock.patch.dict(os.environ, HEAPMARK=self.program(text)):
            return Heapmark()

    def test_report(self) -> None:
        """A report is read, and its run is counted; the environment asks for huge pages."""
        heapmark = self.heapmark(f"cat << 'END'\n{report((1, 8, 'A'))}END")
        pathlib.Path("dump").touch()
        self.assertEqual(heapmark.first_report("dump").amount("A"), (1, 8))
        self.assertEqual(heapmark.runs, 1)
        self.assertIn("glibc.malloc.hugetlb=1", pathlib.Path("runs").read_text())

    def test_several(self) -> None:
        """Reports of several dumps are made at the same time, and are in their order; so are messages, and of several
        faults the first one is raised."""
        for name in ("one", "two"):
            pathlib.Path(name).touch()
        row = report((1, 8, "A")).replace("A", "$2")
        both = f"touch began-$2\nuntil [ -e began-one ] && [ -e began-two ]; do sleep 0.1; done\ncat << END\n{row}END"
        heapmark = self.heapmark(f"[ $2 = two ] || sleep 0.3\n{both}")
        with time_limit(60):
            found = heapmark.first_reports(["one", "two"])
        self.assertEqual([each.rows[0].name for each in found], ["one", "two"])
        self.assertEqual(heapmark.runs, 2)
        heapmark = self.heapmark('[ $2 = two ] || sleep 0.3; echo "refused 1 BadHeader at $2" >&2; exit 1')
        self.assertRaisesRegex(Fault, "^one: .*at one", heapmark.first_reports, ["one", "two"])

    def test_faults(self) -> None:
        """A refusal is the file's fault, all else heapmark's."""
        pathlib.Path("dump").touch()
        for text, status in (
            ("echo 'heapmark: refused 1 BadHeader at 0' >&2; exit 1", UNREADABLE),
            ("exit 0", NO_HEAPMARK),
            ("exit 1", NO_HEAPMARK),
            ("kill -9 $$", NO_HEAPMARK),
        ):
            with self.assertRaises(Fault) as raised:
                self.heapmark(text).first_report("dump")
            self.assertEqual(raised.exception.status, status, text)
        with mock.patch.dict(os.environ, HEAPMARK="/no/where"), self.assertRaises(Fault) as raised:
            Heapmark().first_report("dump")
        self.assertEqual(raised.exception.status, NO_HEAPMARK)

    def test_other_programs(self) -> None:
        """A program that is not heapmark, and prints without end, is ended; so is one whose messages have no end. What
        is missing, or fails at once, is named."""
        pathlib.Path("dump").touch()
        endless = "while echo 12345678; do :; done"
        for text, ended in (
            ("exec yes", "no report: is it heapmark?"),
            ("exec cat /dev/zero", "no report: is it heapmark?"),
            ("exec yes >&2", "no report: is it heapmark?"),
            (f"echo '1 8  A'; {endless} >&2", "no report: is it heapmark?"),
            ("exit 1", "status 1: is it heapmark?"),
        ):
            heapmark = self.heapmark(text)
            with self.assertRaises(Fault) as raised, time_limit(60):
                heapmark.first_report("dump")
            self.assertEqual(str(raised.exception), f"{heapmark.program}: run 1 on dump failed: {ended}")
            self.assertEqual(raised.exception.status, NO_HEAPMARK)
        with time_limit(60):
            self.assertEqual(self.heapmark("exec yes").version(), "")
            self.heapmark("exec yes").check_fields("A.b")
        with mock.patch.dict(os.environ, HEAPMARK="", PATH="/nowhere"), mock.patch.object(sys, "argv", ["/no/leaks"]):
            with mock.patch("os.access", return_value=False):
                heapmark = Heapmark()
            why = "^heapmark cannot be run: No such file or directory: build heapmark with tools/build, .* HEAPMARK "
            self.assertRaisesRegex(Fault, why, heapmark.first_report, "dump")

    def test_no_files(self) -> None:
        """If the system opens no more files, that is said, not that the program is missing."""
        pathlib.Path("dump").touch()
        heapmark = self.heapmark("exit 0")
        full = OSError(errno.EMFILE, os.strerror(errno.EMFILE))
        said = "other cannot be run: Too many open files: see ulimit -n$"
        for lacking in (["os.openpty", "os.pipe"], ["subprocess.Popen"]):
            with contextlib.ExitStack() as stack, self.assertRaisesRegex(Fault, said):
                for name in lacking:
                    stack.enter_context(mock.patch(name, side_effect=full))
                heapmark.first_report("dump")

    def test_long_report(self) -> None:
        """A report is read whole, whatever its length, and so is a first row with a long name."""
        rows = [(1, 8, "a" * 200_000), *((1, 8, f"A{number}") for number in range(20_000))]
        pathlib.Path("report").write_text(report(*rows))
        pathlib.Path("dump").write_bytes(bytes(43 * 20_001))
        self.assertEqual(len(self.heapmark("cat report").first_report("dump").rows), 20_001)

    def test_signals(self) -> None:
        """heapmark heeds the signals that end a tool, and none that ends it for the size of a file."""
        heapmark = self.heapmark("sed -n 's/^SigIgn:\\t/heapmark /p' /proc/self/status")
        ignored = int(heapmark.version(), 16)
        self.assertTrue(ignored >> (signal.SIGXFSZ - 1) & 1)


if __name__ == "__main__":
    unittest.main()
