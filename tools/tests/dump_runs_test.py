"""Tests that what tools say of a dump is of one content: heapmark, retained and the tool read the same."""

import os
import unittest
from typing import Dict
from unittest import mock

from heap_tools.dump_runs import DumpRuns
from heap_tools.dump_side import ask
from heap_tools.faults import Fault
from heap_tools.heapmark import Heapmark
from heap_tools.what_counts import Way, side_of
from tests.support.services import cache
from tests.support.tool_test import ToolTest

CHANGED = "dump: it changed while it was read"


class DumpRunsTest(ToolTest):
    """Stand-ins for heapmark and retained that change the dump"""

    def runs(self, variables: Dict[str, str]) -> DumpRuns:
        """Returns what heapmark, or a stand-in, says of a dump."""
        cache(20).write("dump")
        with mock.patch.dict(os.environ, variables):
            return DumpRuns.of(Heapmark(), "dump", "tool")

    def test_changed(self) -> None:
        """A dump that changes while heapmark or retained reads it is said to have changed, whatever comes of it."""
        rows = "echo '9 9  A'; echo '9 9  (reachable)'; echo '0 0  (unreachable)'; echo '0 0  (unresolved)'"
        for text in (f"echo >> dump; {rows}", "echo >> dump; exit 1", "rm dump; exit 1"):
            with self.assertRaisesRegex(Fault, f"^{CHANGED}$"):
                self.runs({"HEAPMARK": self.program(text)})
        whole = self.program(rows)
        os.rename(whole, "heapmark")
        for text in ("echo >> dump; echo '9 9   9  -  A'", "rm dump; exit 1"):
            variables = {"HEAPMARK": os.path.abspath("heapmark"), "RETAINED": self.program(text)}
            runs = self.runs(variables)
            side = side_of(runs, Way())
            with self.assertRaisesRegex(Fault, f"^{CHANGED}$"):
                ask([(side, [side.candidates.statics()])])

    def test_words(self) -> None:
        """What became of the file later is said."""
        rows = "echo '9 9  A'; echo '9 9  (reachable)'; echo '0 0  (unreachable)'; echo '0 0  (unresolved)'"
        runs = self.runs({"HEAPMARK": self.program(rows)})
        self.assertEqual(runs.changed_words(), [])
        os.remove("dump")
        self.assertEqual(len(runs.changed_words()), 1)


if __name__ == "__main__":
    unittest.main()
