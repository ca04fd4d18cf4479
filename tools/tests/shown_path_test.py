"""Tests how paths are shown."""

import os
import unittest
from typing import List
from unittest import mock

from heap_tools.candidates import FIELD, STATIC, Candidate
from heap_tools.probe import Retained
from heap_tools.reports import Amount
from heap_tools.shown_path import line_with_path, path_lines

FIGURES = "1234  100%"


def path_of(text: str) -> List[Retained]:
    """Returns a path of fields with `>` between, a static one with a word before it."""
    steps = [each.rpartition("static ") for each in text.split(" > ")]
    every = [Candidate(STATIC if kind else FIELD, name, 1) for _, kind, name in steps]
    return [Retained([each], Amount(), Amount(), {}) for each in every]


class ShownPathTest(unittest.TestCase):
    """How paths are shown"""

    LONG = "static shop/Main.server > java/util/HashMap.table > java/util/HashMap$Node.value > shop/Server.log"
    SHORT = "static shop/Main.server > .. > shop/Server.log"

    def shown(self, text: str, width: int) -> str:
        """Returns a line on a terminal of this width."""
        with mock.patch("heap_tools.shown_path.is_terminal", return_value=True):
            with mock.patch("shutil.get_terminal_size", return_value=os.terminal_size((width, 24))):
                return line_with_path(FIGURES, path_of(text))

    def test_width(self) -> None:
        """Beside the figures if there is room, else below them; in a file or a pipe always in one line."""
        whole = f"{FIGURES}  {self.LONG}"
        self.assertEqual(line_with_path(FIGURES, path_of(self.LONG)), whole)
        self.assertEqual(self.shown(self.LONG, len(whole)), whole)
        for width, lines in (
            (len(whole) - 1, [self.LONG]),
            (len(self.LONG) + 4, [self.LONG]),
            (len(self.LONG) + 3, [self.SHORT]),
            (len(self.SHORT) + 4, [self.SHORT]),
            (len(self.SHORT) + 3, ["static shop/Main.server > ..", "> shop/Server.log"]),
            (20, ["static shop/Main.server", "> ..", "> shop/Server.log"]),
        ):
            self.assertEqual(self.shown(self.LONG, width), "\n    ".join([FIGURES, *lines]), width)

    def test_steps(self) -> None:
        """Steps of the JDK are left out between the first and the last only; several side by side are one gap."""
        path = "java/util/A.a > java/util/B.b > shop/C.c > java/util/D.d > java/util/E.e > java/util/F.f"
        self.assertEqual(path_lines(path_of(path), 60), ["    java/util/A.a > .. > shop/C.c > .. > java/util/F.f"])
        self.assertEqual(path_lines(path_of("shop/A.a"), 3), ["    shop/A.a"])


if __name__ == "__main__":
    unittest.main()
