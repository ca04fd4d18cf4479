"""Tests bench/random_pairs.py: the figures of leaks on pairs made at random are right, and changed ones are not."""

from __future__ import annotations

import json
import pathlib
import subprocess
import sys
import tempfile
import unittest
from typing import Any, Dict, List

from tests.support.tool_test import TOP

#: Seeds of pairs, of which each has a line, and the first and the fifth are in bytes of the heap.
FIRST, COUNT = 0, 6


def ran(*words: str) -> List[List[str]]:
    """Returns the rows that the program prints, without the heads."""
    program = [sys.executable, "-B", str(TOP / "bench/random_pairs.py")]
    ended = subprocess.run([*program, *words], stdout=subprocess.PIPE, stderr=subprocess.PIPE, text=True, check=False)
    assert not ended.stderr, ended.stderr
    return [row.split("\t") for row in ended.stdout.splitlines()[1:]]


class RandomPairsTest(unittest.TestCase):
    """bench/random_pairs.py"""

    rows: List[List[str]]

    @classmethod
    def setUpClass(cls) -> None:
        """Runs leaks on some pairs, once."""
        cls.rows = ran(str(FIRST), str(COUNT))

    def judged(self, row: List[str], document: Dict[str, Any]) -> List[str]:
        """Returns what is wrong in another document of a row's pair."""
        script = "import json, sys; from random_marks import Judge; "
        script += "print(*Judge(int(sys.argv[1]), json.load(sys.stdin)).judge(), sep='\\n', end='')"
        words = [sys.executable, "-B", "-c", script, row[0]]
        text = json.dumps(document)
        ended = subprocess.run(words, input=text, stdout=subprocess.PIPE, text=True, check=True, cwd=TOP / "bench")
        return ended.stdout.splitlines()

    def test_right(self) -> None:
        """All figures are right, and nothing is compared without an older leaks."""
        self.assertEqual([row[0] for row in self.rows], [str(seed) for seed in range(FIRST, FIRST + COUNT)])
        self.assertEqual([row[1:4] for row in self.rows], [["-", "-", "right"]] * COUNT)

    def test_changed(self) -> None:
        """Each figure of a line is tested: another one is wrong."""
        for row in self.rows[:3]:
            document = json.loads(row[-2])
            self.assertEqual(self.judged(row, document), [])
            for path in (("before", "bytes"), ("retained", "objects"), ("instances",), ("share_percent",)):
                changed = json.loads(row[-2])
                of = changed["lines"][0]
                for name in path[:-1]:
                    of = of[name]
                of[path[-1]] += 7
                self.assertNotEqual(self.judged(row, changed), [], path)

    def test_older(self) -> None:
        """A table of an earlier run stands for an older leaks: with itself, nothing differs."""
        with tempfile.TemporaryDirectory() as room:
            table = pathlib.Path(room, "pairs.tsv")
            table.write_text("".join(f"{row[0]}\t{row[-2]}\n" for row in self.rows), encoding="utf-8")
            self.assertEqual(
                [row[1:4] for row in ran(str(FIRST), "2", "--old", str(table))], [["same", "same", "right"]] * 2
            )


if __name__ == "__main__":
    unittest.main()
