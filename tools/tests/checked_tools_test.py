"""Tests of the parts of tools/check that read sources: which files, and that they see a fault."""

from __future__ import annotations

import pathlib
import shutil
import sys
import tempfile
import unittest
from unittest import mock

TOP = pathlib.Path(__file__).resolve().parents[2]
sys.path[:0] = [str(TOP / "dev"), str(TOP / "tools")]
import checked_run
import checked_tools


class CheckedToolsTest(unittest.TestCase):
    """dev/checked_tools.py, on a small repository"""

    def setUp(self) -> None:
        room = tempfile.TemporaryDirectory()
        self.addCleanup(room.cleanup)
        self.top = pathlib.Path(room.name)
        self.write("tools/heap_tools/__init__.py", "")
        self.write("tools/pyproject.toml", (TOP / "tools/pyproject.toml").read_text(encoding="utf-8"))

    def write(self, name: str, text: str) -> None:
        """Writes a file of the repository."""
        path = self.top / name
        path.parent.mkdir(parents=True, exist_ok=True)
        path.write_text(text, encoding="utf-8")

    def reads_it(self) -> None:
        """Has the parts read the small repository in place of this one."""
        for module in (checked_run, checked_tools):
            patch = mock.patch.object(module, "TOP", self.top)
            patch.start()
            self.addCleanup(patch.stop)

    def test_files(self) -> None:
        """All Python and all shell scripts are found, also those without an ending, and those that are sourced."""
        python = checked_tools.files_in(checked_tools.PYTHON, ".py")
        shell = checked_tools.files_in(checked_tools.SHELL, ".sh")
        self.assertFalse(set(python) & set(shell))
        self.assertLess({"tools/check", "dev/names", "dev/gate_table.py", "bench/rough.py", "tools/leaks"}, set(python))
        self.assertLess({".ci/run", "bench/usage.sh", "bench/run.sh", "dev/starve", "tools/check_test"}, set(shell))

    def test_faults(self) -> None:
        """A function without types, another form than black's, and a mistake of a shell script are wrong, as long as
        the programs are here."""
        self.reads_it()
        self.write("bench/clean.sh", '#!/bin/sh\necho "$1"\n')
        self.write("dev/words", "#!/usr/bin/env python3\nimport clean\n\nclean.same(1)\n")
        self.write("dev/clean.py", "def same(number: int) -> int:\n    return number\n")
        for part, name, fault, said in (
            (checked_tools.types, "mypy", "#!/usr/bin/env python3\ndef same(number):\n    return number\n", "faulty:2"),
            (checked_tools.form, "black", "#!/usr/bin/env python3\nprint ( 'a' )\n", "status 1"),
            (checked_tools.shell, "shellcheck", "#!/bin/sh\nrm $1\n", "faulty:2"),
        ):
            with self.subTest(name):
                if not shutil.which(name):
                    self.assertRaises(checked_run.LeftOut, part, "", str(self.top))
                    continue
                part("", str(self.top))
                self.write("tools/faulty", fault)
                with self.assertRaises(checked_run.Wrong) as wrong:
                    part("", str(self.top))
                self.assertIn(said, str(wrong.exception))
                (self.top / "tools/faulty").unlink()

    def test_other_black(self) -> None:
        """Another year's black has another form, so it is not asked."""
        with mock.patch.object(checked_tools, "BLACK", 1):
            self.assertRaises(checked_run.LeftOut, checked_tools.form, "", str(self.top))

    def test_old_python(self) -> None:
        """What the oldest Python does not have is wrong in what is installed."""
        self.reads_it()
        self.write("tools/heap_tools/__init__.py", '"a".removeprefix("b")\n')
        if not shutil.which("mypy"):
            self.skipTest("mypy is not here")
        try:
            said = checked_tools.types("", str(self.top)) or ""
        except checked_run.Wrong as wrong:
            said = str(wrong)
        self.assertRegex(said, 'tools/heap_tools/__init__.py:1: .*"removeprefix"|does not know Python 3.7')
