"""Tests the tools where they are not in the repository: installed by pip, copied, and run by the oldest Python here."""

import glob
import importlib.util
import os
import pathlib
import re
import shutil
import subprocess
import sys
import unittest
from typing import List, Optional, Tuple

from heap_tools import VERSION
from heap_tools.__main__ import COMMANDS, commands_text
from tests.support.services import cache
from tests.support.tool_test import HEAPMARK, RETAINED, TOOLS, ToolTest

NAMES = ("leaks", "grown", "holders", "held", "sizes")
#: The version of Python that the tools need, and the version of setuptools that reads pyproject.toml.
NEEDED, SETUPTOOLS = (3, 7), 61
#: Runs the package by itself.
RUN = "runpy.run_module('heap_tools', run_name='__main__')"


def ran(*words: str, status: int = 0) -> str:
    """Runs a program outside of the repository's environment, and returns what it printed."""
    kept = {key: value for key, value in os.environ.items() if not key.startswith(("PYTHON", "PIP_"))}
    environment = {**kept, "HEAPMARK": HEAPMARK, "RETAINED": RETAINED, "PIP_DISABLE_PIP_VERSION_CHECK": "1"}
    ended = subprocess.run(
        words,
        env=environment,
        stdin=subprocess.DEVNULL,
        stdout=subprocess.PIPE,
        stderr=subprocess.PIPE,
        timeout=200,
        check=False,
        universal_newlines=True,
    )
    if ended.returncode != status:
        raise AssertionError(f"{words}: status {ended.returncode}: {ended.stdout[-2000:]}{ended.stderr[-2000:]}")
    return ended.stdout


def version_of(python: str) -> Optional[Tuple[int, ...]]:
    """Returns the version of a Python, or None if it does not run."""
    try:
        return tuple(map(int, ran(python, "-c", "import sys; print(*sys.version_info[:2])").split()))
    except (OSError, AssertionError, ValueError):
        return None


def pythons() -> List[str]:
    """Returns the paths of the Pythons that the tools may run with, the oldest first."""
    found = [sys.executable, "/usr/bin/python3"]
    for folder in os.environ.get("PATH", "").split(os.pathsep):
        found += glob.glob(f"{folder}/python3.[0-9]*")
    found += glob.glob(os.path.expanduser("~/.pyenv/versions/*/bin/python3"))
    paths = {
        os.path.realpath(path) for path in found if re.search(r"python3(\.\d+)?$", path) and os.access(path, os.X_OK)
    }
    versions = [(version_of(path), path) for path in sorted(paths)]
    return [path for version, path in sorted((it for it in versions if it[0] and it[0] >= NEEDED))]


class InstallTest(ToolTest):
    """The tools outside of the repository."""

    tool = "leaks"

    def setUp(self) -> None:
        super().setUp()
        cache(20).write("monday")
        cache(80, minutes=12).write("friday")
        self.answer = self.ran("monday", "friday").out
        self.assertIn("shop/Service.CACHE", self.answer)

    def require_setuptools(self) -> None:
        """Skips a test if there is no setuptools that reads pyproject.toml."""
        found = importlib.util.find_spec("setuptools")
        version = ran(sys.executable, "-c", "import setuptools; print(setuptools.__version__)") if found else "0"
        if int(version.split(".")[0]) < SETUPTOOLS:
            self.skipTest(f"setuptools {SETUPTOOLS} is not here")

    def test_pip(self) -> None:
        """pip installs four commands into a fresh environment, and they run."""
        self.require_setuptools()
        ran(sys.executable, "-m", "venv", "--system-site-packages", "fresh")
        ran("fresh/bin/python3", "-m", "pip", "install", "--no-build-isolation", "--no-index", str(TOOLS))
        for name in NAMES:
            self.assertEqual(ran(f"fresh/bin/{name}", "--version"), f"{name} {VERSION}\n")
        self.assertEqual(ran("fresh/bin/leaks", "monday", "friday"), self.answer)
        ran("fresh/bin/leaks", "--html", "page.html", "monday", "friday")
        self.assertIn("</html>", pathlib.Path("page.html").read_text(encoding="utf-8"))

    def test_pip_of_copy(self) -> None:
        """pip installs a copy of the folder, too: its version is not known, and its commands run."""
        self.require_setuptools()
        shutil.copytree(TOOLS, "copy", ignore=shutil.ignore_patterns("__pycache__", "tests"))
        ran(sys.executable, "-m", "venv", "--system-site-packages", "fresh")
        ran("fresh/bin/python3", "-m", "pip", "install", "--no-build-isolation", "--no-index", "./copy")
        self.assertEqual(ran("fresh/bin/sizes", "--version"), "sizes unknown\n")
        self.assertIn("\nVersion: 0+unknown\n", ran("fresh/bin/python3", "-m", "pip", "show", "heapmark-tools"))
        self.assertEqual(ran("fresh/bin/python3", "-m", "heap_tools"), commands_text().replace(VERSION, "unknown"))

    def test_list(self) -> None:
        """The package, run by itself, lists the commands."""
        self.assertEqual(list(COMMANDS), list(NAMES))
        ended = ran(sys.executable, "-c", f"import sys, runpy; sys.path[:0] = [{str(TOOLS)!r}]; {RUN}")
        self.assertEqual(ended, commands_text())
        for name in NAMES:
            self.assertIn(f"\n  {name} ", ended)

    def test_copy(self) -> None:
        """A copy without the sources of heapmark has no version, but runs."""
        shutil.copytree(TOOLS / "heap_tools", "copy/heap_tools", ignore=shutil.ignore_patterns("__pycache__"))
        for name in NAMES:
            shutil.copy(TOOLS / name, f"copy/{name}")
            self.assertEqual(ran(sys.executable, f"copy/{name}", "--version"), f"{name} unknown\n")
        self.assertEqual(ran(sys.executable, "copy/leaks", "monday", "friday"), self.answer)

    def test_oldest_python(self) -> None:
        """The oldest Python of this machine that may run the tools runs them."""
        oldest = pythons()[0]
        print(f"the oldest Python here: {'.'.join(map(str, version_of(oldest) or ()))}")
        for name in NAMES:
            self.assertIn("Usage: ", ran(oldest, str(TOOLS / name), "--help"))
        self.assertEqual(ran(oldest, str(TOOLS / "leaks"), "--html", "page.html", "monday", "friday"), self.answer)
        self.assertIn("shop/Order", ran(oldest, str(TOOLS / "grown"), "monday", "friday"))
        self.assertIn("shop/Order", ran(oldest, str(TOOLS / "held"), "friday", "shop/Service.CACHE"))
        self.assertIn("CACHE", ran(oldest, str(TOOLS / "holders"), "friday", "shop/Order"))
        self.assertIn("shop/Order", ran(oldest, str(TOOLS / "sizes"), "friday"))


if __name__ == "__main__":
    unittest.main()
