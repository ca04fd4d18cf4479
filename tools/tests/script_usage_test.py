"""Tests that each script of the repository prints its usage at --help, refuses wrong words, and does nothing else."""

from __future__ import annotations

import os
import pathlib
import re
import shutil
import signal
import subprocess
import tempfile
import unittest
from concurrent.futures import ThreadPoolExecutor
from typing import NamedTuple

TOP = pathlib.Path(__file__).resolve().parents[2]
#: The folders with scripts.
FOLDERS = ("tools", "dev", "bench")
#: Seconds in which a script has to end.
LIMIT = 30
#: Programs that no script may start for its help: the gate, compilers, what is measured, and what installs.
FORBIDDEN = ("rt", "cc", "rustc", "java", "javac", "jcmd", "apt-get", "heapmark")
#: The beginning of a path in /tmp, such as those of dev/gate_costs and bench/dumps.sh.
IN_TMP = r"(?<![\w}])/tmp/(?=[\w])"
#: A stand-in for these. Its own name goes into a file.
STAND_IN = """#!/bin/sh
basename "$0" >> "$(dirname "$0")/../started"
exit 1
"""


def is_script(path: pathlib.Path) -> bool:
    """Tests whether a file is to be run: its first line names a program."""
    with open(path, "rb") as file:
        return file.read(2) == b"#!"


def scripts(top: pathlib.Path) -> list[pathlib.Path]:
    """Returns the scripts of the repository at `top`."""
    found = (path for folder in FOLDERS for path in (top / folder).rglob("*"))
    return sorted(path for path in found if path.is_file() and is_script(path))


def tree(top: pathlib.Path) -> dict[pathlib.Path, tuple[int, int]]:
    """Returns the files and folders below `top`, each with its size and the time of its last change."""
    return {path: (path.lstat().st_size, path.lstat().st_mtime_ns) for path in top.rglob("*")}


def takes_words(usage: str) -> bool:
    """Tests whether a script takes words besides options. `usage` is the line of its help."""
    return bool(re.search(r"\S+ +\S", re.sub(r"\[-[^]]*\]", "", usage)))


def usage_of(text: str) -> str:
    """Returns the line of a help that names the script and its words, or an empty text."""
    found = re.search(r"^usage: (.*)", text, re.I | re.M)
    return found[1] if found else ""


class Ended(NamedTuple):
    """How a script ended, and what it printed. The status is None if it had not ended in time."""

    status: int | None
    out: str
    err: str


class ScriptsTest(unittest.TestCase):
    """The scripts of a copy of the repository, each run in an empty folder."""

    def setUp(self) -> None:
        room = tempfile.TemporaryDirectory()
        self.addCleanup(room.cleanup)
        self.room = pathlib.Path(room.name)
        self.copy = self.room / "copy"
        shutil.copytree(TOP, self.copy, symlinks=True, ignore=shutil.ignore_patterns(".git", "out", "__pycache__"))
        for name in ("empty", "bin", "home", "tmp"):
            (self.room / name).mkdir()
        self.move_folders_of_scripts()
        for name in FORBIDDEN:
            (self.room / "bin" / name).write_text(STAND_IN)
            (self.room / "bin" / name).chmod(0o755)
        kept = {key: value for key, value in os.environ.items() if key not in ("HEAPMARK", "JAVA_HOME", "PLAIN")}
        places = {"HOME": f"{self.room}/home", "TMPDIR": f"{self.room}/tmp"}
        path = f"{self.room}/bin:{os.environ['PATH']}"
        self.environment = {**kept, **places, "PATH": path, "PYTHONDONTWRITEBYTECODE": "1"}

    def move_folders_of_scripts(self) -> None:
        """Puts into the room what scripts would make in /tmp by a name of their own, so that it is seen."""
        for path in (it for folder in FOLDERS for it in (self.copy / folder).rglob("*")):
            if path.is_file() and path.suffix in ("", ".py", ".sh"):
                text = path.read_text(encoding="utf-8")
                if re.search(IN_TMP, text):
                    path.write_text(re.sub(IN_TMP, f"{self.room}/tmp/", text), encoding="utf-8")

    def run_script(self, script: pathlib.Path, word: str) -> Ended:
        """Runs a script with a word."""
        process = subprocess.Popen(
            [str(script), word],
            cwd=self.room / "empty",
            env=self.environment,
            stdin=subprocess.DEVNULL,
            stdout=subprocess.PIPE,
            stderr=subprocess.PIPE,
            universal_newlines=True,
            start_new_session=True,
        )
        try:
            out, err = process.communicate(timeout=LIMIT)
            return Ended(process.returncode, out, err)
        except subprocess.TimeoutExpired:
            os.killpg(process.pid, signal.SIGKILL)
            return Ended(None, *process.communicate())

    def tried(self, script: pathlib.Path) -> dict[str, Ended]:
        """Runs a script with each word that is right or wrong for all, and with a wrong one if it takes no words."""
        ends = {word: self.run_script(script, word) for word in ("--help", "-h", "--no-such-option")}
        if not takes_words(usage_of(ends["--help"].out)):
            ends["nonsense"] = self.run_script(script, "nonsense")
        return ends

    def test_help_and_wrong_words(self) -> None:
        """Each script prints its usage with status 0, and refuses a wrong option or word with status 2. None changes a
        file or starts another program."""
        found, before = scripts(self.copy), tree(self.room)
        self.assertGreater(len(found), 30)
        with ThreadPoolExecutor(os.cpu_count()) as pool:
            ends = list(pool.map(self.tried, found))
        for script, by_word in zip(found, ends):
            with self.subTest(str(script.relative_to(self.copy))):
                shown = by_word.pop("--help")
                self.assertEqual((shown.status, shown.err), (0, ""))
                self.assertIn(script.name, usage_of(shown.out))
                self.assertEqual(by_word.pop("-h"), shown)
                for word, ended in by_word.items():
                    self.assertEqual((word, ended.status, ended.out), (word, 2, ""))
                    self.assertNotEqual(ended.err, "", word)
        after = tree(self.room)
        self.assertEqual({it: after.get(it) for it in after.keys() | before if after.get(it) != before.get(it)}, {})

    def test_each_command_is_found(self) -> None:
        """What runs something when it is started can be run, and has a first line by which it is found. unittest runs
        the tests, pip setup.py, and python -m a package."""
        for path in (it for folder in FOLDERS for it in (self.copy / folder).rglob("*")):
            is_run_by_others = path.name.endswith("_test.py") or path.name in ("setup.py", "__main__.py")
            if path.is_file() and path.suffix in ("", ".py", ".sh") and not is_run_by_others:
                text = path.read_text(encoding="utf-8")
                runs = is_script(path) or 'if __name__ == "__main__"' in text
                self.assertEqual((os.access(path, os.X_OK), is_script(path)), (runs, runs), str(path))
