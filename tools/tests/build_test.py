"""Tests of tools/build, on a repository of six crates and a stand-in for rt."""

from __future__ import annotations

import os
import pathlib
import shutil
import signal
import subprocess
import sys
import tempfile
import unittest

from tests.support.waiting import wait_until

TOP = pathlib.Path(__file__).resolve().parents[2]
#: The crates, in no order: `low` below `left` and `right`, `heapmark` on top of both and `retained` on top of `right`;
#: `apart` is of no use to either.
CRATES = """heapmark: left right
retained: right
apart: low
left: low  # a comment: with a colon
right tests_may=Threads: low clap
low:
"""
#: Notes when it begins and ends in the file `log`, and fails for the crate `bad` names.
RT = """#!/bin/sh
name=$(basename "$PWD")
echo "begin $name WORD$*" >> ../../log
[ -f out/incremental ] && echo "keeps nothing $name" >> ../../log
sleep "$(cat ../../seconds)"
[ "$name" = "$(cat ../../bad)" ] && { echo "the proof fails"; exit 1; }
echo "end $name" >> ../../log
case $name in heapmark | retained) echo "a report of $name" ;; esac
"""


class BuildTest(unittest.TestCase):
    def setUp(self) -> None:
        self.room = tempfile.TemporaryDirectory()
        self.top = pathlib.Path(self.room.name)
        for name in ("heapmark", "retained", "apart", "left", "right", "low"):
            (self.top / "crates" / name / "src").mkdir(parents=True)
        for folder in ("tools", "dev", "docs", "bin"):
            (self.top / folder).mkdir()
        for name in ("tools/build", "dev/crate_list.py", "dev/gate_table.py"):
            shutil.copy(TOP / name, self.top / name)
        (self.top / "docs/GATE.md").write_text("    left 40 - 50\n    right 4 - 5\n    low 9 - 9\n")
        (self.top / "crates.txt").write_text(CRATES)
        for command, word in (("bin/rt", ""), ("dev/lib_of_statements", "statements ")):
            (self.top / command).write_text(RT.replace("WORD", word))
            (self.top / command).chmod(0o755)
        self.set(seconds="0", bad="none")

    def tearDown(self) -> None:
        self.room.cleanup()

    def set(self, **texts: str) -> None:
        for name, text in texts.items():
            (self.top / name).write_text(text)

    def start(self, *words: str, path: str | None = None) -> subprocess.Popen[str]:
        return subprocess.Popen(
            [str(self.top / "tools/build"), *words],
            stdout=subprocess.PIPE,
            stderr=subprocess.PIPE,
            universal_newlines=True,
            env={**os.environ, "PATH": path or f"{self.top}/bin:{os.environ['PATH']}"},
            # A background job of a script ignores interrupts, and what it starts would, too.
            preexec_fn=lambda: signal.signal(signal.SIGINT, signal.SIG_DFL),
        )

    def ended(self, *words: str, path: str | None = None) -> tuple[int, str, str]:
        build = self.start(*words, path=path)
        out, err = build.communicate(timeout=30)
        return build.returncode, out, err

    def log(self) -> list[str]:
        return (self.top / "log").read_text().splitlines()

    def test_crates_after_those_below(self) -> None:
        status, out, _ = self.ended("--crates", "2", "--jobs", "4")
        self.assertEqual(status, 0)
        self.assertIn("a report of heapmark\n", out)
        self.assertIn("a report of retained\n", out)
        log = self.log()
        self.assertFalse([it for it in log if "apart" in it])
        at = {line.split()[1]: number for number, line in enumerate(log) if line.startswith("begin")}
        ends = {line.split()[1]: number for number, line in enumerate(log) if line.startswith("end")}
        for name, used in (("left", "low"), ("right", "low"), ("heapmark", "left"), ("retained", "right")):
            self.assertLess(ends[used], at[name], log)

    def test_crates_at_a_time(self) -> None:
        self.set(seconds="0.3")
        self.ended("--crates", "1", "--jobs", "4")
        steps = [line.split()[0] for line in self.log() if line.startswith(("begin", "end"))]
        self.assertEqual(steps, 5 * ["begin", "end"])

    def test_the_longest_chain_gets_the_most_processes(self) -> None:
        self.ended("--crates", "2", "--jobs", "4")
        self.assertIn("begin low statements --jobs 4", self.log())
        self.assertIn("begin left statements --jobs 4", self.log())
        self.assertIn("begin right statements --jobs 1", self.log())
        self.assertIn("begin heapmark run --jobs 3 -- data/two_objects.hprof", self.log())
        self.assertIn("begin retained run --jobs 2 -- data/two_objects.hprof data/one_label", self.log())

    def test_urgent_crates_share_the_processes(self) -> None:
        (self.top / "docs/GATE.md").write_text("    left 40 - 50\n    right 30 - 50\n    low 9 - 9\n")
        self.ended("--crates", "2", "--jobs", "4")
        self.assertIn("begin low statements --jobs 4", self.log())
        self.assertIn("begin left statements --jobs 3", self.log())
        self.assertIn("begin right statements --jobs 2", self.log())

    def test_only_work_that_was_kept_before_is_kept(self) -> None:
        (self.top / "crates/left/out/incremental").mkdir(parents=True)
        self.ended("--crates", "2", "--jobs", "4")
        log = self.log()
        self.assertIn("begin left lib --jobs 4", log)
        self.assertIn("begin right statements --jobs 1", log)
        kept_nothing = sorted(it for it in log if it.startswith("keeps nothing"))
        self.assertEqual(kept_nothing, ["keeps nothing heapmark", "keeps nothing retained"])
        self.assertEqual([it.parent.parent.name for it in self.top.glob("crates/*/out/incremental")], ["left"])

    def test_a_crate_that_is_not_proved(self) -> None:
        self.set(bad="left")
        status, out, _ = self.ended()
        self.assertEqual(status, 1)
        self.assertIn("NOT PROVED left: see crates/left/out/build.log", out)
        self.assertEqual((self.top / "crates/left/out/build.log").read_text(), "the proof fails\n")
        self.assertFalse([it for it in self.log() if it.startswith("begin heapmark")])

    def test_a_signal_ends_what_runs(self) -> None:
        self.set(seconds="30")
        for number in (signal.SIGINT, signal.SIGTERM, signal.SIGHUP):
            build = self.start()
            wait_until((self.top / "log").exists, "the log")
            build.send_signal(number)
            build.communicate(timeout=10)
            self.assertEqual(build.returncode, 128 + number)
            self.assertEqual(list(self.top.glob("crates/*/out/incremental")), [])
            (self.top / "log").unlink()

    def test_wrong_words_and_no_rt(self) -> None:
        self.assertEqual(self.ended("--jobs", "0")[0], 2)
        self.assertEqual(self.ended("--job")[0], 2)
        python = os.path.dirname(sys.executable)
        status, _, err = self.ended(path=f"{python}:/usr/bin:/bin")
        self.assertEqual((status, err), (1, "tools/build: rt is not on the PATH: add the toolchain's folder bin\n"))
        self.assertEqual(list(self.top.glob("crates/*/out/incremental")), [])
