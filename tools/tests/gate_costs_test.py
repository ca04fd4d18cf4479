"""Tests of dev/gate_costs and its modules: the table of docs/GATE.md, the parts of the gate, and a whole run."""

from __future__ import annotations

import os
import pathlib
import shutil
import subprocess
import sys
import tempfile
import unittest

TOP = pathlib.Path(__file__).resolve().parents[2]
sys.path.insert(0, str(TOP / "dev"))
import crate_list
import gate_parts
import gate_table
from gate_parts import Costs, Meter, Part

CRATES = "# a: comment\nlow: byteorder  # a: comment\nhigh tests_may=Threads: low clap\n"
TABLE = """    Crate              First check With tests Budget Edits All edits Budget
    high                       100          -    150
    low                          9         20     30     2        64     80
    all                        109         20    180     2        64     80
"""
#: Uses the processor for so many seconds, and prints a line.
BURN = "import sys, time\nwhile time.process_time() < float(sys.argv[1]): pass\nprint(sys.argv[2])"
#: A stand-in for rt. Its gate checks a crate and its tests, tries an edit, and makes a crate's library.
RT = f"""#!/usr/bin/env python3
import subprocess, sys
BURN = [sys.executable, "-c", {BURN!r}]
SAID = "fn low::heap::pop: no proof: `search` did not prove `returns`"

class Crate:
    name = "low"
    def ci(self, flags, tests):
        subprocess.run([*BURN, "0.7" if tests else "0.6", ""], stdout=subprocess.DEVNULL)

def checked(crate, texts, flags, kept):
    return subprocess.run([*BURN, "0.6", SAID], stdout=subprocess.PIPE, universal_newlines=True)

def must_fail(crate, edit, flags, kept=None):
    return checked(crate, {{}}, flags, kept)

def main(words):
    assert words == ["ci"], words
    crate = Crate()
    crate.ci([], False)
    crate.ci([], True)
    checked(crate, {{}}, [], "kept")
    must_fail(crate, "crates/NAME/must-fail/pops_none.edit", [])
    with subprocess.Popen([*BURN, "1.6", "", "--crate-name", "high"], stdout=subprocess.DEVNULL) as process:
        process.wait(timeout=60)
    return 7
"""
WRITTEN = """    Crate              First check With tests Budget Edits All edits Budget
    low                          1          1      4     1         1      9
    high                         2          -      1
    all                          2          1      5     1         1      9
"""


class TablesTest(unittest.TestCase):
    """The list of crates, and the table of what they cost."""

    def test_crates(self) -> None:
        """A line has a crate, words about it, and what it uses; comments may have colons."""
        uses = crate_list.read(CRATES)
        self.assertEqual(uses, {"low": ["byteorder"], "high": ["low", "clap"]})
        self.assertEqual(crate_list.without_kit(uses), {"low": [], "high": ["low"]})

    def test_table(self) -> None:
        """What is read is written as it was, without edits and with them."""
        rows = gate_table.read(f"Text.\n\n{TABLE}\n    rt ci 1 2 3\n")
        self.assertEqual(rows["high"], gate_table.Row(100, 0, 150))
        self.assertEqual(rows["low"], gate_table.Row(9, 20, 30, 2, 64, 80))
        lines = [gate_table.head(), *(gate_table.line(name, row) for name, row in rows.items())]
        lines.append(gate_table.line(gate_table.ALL, gate_table.sums(rows)))
        self.assertEqual("\n".join([*lines, ""]), TABLE)
        self.assertEqual(gate_table.line("low", gate_table.Row(0.6, 0.4, 2)).split(), ["low", "1", "-", "2"])

    def test_the_page(self) -> None:
        """The page of the repository has a row for each crate, and the sums of the rows."""
        rows = gate_table.read_at(TOP)
        self.assertEqual(sorted(rows), sorted(crate_list.read_at(TOP)))
        page = (TOP / gate_table.PAGE).read_text(encoding="utf-8")
        self.assertIn(f"\n{gate_table.line(gate_table.ALL, gate_table.sums(rows))}\n", page)


class PartsTest(unittest.TestCase):
    """The parts of the gate, and what is added to them."""

    def test_minutes(self) -> None:
        """Proofs go before edits, a crate waits for those below it, an edit for its crate and for the copy."""
        costs = Costs()
        for crate, what, edit, minutes in (
            ("low", gate_parts.CHECK, "", 2),
            ("low", gate_parts.EDITS, "", 4),
            ("low", gate_parts.EDITS, "one", 3),
            ("low", gate_parts.EDITS, "two", 4),
            ("high", gate_parts.CHECK, "", 5),
            ("high", gate_parts.TESTS, "", 1),
        ):
            costs.add(Part(crate, what, edit), 60 * minutes)
        uses: dict[str, list[str]] = {"low": [], "high": ["low"]}
        # `high` is checked from 2 to 7. Beside it: the copy up to 4, the tests of `high`, two up to 9, one from 7 on.
        self.assertEqual(gate_parts.minutes_with(2, uses, costs), 10)
        self.assertEqual(gate_parts.minutes_with(1, uses, costs), 19)
        self.assertEqual(gate_parts.minutes_with(9, uses, costs), 8)  # the copy, then the longest edit
        self.assertEqual(costs.crates(), ["low", "high"])
        self.assertEqual([it.edit for it in costs.edits()], ["two", "one"])

    def test_meter(self) -> None:
        """The time of a process and of its children is added to the part that the thread is at, or that it names."""
        meter, usual = Meter(), subprocess.Popen
        burn = [sys.executable, "-c", BURN, "0.3", "said"]
        with meter.measuring():
            with meter.at(Part("low", gate_parts.CHECK)):
                out = subprocess.run(["sh", "-c", '"$@"; true', "sh", *burn], stdout=subprocess.PIPE).stdout
            subprocess.run([*burn, "--test", "--crate-name", "high"], stdout=subprocess.DEVNULL)
            with subprocess.Popen(["sleep", "60"]) as process:
                with self.assertRaises(subprocess.TimeoutExpired):
                    process.wait(timeout=0.05)
                self.assertIsNone(process.poll())
                process.kill()
                self.assertEqual((process.wait(timeout=60), process.wait()), (-9, -9))
        self.assertIs(subprocess.Popen, usual)
        self.assertEqual(out, b"said\n")
        for part in (Part("low", gate_parts.CHECK), Part("high", gate_parts.TESTS)):
            self.assertGreater(meter.costs.seconds[part], 0.25)
        self.assertEqual({it.what for it in meter.costs.seconds if not it.crate}, {gate_parts.ELSE})


class GateCostsTest(unittest.TestCase):
    """A run in a repository of two crates, with a stand-in for rt."""

    def setUp(self) -> None:
        room = tempfile.TemporaryDirectory()
        self.addCleanup(room.cleanup)
        self.room = pathlib.Path(room.name)
        for folder in ("bin", "docs", "dev"):
            (self.room / folder).mkdir()
        (self.room / "bin/rt").write_text(RT)
        (self.room / "bin/rt").chmod(0o755)
        (self.room / "crates.txt").write_text(CRATES)
        (self.room / "docs/GATE.md").write_text("    low 1 1 4 1 1 9\n    high 1 - 1\n")

    def run_gate(self, *words: str) -> subprocess.CompletedProcess[str]:
        """Runs gate_costs in the repository."""
        return subprocess.run(
            [str(TOP / "dev/gate_costs"), *words],
            cwd=self.room,
            env={**os.environ, "PATH": f"{self.room}/bin:{os.environ['PATH']}"},
            stdin=subprocess.DEVNULL,
            stdout=subprocess.PIPE,
            stderr=subprocess.PIPE,
            universal_newlines=True,
            timeout=120,
            check=False,
        )

    def test_a_run(self) -> None:
        """The files, the status of the gate, an edit whose row says something else, and what is over its budget."""
        (self.room / "dev/edits.tsv").write_text("crate\tedit\tfunction\tgoals\nlow\tpops_none\theap::top\treturns\n")
        ended = self.run_gate("made")
        self.assertEqual((ended.returncode, ended.stderr), (7, ""))
        made = self.room / "made"
        found = "low\tpops_none\theap::pop\treturns"
        self.assertEqual((made / "refusals.tsv").read_text(), f"{found}\n")
        self.assertEqual((made / "seconds.tsv").read_text(), "1\tlow\tpops_none\n")
        self.assertIn("did not prove", (made / "edits/low.pops_none.log").read_text())
        table = (made / "table.md").read_text()
        self.assertEqual(table[: table.index("\n\n") + 1], WRITTEN)
        self.assertRegex(table, r"\nWall time \d+\.\d minutes, \d+ processors, 0 processor minutes\.\nBefore that, `rt")
        self.assertEqual(
            ended.stdout.splitlines(),
            [
                f"gate_costs: dev/edits.tsv does not say: {found}",
                "gate_costs: by these figures 0 minutes with 4 processors, 0 with 2",
                "gate_costs: the checks of high took 2 of 1 processor seconds",
            ],
        )

    def test_wrong_words(self) -> None:
        """A crate that is none, and a folder that is no repository, begin no gate."""
        self.assertEqual(self.run_gate("made", "nowhere").returncode, 2)
        (self.room / "crates.txt").unlink()
        self.assertEqual(self.run_gate("made").returncode, 2)
        self.assertFalse((self.room / "made").exists())
