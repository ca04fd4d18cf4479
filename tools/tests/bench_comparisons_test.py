"""Tests that the comparisons of bench/ fail if a side fails, with small programs in place of heapmark and the plain
marker."""

from __future__ import annotations

import os
import pathlib
import shutil
import subprocess
import tempfile
import unittest

TOP = pathlib.Path(__file__).resolve().parents[2]
#: A marker: it reports one object, and refuses a dump whose name has `cut`.
MARKER = """#!/bin/sh
case $1 in
    *cut*) echo 'plain: refused 3 Truncated at 70' >&2; exit 1 ;;
esac
printf 'file 8\\nobjects 1\\nreferences 2\\n' >&2
printf '%10s  %14s  %s\\n' 1 8 A 1 8 '(reachable)' 0 0 '(unreachable)' 0 0 '(unresolved)'
"""
#: Programs in place of heapmark that go wrong on a whole dump, or `another refusal` on a cut one.
WRONG = {
    "no report": "#!/bin/sh\nexit 0\n",
    "no refusal": "#!/bin/sh\nexit 1\n",
    "a signal": "#!/bin/sh\nkill -SEGV $$\n",
    "another report": MARKER.replace("1 8 A", "1 9 A"),
    "another refusal": MARKER.replace("at 70", "at 71").replace("printf", "exit 1; printf"),
    "a report and a status": MARKER + "exit 1\n",
    "a report and a refusal": MARKER + "echo 'plain: refused 3 Truncated at 70' >&2\nexit 1\n",
}
#: Writes in place of a program the file of its name in the folder `sides`.
RUSTC = """#!/bin/sh
[ "$1" != --version ] || exec echo 'rustc 1.0.0'
for word; do
    [ "$before" != -o ] || program=$word
    before=$word
done
cp "$(dirname "$0")/../sides/$(basename "$program")" "$program"
"""
#: Makes a dump in place of hostile.rs, and prints its kinds.
HOSTILE = "#!/bin/sh\n[ $# -gt 0 ] && echo dump || echo chain\n"
HISTOGRAM = """ num     #instances         #bytes  class name (module)
-------------------------------------------------------
   1:             1              8  A
Total             1              8
"""


class BenchComparisonsTest(unittest.TestCase):
    """Each comparison on a whole dump and on a cut one."""

    def setUp(self) -> None:
        room = tempfile.TemporaryDirectory()
        self.addCleanup(room.cleanup)
        self.room = pathlib.Path(room.name)
        for name in ("bin", "sides"):
            (self.room / name).mkdir()
        self.program("bin/rustc", RUSTC)
        self.program("sides/plain", MARKER)
        self.program("sides/hostile", HOSTILE)
        self.heapmark = self.program("heapmark", MARKER)
        self.whole, self.cut = self.room / "whole.hprof", self.room / "cut.hprof"
        for dump in (self.whole, self.cut):
            dump.write_text("dump")

    def program(self, name: str, text: str) -> pathlib.Path:
        """Writes a program, and returns where it is."""
        path = self.room / name
        path.write_text(text)
        path.chmod(0o755)
        return path

    def ended(self, *words: str | pathlib.Path, **variables: str) -> tuple[int, str, str]:
        """Runs a script of bench/. Returns its status and what it printed."""
        path = f"{self.room}/bin:{os.environ['PATH']}"
        run = subprocess.run(
            [str(TOP / "bench" / words[0]), *map(str, words[1:])],
            env={**os.environ, "PATH": path, "HEAPMARK": str(self.heapmark), **variables},
            stdin=subprocess.DEVNULL,
            stdout=subprocess.PIPE,
            stderr=subprocess.PIPE,
            universal_newlines=True,
            timeout=60,
            check=False,
        )
        return run.returncode, run.stdout, run.stderr

    def test_same(self) -> None:
        """Equal reports and equal refusals are the same. All else is different, also if both sides fail."""
        self.assertEqual(
            self.ended("same.sh", self.whole, self.cut),
            (
                0,
                "whole: 0 MB, 1 objects, same\n"
                "cut: 0 MB, no objects, same, refused 3 Truncated at 70\n"
                "2 dumps, 12 runs, 0 different\n",
                "",
            ),
        )
        for name, text in WRONG.items():
            self.program("heapmark", text)
            with self.subTest(name):
                dump = self.cut if name == "another refusal" else self.whole
                status, out, _ = self.ended("same.sh", dump)
                self.assertEqual((status, out.splitlines()[-1]), (1, "1 dumps, 6 runs, 6 different"))
        for name in ("no report", "no refusal", "a signal", "a report and a refusal"):
            self.program("heapmark", WRONG[name])
            self.program("sides/plain", WRONG[name])
            status, out, _ = self.ended("same.sh", self.whole)
            self.assertEqual((status, out.splitlines()[-1]), (1, "1 dumps, 6 runs, 6 different"), name)

    def test_same_beside_a_histogram(self) -> None:
        """The counts of a histogram are compared, too, and one that cannot be read is a failure."""
        self.whole.with_suffix(".histogram").write_text(HISTOGRAM)
        status, out, _ = self.ended("same.sh", self.whole)
        line = "whole: 0 MB, 1 objects, same, 1 classes counted alike, 0 not"
        self.assertEqual((status, out.splitlines()[0]), (0, line))
        self.whole.with_suffix(".histogram").write_text("no histogram\n")
        status, out, _ = self.ended("same.sh", self.whole)
        self.assertEqual((status, out.splitlines()[-1]), (1, "1 dumps, 6 runs, 1 different"))

    def test_compare(self) -> None:
        """Three sides are compared, and each may fail."""
        histogram = self.room / "histogram"
        histogram.write_text(HISTOGRAM)
        plain = str(self.room / "sides/plain")
        status, out, _ = self.ended("compare.sh", self.whole, histogram, self.heapmark, PLAIN=plain)
        self.assertEqual((status, out.splitlines()[-2]), (0, "1 classes have the same count in all three."))
        wrong = self.program("wrong", WRONG["no report"])
        (self.room / "empty").write_text("")
        for words, other in (
            ([self.whole, histogram, wrong], plain),
            ([self.whole, histogram, self.heapmark], str(wrong)),
            ([self.whole, self.room / "empty", self.heapmark], plain),
            ([self.cut, histogram, self.heapmark], plain),
        ):
            status, out, err = self.ended("compare.sh", *words, PLAIN=other)
            self.assertEqual((status, out, err[:11]), (1, "", "compare.sh:"))

    def test_hostile(self) -> None:
        """A kind is the same if both programs end alike. One that is stopped differs from one that is stopped."""
        status, out, _ = self.ended("hostile.sh", "10")
        self.assertEqual((status, out.splitlines()[-1][-8:]), (0, "| same |"))
        for name, text in WRONG.items():
            if name != "another refusal":
                self.program("heapmark", text)
                self.assertEqual(self.ended("hostile.sh", "10", "chain")[0], 1, name)
        self.program("heapmark", MARKER)
        self.program("bin/timeout", "#!/bin/sh\nexit 124\n")
        status, out, _ = self.ended("hostile.sh", "10", "chain")
        self.assertEqual(status, 1)
        self.assertIn("DIFFERENT", out)

    @unittest.skipUnless(shutil.which("/usr/bin/time"), "time is not here")
    def test_run(self) -> None:
        """A run that ends otherwise than the plain marker differs, also if it is one of the plain marker."""
        status, out, _ = self.ended("run.sh", "1", self.whole, self.cut)
        self.assertEqual((status, "DIFFERENT" in out), (0, False))
        self.assertEqual(out.count("| same |\n"), 10)
        for name, dump in (("no report", self.whole), ("another report", self.whole), ("another refusal", self.cut)):
            self.program("heapmark", WRONG[name])
            self.assertEqual(self.ended("run.sh", "1", dump)[0], 1, name)
        self.program("sides/plain", WRONG["a signal"])
        self.assertEqual(self.ended("run.sh", "1", self.whole)[0], 1)
        self.heapmark.unlink()
        status, out, err = self.ended("run.sh", "1", self.whole)
        self.assertEqual((status, out, err), (1, "", f"run.sh: {self.heapmark} is not built\n"))

    @unittest.skipUnless(shutil.which("cc") and shutil.which("/usr/bin/time"), "cc or time is not here")
    def test_phases(self) -> None:
        """A run without a report has no times."""
        for name in ("no report", "no refusal", "a signal"):
            self.program("heapmark", WRONG[name])
            status, _, err = self.ended("phases.sh", "1", self.whole)
            self.assertEqual((status, err.splitlines()[-1][:27]), (1, "phases.sh: heapmark: failed"), name)

    @unittest.skipUnless(shutil.which("rustc"), "rustc is not here")
    def test_differ(self) -> None:
        """Two programs that fail alike differ."""
        source, differ = str(TOP / "bench/differ.rs"), str(self.room / "differ")
        subprocess.run(["rustc", "--edition", "2024", "-o", differ, source], check=True)
        for name, text in (("a report", MARKER), *WRONG.items()):
            side = str(self.program("heapmark", text))
            run = subprocess.run([differ, side, side, "1", "2"], stdout=subprocess.PIPE, check=False, cwd=self.room)
            is_answer = name in ("a report", "another report")
            self.assertEqual(run.returncode, 0 if is_answer else 1, name)

    def test_rough(self) -> None:
        """A dump of which there is no report, or another one, is not treated; a signal on both sides is wrong."""
        self.assertEqual(self.ended("rough.py", "--count", "2", self.whole, "cut", "many")[0], 0)
        for name, text in WRONG.items():
            if name != "another refusal":
                self.program("heapmark", text)
                status, out, err = self.ended("rough.py", "--count", "2", self.whole, "many")
                self.assertEqual((status, out, err[:6]), (1, "", "rough:"), name)
        # Both are killed by a signal on all dumps but the whole one.
        for side in ("heapmark", "sides/plain"):
            self.program(side, MARKER.replace("case", '[ "$(cat "$1")" = dump ] || kill -SEGV $$\ncase'))
        status, out, _ = self.ended("rough.py", "--count", "2", self.whole, "cut")
        self.assertEqual((status, out.count("WRONG")), (1, 2))
