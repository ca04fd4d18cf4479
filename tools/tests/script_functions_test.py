"""Tests of scripts of dev/, bench/ and tools/ that have logic of their own, on small examples."""

from __future__ import annotations

import contextlib
import importlib.machinery
import importlib.util
import io
import pathlib
import sys
import tempfile
import types
import unittest
from typing import Any

TOP = pathlib.Path(__file__).resolve().parents[2]
sys.path[:0] = [str(TOP / "dev"), str(TOP / "tools")]
from tests.support import dump_writer


def script(name: str) -> Any:
    """Returns a script as a module."""
    loader = importlib.machinery.SourceFileLoader(pathlib.Path(name).stem, str(TOP / name))
    spec = importlib.util.spec_from_loader(loader.name, loader)
    assert spec
    module = importlib.util.module_from_spec(spec)
    sys.modules[loader.name] = module  # where dataclasses look
    loader.exec_module(module)
    return module


class ScriptTest(unittest.TestCase):
    """A test of a script that reads the repository `top`."""

    def setUp(self) -> None:
        room = tempfile.TemporaryDirectory()
        self.addCleanup(room.cleanup)
        self.top = pathlib.Path(room.name)

    def write(self, name: str, text: str) -> pathlib.Path:
        """Writes a file of the repository."""
        path = self.top / name
        path.parent.mkdir(parents=True, exist_ok=True)
        path.write_text(text, encoding="utf-8")
        return path

    def ended(self, module: Any, *words: str) -> tuple[int, list[str]]:
        """Runs a script with words. Returns its status and the lines that it printed."""
        old, sys.argv = sys.argv, [module.__name__, *words]
        try:
            with contextlib.redirect_stdout(io.StringIO()) as out:
                status: int = module.main()
        finally:
            sys.argv = old
        return status, out.getvalue().splitlines()


class QuotesTest(ScriptTest):
    """dev/quotes"""

    def test_quotes(self) -> None:
        """Pages of docs/, READMEs and comments are read; line breaks do not count, words do."""
        quotes = script("dev/quotes")
        quotes.TOP = self.top
        source = "//! `src/lib.rt` has:\n//!\n//!     fn pop(a: u8,) {}\n\nfn pop(\n    a: u8\n) {}\n"
        self.write("crates/heap/src/lib.rt", source)
        self.write("crates/heap/specs/A.antt", "-- At its entry.\nis_at : Type\n")
        self.write("crates/heap/README.md", "As in `src/lib.rt`:\n\n```rust\nfn pop(a: u8) {}\n```\n")
        text = "See `crates/heap/specs/A.antt`:\n\n    -- At its entry.\n\n    is_at : Type\n\nMore.\n"
        page = self.write("docs/PAGE.md", text)
        self.write("tools/heap_tools/a.py", 'def main() -> None:\n    it.flag("--all")\n')
        text = '1. As in `tools/heap_tools/a.py`:\n\n   ```python\n   it.flag("--all")\n   ```\n'
        change = "A change of `specs/A.antt`:\n\n```diff\n-is_at : Type\n+is_in : Type\n```\n"
        self.write("CONTRIBUTING.md", text + change)
        self.assertEqual(self.ended(quotes), (0, ["4 quotations, 0 that do not stand"]))
        self.write("CONTRIBUTING.md", text.replace("all", "each"))
        page.write_text(page.read_text().replace("entry", "place"))
        self.write("crates/heap/README.md", "As in `src/lost.rt`:\n\n```rust\nfn pop(a: u8) {}\n```\n")
        self.write("crates/heap/src/lib.rt", "//! No code of `src/lib.rt`:\n//! more words.\n\nfn pop() {}\n")
        status, lines = self.ended(quotes)
        self.assertEqual((status, lines[-1]), (1, "4 quotations, 4 that do not stand"))
        self.assertIn("docs/PAGE.md: what is quoted from crates/heap/specs/A.antt does not stand there", lines)


class NamesTest(ScriptTest):
    """dev/names"""

    def test_names(self) -> None:
        """Files, links, anchors and words that do not exist are found, each at its line."""
        names = script("dev/names")
        names.TOP = self.top
        self.write("crates/heap/src/lib.rt", "//! See `pop_all`, `pop_one` and heap/src/lost.rt.\nfn pop_all() {}\n")
        glossary = "- **claim**: one; also another.\n- **mark**: a bit, as `crates/NAME` says.\n- **mark**: two.\n"
        glossary += "\n## In the tools\n\n- **mark**: three.\n"
        self.write("docs/GLOSSARY.md", glossary)
        self.write("docs/A.md", "# A head\n\nSee [b](B.md#more), [c](C.md) and\n[a](#a-head); `pop_all`, `popAll`.\n")
        self.write("docs/B.md", "# Less\n\n    `lost_word` of a block\n")
        self.write("bench/run.sh", "# As bench/walk.sh.\necho lost/walk.sh\n")
        status, lines = self.ended(names)
        self.assertEqual(status, 1)
        self.assertEqual(
            sorted(lines[:-1]),
            [
                "bench/run.sh:1: bench/walk.sh",
                "crates/heap/src/lib.rt:1: heap/src/lost.rt",
                "crates/heap/src/lib.rt:1: pop_one",
                "docs/A.md:3: B.md#more",
                "docs/A.md:3: C.md",
                "docs/A.md:4: popAll",
                "docs/GLOSSARY.md:1: claim has two meanings",
                "docs/GLOSSARY.md:3: mark has two meanings",
            ],
        )


class PlainWordsTest(ScriptTest):
    """dev/plain_words"""

    def test_plain_words(self) -> None:
        """Words of comments are listed and counted by the kind of file, those of code are not."""
        plain_words = script("dev/plain_words")
        plain_words.TOP = self.top
        self.write("crates/heap/src/lib.rt", "/// Answers what is behind it.\nfn answers() {}\n")
        self.write("crates/heap_tests/src/lib.rt", "// Such a test.\n")
        status, lines = self.ended(plain_words)
        self.assertEqual(status, 0)
        self.assertIn("crates/heap/src/lib.rt:1: behind (after): / Answers what is behind it.", lines)
        self.assertEqual(lines[-1].split(), ["all", "2", "0", "1", "0"])
        self.assertEqual(self.ended(plain_words, "-q")[1], lines[3:])


class FunctionCostsTest(ScriptTest):
    """dev/function_costs"""

    def test_steps(self) -> None:
        """The time since the file before is that of a step of a function, or of a file of definitions."""
        costs = script("dev/function_costs")
        names = ("first", "code.pool.pop.Code.Mir-2", "code.pool.pop.Goals", "specs.contracts.pool.pop", "specs.Calls")
        files = [costs.Kept(f"Rattle-heap-{name}", float(at * at)) for at, name in enumerate(names)]
        self.assertEqual(
            costs.costs("heap", files),
            {"pool::pop": {"Code.Mir": 1.0, "Goals": 3.0, "contract": 5.0}, "specs/Calls": {"file": 7.0}},
        )


class ReadingListTest(ScriptTest):
    """dev/reading_list"""

    def test_order(self) -> None:
        """A file comes after those that it uses, and one that nothing rests on only with --outside."""
        reading_list = script("dev/reading_list")
        reading_list.CRATES = self.top / "crates"
        clause = "    ensures high { is_high result }\n"
        source = f"ghost use Rattle.heap.specs.High.{{is_high}};\npub fn top() -> u8\n{clause}{{\n}}\n"
        high = "pub use Rattle.heap.specs.Low.{low}\n\n-- Above.\nis_high : ℕ → Type\nis_high n = low n\n"
        self.write("crates/heap/src/lib.rt", source)
        self.write("crates/heap/specs/High.antt", high)
        self.write("crates/heap/specs/Low.antt", "-- Below.\nlow : ℕ → Type\nlow n = n\n\nother : ℕ\nother = 2\n")
        self.write("crates/heap/specs/Unused.antt", "lost : ℕ\nlost = 1\n")
        expected = [
            "    3 of    6  crates/heap/specs/Low.antt",
            "    3 of    5  crates/heap/specs/High.antt",
            "    6 of   11  in 2 files",
        ]
        self.assertEqual(self.ended(reading_list, "heap", "top"), (0, expected))
        outside = "    -          crates/heap/specs/Unused.antt"
        self.assertEqual(self.ended(reading_list, "--outside", "heap", "top"), (0, [*expected, outside]))


class TryEditsTest(ScriptTest):
    """dev/try_edits, with stand-ins for what `rt` does"""

    def test_an_edit(self) -> None:
        """What is refused and has its row is right; --write puts the row there."""
        try_edits = script("dev/try_edits")
        page = self.write("dev/edits.tsv", "crate\tedit\tfunction\tgoals\n")
        self.write("crates/heap/must-fail/pops_none.edit", "")

        crate = types.SimpleNamespace(name="heap", folder=str(self.top / "crates/heap"))
        refused = "fn heap::pool::pop: no proof: `search` did not prove `returns`\nlogic=not-proved"
        rows = "crate\tedit\tfunction\tgoals\nheap\tpops_none\tpool::pop\treturns\n"
        for writes, status, said, name, is_right, text in (
            (False, 1, refused, "pops_none", False, page.read_text()),
            (True, 1, refused, "pops_none", True, rows),
            (False, 1, refused, "pops_none.edit", True, rows),
            (True, 0, "logic=proved", "pops_none", False, rows),
            (True, 1, "out of memory", "pops_none", False, rows),
            (True, 1, refused, "lost", False, rows),
        ):
            ran = types.SimpleNamespace(stdout=said, returncode=status)
            rt = types.SimpleNamespace(
                read_edit=lambda path, _: (None, "no such edit") if "lost" in path else ({"src/lib.rt": ""}, ""),
                checked=lambda *_, ran=ran: ran,
                unread=lambda line, texts: False,
            )
            tries = try_edits.Tries(rt, crate, "kept", writes)
            with contextlib.redirect_stdout(io.StringIO()):
                self.assertEqual(tries.is_refused(name), is_right, (name, status, said))
            self.assertEqual(page.read_text(), text)


class RealDumpsTest(ScriptTest):
    """dev/real_dumps.py"""

    def test_counts(self) -> None:
        """A histogram has what is reachable, and besides only what the report calls unreachable."""
        real_dumps = script("dev/real_dumps.py")
        real_dumps.ROOM = self.top
        rows = (("A", 3), ("<class>", 2), ("(reachable)", 5), ("(unreachable)", 1), ("(unresolved)", 0))
        self.write("x.report", "".join(f"{count:10}  {8 * count:14}  {name}\n" for name, count in rows))
        for counts, alike in (({"A": 3, "java.lang.Class": 2, "B": 1}, 2), ({"A": 4, "java.lang.Class": 2}, 1)):
            self.write("x.histogram", self.histogram(counts))
            self.assertEqual(real_dumps.require_counts("x"), alike)
        for counts in ({"A": 3, "java.lang.Class": 2}, {"A": 2, "java.lang.Class": 4}, {"A": 5, "java.lang.Class": 2}):
            self.write("x.histogram", self.histogram(counts))
            self.assertRaises(real_dumps.Miscounted, real_dumps.require_counts, "x")

    def histogram(self, counts: dict[str, int]) -> str:
        """Returns a histogram of jcmd."""
        rows = [f"{at:4}: {count:13} {8 * count:14}  {name}\n" for at, (name, count) in enumerate(counts.items(), 1)]
        head = " num     #instances         #bytes  class name (module)\n" + 55 * "-" + "\n"
        return f"{head}{''.join(rows)}Total {sum(counts.values()):13} {8 * sum(counts.values()):14}\n"


class EveryByteTest(ScriptTest):
    """bench/every_byte.py"""

    def test_ranges(self) -> None:
        """Values with one result are one range, which may contain the dump's own value; reports are mixed in."""
        every_byte = script("bench/every_byte.py")
        refused, report = every_byte.Answer(3, 70, b""), every_byte.Answer(0, 2, b"ab")
        later = every_byte.Answer(3, 71, b"")
        rows = every_byte.ranges((refused, None, refused, report, report, refused, later))
        mix = ((ord("a") * 31 + ord("b")) * 31 + ord("a")) * 31 + ord("b")
        self.assertEqual([tuple(it) for it in rows[:2]], [(0, 2, 3, 70, 0), (3, 4, 0, 2, mix)])
        self.assertEqual([tuple(it) for it in rows[2:]], [(5, 5, 3, 70, 0), (6, 6, 3, 71, 0)])


class UsedNamesTest(ScriptTest):
    """bench/used_names.py"""

    def test_copy(self) -> None:
        """Names of classes, of fields and of what a frame names stay, other strings go, and no other byte changes."""
        used_names = script("bench/used_names.py")
        whole = dump_writer.DumpWriter()
        identifiers = {name: whole.text(name) for name in ("lost", "a/A", "next", "more")}
        whole.of_class(8, "a/A", fields=["next"])
        whole.instance(100, 8, 0)
        whole.thread(1, 100, [(8, "run")])
        whole.write(self.top / "whole")
        wanted = whole.bytes()
        for name in ("lost", "more"):
            record = whole.form.record(dump_writer.STRING, whole.form.spell([identifiers[name]]), name.encode())
            self.assertEqual(wanted.count(record), 1)
            wanted = wanted.replace(record, b"")
        status, lines = self.ended(used_names, str(self.top / "whole"), str(self.top / "copy"))
        self.assertEqual((status, lines), (0, ["2 strings left out, 5 kept"]))
        self.assertEqual((self.top / "copy").read_bytes(), wanted)
        with contextlib.redirect_stderr(io.StringIO()), self.assertRaises(SystemExit) as ended:
            self.ended(used_names, str(self.top / "whole"), str(self.top / "whole"))
        self.assertEqual(ended.exception.code, 2)
        self.assertEqual((self.top / "whole").read_bytes(), whole.bytes())
