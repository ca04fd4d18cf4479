"""Runs grown on small reports, histograms and dumps, and compares what it prints."""

import pathlib
import os
import re
import shutil
import subprocess
import unittest
from typing import Any, Sequence
from unittest import mock

from heap_tools.class_growth import ClassGrowth, lines_to_print
from heap_tools.heap_layout import Layout
from heap_tools.reports import Amount, Unit
from tests.support.laid_out_heap import LaidOutHeap
from tests.support.tool_test import TOP, Row, ToolTest, histogram, report

TWO_OBJECTS = TOP / "crates/heapmark/data/two_objects.hprof"
HOUR = 3600000


def write(name: str, *rows: Row, **more: Any) -> None:
    """Writes a report."""
    pathlib.Path(name).write_text(report(*rows, **more))


def grew(*rows: Sequence[Any]) -> str:
    """Returns lines of growth, each of objects, bytes, further numbers and a class."""
    return "".join(f"{row[0]:10} {row[1]:14}{''.join(f' {it:>10}' for it in row[2:-1])}  {row[-1]}\n" for row in rows)


def an_hour(*rows: Sequence[Any]) -> str:
    """Returns lines of growth whose last number is the growth per hour."""
    lines = []
    for *numbers, rate, name in rows:
        line = grew([*numbers, "@"]).rstrip("\n")
        lines.append(line.replace("  @", f" {rate:>12}  {name}\n"))
    return "".join(lines)


def timed(name: str, hours: int) -> None:
    """Writes the dump of two objects with this time since 1970 in its header."""
    dump = TWO_OBJECTS.read_bytes()
    pathlib.Path(name).write_bytes(dump[:23] + (hours * HOUR).to_bytes(8, "big") + dump[31:])


class GrownTest(ToolTest):
    """grown on a Monday and a Friday."""

    tool = "grown"
    BY_NUMBER = grew((7, 70, "New"), (3, 31, "Twice"), (0, 69, "Longer"))
    BY_BYTES = grew((7, 70, "New"), (0, 69, "Longer"), (3, 31, "Twice"))
    OF_DUMP = grew((2, 8, "A"), (1, 0, "<class>"))
    HALF = "grown: half: no * (refused 1 BadHeader at 0), no whole report, and no whole histogram"

    def setUp(self) -> None:
        super().setUp()
        same, twice = (5, 50, "Same"), (2, 20, "Twice")
        write("monday", same, (4, 40, "Fewer"), twice, (1, 10, "Twice"), (1, 8, "Gone"), (3, 30, "Longer"))
        write("friday", same, (3, 30, "Fewer"), (4, 41, "Twice"), (7, 70, "New"), (3, 99, "Longer"), twice)
        write("none")
        shutil.copy(TWO_OBJECTS, "dump")

    def test_order(self) -> None:
        """Sorted by number or by bytes; ties by the other one and then by name."""
        self.expect(["monday", "friday"], self.BY_NUMBER)
        self.expect(["--bytes", "monday", "friday"], self.BY_BYTES)
        self.expect(["monday", "friday", "--bytes"], self.BY_BYTES)
        self.expect(["monday", "monday"])
        write("alike", (2, 90, "Second"), (2, 100, "Third"), (2, 80, "First"), (1, 90, "Small"), (2, 90, "Also"))
        third, also, second = (2, 100, "Third"), (2, 90, "Also"), (2, 90, "Second")
        self.expect(["none", "alike"], grew(third, also, second, (2, 80, "First"), (1, 90, "Small")))
        self.expect(["--bytes", "none", "alike"], grew(third, also, second, (1, 90, "Small"), (2, 80, "First")))

    def test_kinds(self) -> None:
        """A report beside a dump, two dumps, and a report without its last line end."""
        self.expect(["none", "dump"], self.OF_DUMP)
        self.expect(["dump", "dump"])
        pathlib.Path("last_line").write_text(pathlib.Path("friday").read_text()[:-1])
        self.expect(["friday", "last_line"])

    def test_several(self) -> None:
        """Several files: the steps, and classes that grew at each step first."""
        write("day1", (1, 10, "Leak"), (5, 50, "Cache"), (1, 10, "Falls"), (1, 1, "Table"))
        write("day2", (3, 30, "Leak"), (90, 900, "Cache"), (9, 90, "Falls"), (1, 2, "Table"))
        write("day3", (6, 60, "Leak"), (90, 900, "Cache"), (2, 20, "Falls"), (1, 4, "Table"), (1, 8, "Late"))
        leak, cache = (5, 50, 2, 3, "Leak"), (85, 850, 85, 0, "Cache")
        falls, late, table = (1, 10, 8, -7, "Falls"), (1, 8, 0, 1, "Late"), (0, 3, 0, 0, "Table")
        days = ["day1", "day2", "day3"]
        self.expect(days, grew(leak, cache, falls, late, table))
        by_bytes = [(5, 50, 20, 30, "Leak"), (0, 3, 1, 2, "Table"), (85, 850, 850, 0, "Cache")]
        by_bytes += [(1, 10, 80, -70, "Falls"), (1, 8, 0, 8, "Late")]
        self.expect(["day1", "--bytes", "day2", "day3"], grew(*by_bytes))
        self.expect(["--more-than", "4", *days], grew(leak, cache), status=3)
        alike = [(85, 850, 85, 0, 0, "Cache"), (5, 50, 2, 0, 3, "Leak"), (1, 10, 8, 0, -7, "Falls")]
        self.expect(["day1", "day2", "day2", "day3"], grew(*alike, (1, 8, 0, 0, 1, "Late"), (0, 3, 0, 0, 0, "Table")))

    def test_times(self) -> None:
        """The times of dumps: their order, and the growth per hour. `other` stands in for heapmark."""
        timed("early.hprof", 480000)
        timed("late.hprof", 480004)
        later = "grown: early.hprof: wrong order? it was dumped earlier than late.hprof"
        self.expect(["early.hprof", "late.hprof"])
        self.expect(["late.hprof", "early.hprof"], said=later)
        self.expect(["early.hprof", "late.hprof", "early.hprof"], said=later)
        other = self.program("for file; do :; done\ncase $file in *late.hprof) cat friday ;; *) cat monday ;; esac")
        hours = an_hour((7, 70, "1.8", "New"), (3, 31, "0.8", "Twice"), (0, 69, "0", "Longer"))
        self.expect(["--per-hour", "early.hprof", "late.hprof"], hours, heapmark=other)
        hours = an_hour((7, 70, "18", "New"), (0, 69, "17", "Longer"), (3, 31, "7.8", "Twice"))
        self.expect(["--bytes", "early.hprof", "late.hprof", "--per-hour"], hours, heapmark=other)
        hours = an_hour((7, 70, 0, 7, "1.8", "New"), (3, 31, 0, 3, "0.8", "Twice"), (0, 69, 0, 0, "0", "Longer"))
        self.expect(["--per-hour", "early.hprof", "monday", "late.hprof"], hours, heapmark=other)
        said = "grown: late.hprof: --per-hour: not later than late.hprof"
        self.expect(["--per-hour", "late.hprof", "late.hprof"], said=said, status=1, heapmark=other)
        said = "grown: friday: --per-hour: *"
        self.expect(["--per-hour", "early.hprof", "friday"], said=said, status=1, heapmark=other)

    def test_what_heapmark_gets(self) -> None:
        """Fields that are not followed, and huge pages unless the tunables are set."""
        runs, fields = pathlib.Path("runs"), ["--skip", "a.b,c.d", "dump", "friday"]
        huge = {"GLIBC_TUNABLES": "glibc.malloc.hugetlb=1"}
        self.expect(fields, self.BY_NUMBER, heapmark=self.program("cat monday"), variables=huge)
        asked = "glibc.malloc.hugetlb=1 --skip=a.b,c.d -- "
        self.assertEqual(runs.read_text(), f"{asked}/dev/null\n{asked}dump\n")
        other = self.program("cat monday")
        self.expect(["dump", "friday"], self.BY_NUMBER, heapmark=other, variables={"GLIBC_TUNABLES": ""})
        self.assertEqual(runs.read_text(), " -- dump\n")
        said = "grown: --skip: none of the files is a dump"
        self.expect(["--skip", "a.b", "monday", "friday"], said=said, status=2, heapmark=other)

    def test_unmet_fields(self) -> None:
        """On a terminal, heapmark says which entries name no field, as it does without this tool."""
        seen = self.on_terminal("--skip", "A.none", "dump", "dump")[1]
        self.assertEqual(seen.count("A.none"), 2, seen)
        self.expect(["--skip", "A.none", "dump", "dump"])

    def test_heapmark(self) -> None:
        """A heapmark that is killed, that is missing, and one that is not wanted."""
        killed = self.program("kill -9 $$")
        self.expect(["dump", "friday"], said="grown: *: run 1 on dump failed: signal 9", status=5, heapmark=killed)
        said = "grown: /nowhere cannot be run: No such file or directory: the variable HEAPMARK names it"
        self.expect(["monday", "dump"], said=said, status=5, heapmark="/nowhere")
        self.expect(["monday", "friday"], self.BY_NUMBER, heapmark="/nowhere")
        self.check_interrupt("dump", "friday")

    def test_histograms(self) -> None:
        """Histograms of jcmd and jmap, with names as the report has them."""
        rows = [(2, 64, "[B (java.base@17)"), (3, 72, "java.lang.String (java.base@17)")]
        rows += [(1, 16, "Shop$$Lambda$14/0x00000008000c0a08"), (1, 40, "[Ljava.lang.Object; (java.base@17)")]
        rows.append((4, 40, "Fewer"))
        pathlib.Path("before").write_text(histogram(*rows))
        rows = [(9, 640, "[B (java.base@17)"), (4, 96, "java.lang.String (java.base@17)")]
        rows += [(3, 48, "Shop$$Lambda$15/0x00000008000d0a08"), (2, 90, "[Ljava.lang.Object; (java.base@17)")]
        rows += [(1, 24, "[[I (java.base@17)"), (1, 16, "Ort$Größe"), (4, 40, "Fewer")]
        text = histogram(*rows)
        pathlib.Path("after").write_text(text, encoding="utf-8")
        found = grew((7, 576, "byte[]"), (2, 32, "Shop$$Lambda"), (1, 50, "[Ljava/lang/Object;"))
        found += grew((1, 24, "[[I"), (1, 24, "java/lang/String"), (1, 16, r"Ort$Gr\xc3\xb6\xc3\x9fe"))
        self.expect(["before", "after"], found)
        pathlib.Path("jmap").write_text(text.partition("\n")[2], encoding="utf-8")
        self.expect(["before", "jmap"], found)
        pathlib.Path("crlf").write_bytes(text.replace("\n", "\r\n").encode())
        self.expect(["before", "crlf"], found)
        said = "grown: before: a histogram: its bytes are not those of friday, a report"
        self.expect(["before", "friday"], said=said, status=1)
        said = "grown: after: a histogram: its bytes are not those of dump, a dump"
        self.expect(["dump", "after"], said=said, status=1)
        pathlib.Path("both").write_text(histogram() + histogram())
        self.expect(["before", "both"], said="grown: both: two histograms in one file*", status=1)
        pathlib.Path("half").write_text("\n".join(text.split("\n")[:6]))
        self.expect(["before", "half"], said=self.HALF, status=1)

    def test_refused(self) -> None:
        """What is refused, and which file the message names."""
        dump = TWO_OBJECTS.read_bytes()
        for name, content in (("cut.hprof", dump[:60]), ("header.hprof", dump[:26])):
            pathlib.Path(name).write_bytes(content)
            said = f"grown: {name}: ends too early: still being written, or cut (refused *)"
            self.expect(["dump", name], said=said, status=1)
            self.expect([name, "dump"], said=said, status=1)
        monday, friday = (pathlib.Path(name).read_text() for name in ("monday", "friday"))
        half = "".join(monday.splitlines(True)[:5])
        pathlib.Path("half").write_text(half)
        self.expect(["monday", "half"], said=self.HALF, status=1)
        for second in (friday, half):
            pathlib.Path("both").write_text(monday + second)
            self.expect(["monday", "both"], said="grown: both: two reports in one file", status=1)
        self.expect(["monday", "nowhere"], said="grown: nowhere: no such file", status=1)
        said = "grown: .: is a directory (refused 19 ReadFault), and only dumps may come from what is no plain file"
        self.expect(["monday", "."], said=said, status=1)
        said = "grown: referent: no list of *"
        self.expect(["--skip", "referent", "dump", "dump"], said=said, status=2)
        self.expect(["--skip", os.fsdecode(b"a.\377"), "dump", "dump"], said="grown: *: no list of *", status=2)

    def test_pipes(self) -> None:
        """A dump may come from a pipe, a report may not."""
        with subprocess.Popen(["cat", "dump"], stdout=subprocess.PIPE) as cat:
            assert cat.stdout
            path = f"/dev/fd/{cat.stdout.fileno()}"
            self.expect(["none", path], self.OF_DUMP, pass_fds=[cat.stdout.fileno()])
        with subprocess.Popen(["cat", "monday"], stdout=subprocess.PIPE) as cat:
            assert cat.stdout
            path = f"/dev/fd/{cat.stdout.fileno()}"
            said = "grown: *: no * (refused 1 BadHeader at 0), and only dumps may come from what is no plain file"
            self.expect(["none", path], said=said, status=1, pass_fds=[cat.stdout.fileno()])

    def test_words(self) -> None:
        """The help, and words that are wrong."""
        self.check_help("Shows which classes grew between heap dumps of one program: ")
        self.check_wrong_words(
            [], ["monday"], ["--number", "monday", "friday"], ["--bytes=yes", "monday", "friday"], ["--more-than"]
        )
        self.check_wrong_words(
            *(["monday", "friday", "--more-than", wrong] for wrong in ("", "-1", "1k", " 5", "\u0665", "1_0"))
        )
        self.check_wrong_words(["monday", "friday", "--skip"], ["--per-hour=1", "monday", "friday"], ["--", "--help"])

    def test_names_of_files(self) -> None:
        """Names that heapmark or a shell may take for something else."""
        for name in ("day=2.hprof", "two words", "*", os.fsdecode(b"b\344r")):
            shutil.copy("friday", name)
            self.expect(["monday", name], self.BY_NUMBER)
            shutil.copy("dump", name)
            self.expect(["none", name], self.OF_DUMP)
            self.expect([name, "none"])
        for name in ("--bytes", "-dash.hprof"):
            shutil.copy("friday", name)
            self.expect(["--", "monday", name], self.BY_NUMBER)

    def test_hidden_classes(self) -> None:
        """Hidden classes, whose names have a counter and an address."""
        hidden = "Shop$$Lambda$14+0x00007fee61009210"
        write("one", (9, 90, hidden), (2, 16, f"[L{hidden};"), (1, 8, "A+0"))
        hidden = "Shop$$Lambda$15+0x00007f0123abcdef"
        write("two", (9, 90, hidden), (3, 24, f"[L{hidden};"), (1, 8, "A+0"))
        self.expect(["one", "two"], grew((1, 8, "[LShop$$Lambda;")))
        write("three", *((1, 8, f"Hidden+0x000000000000000{letter}") for letter in "abc"))
        self.expect(["none", "three"], grew((3, 24, "Hidden")))

    def test_unreachable(self) -> None:
        """What is unreachable, and what waiting virtual threads hold."""
        write("before", (1, 8, "A"), unreachable=(10, 100))
        write("after", (1, 8, "A"), unreachable=(17, 170))
        grows = "grown: 7 objects more, 70 bytes more are unreachable: *waiting virtual threads*jmap -histo:live*"
        self.expect(["before", "after"], said=grows)
        self.expect(["after", "before"])
        self.expect(["before", "after", "before", "after"], said=grows)
        self.expect(["--more-than", "0", "before", "after"], said=grows)

    def test_unreachable_beside_a_histogram(self) -> None:
        """A histogram counts what is unreachable in a dump, so it is not said that more is unreachable in the dump."""
        heap = LaidOutHeap(Layout(8, 12, 4, 16))
        heap.mixed(200)
        order = heap.of_class("shop/Order", 2)
        heap.dump.root(heap.instance(order))
        heap.written().write("heap.hprof")
        pathlib.Path("counted").write_text(histogram((1, 24, "shop.Order"), (1, 16, "java.lang.Class")))
        said = "grown: a histogram also counts what is unreachable in heap.hprof, unless it is garbage: 2,4* objects"
        self.expect(["heap.hprof", "counted"], said=said)
        self.expect(["counted", "heap.hprof"], said=said)

    def test_two_programs(self) -> None:
        """Files of two programs have few own classes in common."""
        write("shop", *((1, 8, f"shop/A{number}") for number in range(9)), (1, 8, "java/lang/String"))
        write("bank", *((1, 8, f"bank/A{number}") for number in range(4)), (1, 8, "java/lang/String"))
        ended = self.ran("shop", "bank")
        self.assertEqual(ended.said, "grown: bank: another program? it has 0 of the 9 own classes of shop\n")
        self.assertEqual(ended.status, 0)

    def test_own(self) -> None:
        """Only own classes, and only the first lines."""
        own = [(3, 30, "[Lcom/shop/Order;"), (2, 20, "Shop$$Lambda")]
        write("mixed", *own, (9, 90, "java/lang/String"), (9, 90, "byte[]"), (1, 2, "<class>"))
        self.expect(["--own", "none", "mixed"], grew(*own))
        self.expect(["--own", "--top=1", "none", "mixed"], grew(own[0]))
        self.expect(["--own", "--more-than=2", "none", "mixed"], grew(own[0]), status=3)
        self.expect(["--own", "--more-than=3", "none", "mixed"])

    def test_nothing(self) -> None:
        """If nothing grew, nothing is printed; a terminal says so, and whether it is the same file."""
        shutil.copy("friday", "copy")
        for words, why in (
            (["friday", "friday"], "friday: the same file as friday"),
            (["friday", "copy"], "copy: the same file as friday"),
            (["friday", "none"], "no class has more objects or bytes in none than in friday"),
            (["--more-than=9", "monday", "friday"], "no such class has more objects or bytes in friday than in monday"),
        ):
            self.expect(words)
            ended, seen = self.on_terminal(*words)
            self.assertEqual((ended.status, ended.out, seen), (0, "", f"grown: {why}\n"))

    def test_more_than(self) -> None:
        """A limit, for a script."""
        new = (7, 70, "New")
        self.expect(["--more-than", "3", "monday", "friday"], grew(new), status=3)
        self.expect(["--bytes", "--more-than=3", "monday", "friday"], grew(new), status=3)
        self.expect(["--more-than", "7", "monday", "friday"])
        self.expect(["--more-than", "0", "monday", "friday"], grew(new, (3, 31, "Twice")), status=3)
        pathlib.Path("cut.hprof").write_bytes(TWO_OBJECTS.read_bytes()[:60])
        self.expect(["--more-than", "3", "monday", "cut.hprof"], said="grown: cut.hprof: * (refused *)", status=1)

    def test_output(self) -> None:
        """What cannot be written, and bars on a terminal."""
        self.check_output(["monday", "friday"], self.BY_NUMBER)
        self.expect(["monday", "friday"], self.BY_NUMBER, variables={"TMPDIR": "/nowhere"})
        ended, seen = self.on_terminal("monday", "friday", stream="stdout")
        bars = [("##########", "New"), ("####", "Twice"), ("", "Longer")]
        plain = zip(self.BY_NUMBER.splitlines(), bars)
        wanted = [f"{line.rpartition('  ')[0]}  {bar:10}  {name}" for line, (bar, name) in plain]
        self.assertEqual(seen.splitlines(), [f"{'objects':>10} {'bytes':>14}  {'':10}  class", *wanted])
        self.assertEqual((ended.status, ended.said), (0, ""))


class HeadsTest(unittest.TestCase):
    """What grown prints on a terminal: the heads of the columns above the lines."""

    def test_heads(self) -> None:
        """A step is numbered from one, and the growth per hour comes after the steps; neither is there without need."""
        for steps, hours, heads, line in (
            ([7], None, "   objects          bytes              class", "         7             70  ##########  New"),
            (
                [3, 4],
                2.0,
                "   objects          bytes     step 1     step 2     per hour              class",
                "         7             70          3          4          3.5  ##########  New",
            ),
            (
                [3, 0, 4],
                None,
                "   objects          bytes     step 1     step 2     step 3              class",
                "         7             70          3          0          4  ##########  New",
            ),
        ):
            with mock.patch("heap_tools.class_growth.is_terminal", return_value=True):
                found = lines_to_print([ClassGrowth("New", Amount(7, 70), steps)], Unit.OBJECTS, hours)
                self.assertEqual(found.splitlines(), [heads, line])
                self.assertEqual(lines_to_print([], Unit.OBJECTS, hours), "")


class RecipesTest(ToolTest):
    """The recipes for those who have only the program. A stand-in for heapmark is first in PATH."""

    tool = "grown"

    def recipe(self, heading: str, **reports: str) -> str:
        """Runs the code that follows this heading, with these reports of dumps. Returns what it prints."""
        page = (TOP / "docs/HISTOGRAM.md").read_text(encoding="utf-8")
        code = re.search(rf"^#+ {heading}\n.*?((?:^    [^\n]*\n)+)", page, re.M | re.S)
        assert code
        program = pathlib.Path("bin/heapmark")
        program.parent.mkdir(exist_ok=True)
        cases = "--skip*' friday.hprof') cat skipped ;;\nmonday.hprof | friday.hprof) cat \"${1%.hprof}\" ;;"
        program.write_text(f"#!/bin/sh\ncase $* in\n{cases}\n*) exit 1 ;;\nesac\n")
        program.chmod(0o755)
        for name, text in reports.items():
            pathlib.Path(name).write_text(text)
        script = re.sub("^    ", "", code[1], flags=re.M)
        ended = subprocess.run(["sh", "-c", f"PATH=$PWD/bin:$PATH\n{script}"], stdout=subprocess.PIPE, check=False)
        return ended.stdout.decode()

    def test_growth(self) -> None:
        """The first recipe prints what grown prints."""
        hidden = "Shop$$Lambda$14+0x00007fee61009210"
        before = report((5, 50, "Same"), (4, 40, "Fewer"), (2, 20, "Twice"), (1, 10, "Twice"), (9, 90, hidden))
        hidden = hidden.replace("14", "15")
        after = report((5, 50, "Same"), (3, 30, "Fewer"), (6, 61, "Twice"), (7, 70, "New"), (9, 99, hidden))
        printed = self.recipe("Which classes grew", monday=before, friday=after)
        self.assertEqual(printed, self.ran("monday", "friday").out)
        self.assertEqual(len(printed.splitlines()), 3)

    def test_field(self) -> None:
        """The second one writes two reports."""
        whole, skipped = report((2, 16, "A")), report((1, 8, "A"))
        self.recipe("What a field holds", friday=whole, skipped=skipped)
        self.assertEqual([pathlib.Path(f"{name}.txt").read_text() for name in ("without", "with")], [skipped, whole])


if __name__ == "__main__":
    unittest.main()
