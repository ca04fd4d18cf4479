"""Runs leaks on small dumps of services that leak beside a catalog, and compares what it prints."""

import fnmatch
import os
import pathlib
import re
import resource
import shutil
import sys
import unittest
from typing import Callable, List, Tuple, Union
from unittest import mock

from heap_tools.commands import leaks
from heap_tools.faults import Fault
from heap_tools.hprof_format import NATIVE_STACK
from tests.support.dump_writer import BYTE, DumpWriter, word
from tests.support.laid_out_heap import bytes_of_odd_arrays, odd_arrays
from tests.support.services import (
    MINUTE,
    Service,
    baskets,
    batch,
    buffers,
    cache,
    dispatched,
    emptied,
    finalizers,
    handler,
    journal,
    lambdas,
    library_map,
    many_caches,
    moved,
    noisy,
    of_customer,
    of_main,
    referents,
    reporters,
    running,
    scheduled,
    swapped,
    twofold,
    uploads,
    worker,
)
from tests.support.tool_test import TOOLS, ToolTest, histogram


def line(objects: int, size: int, share: int, before: int, after: int, holders: Union[int, str], path: str) -> str:
    """Returns a line of the output."""
    return f"{objects:10} {size:14} {share:4}% {before:14} {after:14} {holders:>9}  {path}\n"


def columns_of(line: str) -> List[str]:
    """Returns the columns of a line of the output."""
    found = re.fullmatch(r" *(\d+) +(\d+) +(\d+%) +(\d+) +(\d+) +((?:\d+ to )?\d+)  (.*)", line)
    assert found, line
    return list(found.groups())


class LeaksTest(ToolTest):
    """leaks on services."""

    tool = "leaks"
    COST = "leaks: * fields, * runs of heapmark and * of retained, * s"
    CUT = "leaks: cut: ends too early: still being written, or cut (refused 3 Truncated at [0-9]*)"
    PATH = "static shop/Service.CACHE > shop/Cache.table"
    FINALIZER = "static java/lang/ref/Finalizer.unfinalized"

    def setUp(self) -> None:
        super().setUp()
        cache(20).write("monday")
        cache(80, minutes=12).write("friday")

    def found(self, before: DumpWriter, after: DumpWriter, *words: str) -> List[List[str]]:
        """Writes two dumps, and returns the columns of the lines that leaks prints for them."""
        before.write("before")
        after.write("after")
        ended = self.ran("before", "after", *words)
        self.assertEqual(ended.status, 0, ended.said)
        return [columns_of(each) for each in ended.out.splitlines()]

    def test_cache(self) -> None:
        """The field that holds the growth, by identifiers of both sizes; not the catalog, which holds more. With --all,
        what is above it and below it has a line, too."""
        first = line(120, 2160, 100, 720, 2880, 1, self.PATH)
        self.expect(["monday", "friday"], first, self.COST)
        lines = first + line(120, 2160, 100, 732, 2892, 1, "static shop/Service.CACHE")
        lines += line(60, 1200, 56, 400, 1600, "20 to 80", f"{self.PATH} > shop/Order.text")
        self.expect(["--all", "monday", "friday"], lines, self.COST)
        self.assertNotIn("Catalog", lines)
        rows = self.found(cache(20, id_size=4), cache(80, id_size=4))
        self.assertEqual([rows[0][0], rows[0][1], rows[0][6]], ["120", "1680", self.PATH])
        elements, classes, _ = self.ran("monday", "friday").said.splitlines()
        self.assertEqual(elements, "leaks: line 1: shop/Cache.table: 20, then 80 elements")
        self.assertEqual(classes, "leaks: own classes that grew: 60 shop/Order")
        ended = self.ran("--all", "--top=1", "monday", "friday")
        self.assertEqual(ended.out, first)
        self.assertIn("leaks: 2 more hold 30% or more: see --top\n", ended.said)

    def test_class(self) -> None:
        """The growth of a class, and a class that did not grow."""
        for name in ("shop/Order", "shop.Order"):
            first = self.ran("--class", name, "monday", "friday").out.splitlines(True)[0]
            self.assertEqual(first, line(60, 480, 100, 160, 640, 1, self.PATH))
        said = "leaks: shop/Product: 800 bytes, then 800: no growth"
        self.expect(["--class=shop/Product", "monday", "friday"], said=said, status=3)
        for count, name in ((20, "before"), (80, "after")):
            dump = Service()
            dump.of_class(6, "shop/Job", {"ALL": 600})
            dump.array(600, 4, *range(5000, 5000 + count))
            for number in range(5000, 5000 + count):
                dump.instance(number, 6)
            dump.root(6)
            dump.write(name)
        so = "so only objects of it count, and shares are of their number"
        said = f"leaks: shop/Job: 0 bytes, then 0: no growth; {so}\n{self.COST}"
        self.expect(["--class=shop/Job", "before", "after"], line(60, 0, 100, 20, 80, 1, "static shop/Job.ALL"), said)
        said = "leaks: Order: no class of the dump has this name: did you mean shop/Order?"
        self.expect(["--class=Order", "monday", "friday"], said=said, status=6)

    def test_objects(self) -> None:
        """Shares of objects, in which small ones count as much as large ones."""
        rows = self.found(cache(20), cache(80), "--objects")
        self.assertEqual(rows[0], ["120", "2160", "100%", "41", "161", "1", self.PATH])

    def test_arrays(self) -> None:
        """By bytes, large arrays count more than many small ones of the catalog."""
        cases: Tuple[List[str], ...] = ([], ["--class", "byte[]"])
        for words in cases:
            rows = self.found(uploads(1), uploads(10), *words)
            self.assertEqual(rows[0][-1], "static shop/Upload.UPLOAD > shop/Upload.chunks")

    def test_above_a_line(self) -> None:
        """What is above a line is none, though it holds more than that line."""
        tasks = "static shop/Timer.TASKS > java/util/ArrayList.elementData"
        rows = self.found(scheduled(20, 8), scheduled(80, 32))
        self.assertEqual([row[-1] for row in rows], [f"{tasks} > shop/Task.service > shop/Service.log"])
        self.assertRegex(self.ran("before", "after").said, "leaks: [0-9]+% of the growth are in no line")

    def test_calls_with_little(self) -> None:
        """What only a running call holds is a line if it is a tenth of the growth, and no other line holds it: all
        shares are of the growth with it then."""
        row = "thread > local shop/Batch.run > shop/Row.text"
        for size, shares, path in ((600, ["78%", "22%"], row), (300, ["88%", "12%"], row), (200, ["100%"], self.PATH)):
            rows = self.found(batch(20, 8), batch(80, size))
            self.assertEqual(([each[2] for each in rows], rows[-1][-1]), (shares, path))
            self.assertEqual(rows[0][-1], self.PATH)
            self.assertEqual({each[5] for each in rows}, {"1"})
        self.assertNotIn("in no line", self.ran("before", "after").said)
        self.assertEqual([each[2] for each in self.found(batch(20, 8), batch(80, 600), "--top=1")], ["78%"])
        self.assertIn(
            "leaks: 22% of the growth are in no line: see --top\n", self.ran("--top=1", "before", "after").said
        )
        self.assertEqual([each[2] for each in self.found(batch(20, 8), batch(80, 600), "--at-least=25")], ["100%"])
        batch(50, 300, minutes=30).write("middle")
        batch(80, 600, minutes=60).write("after")
        self.assertEqual(len(self.ran("before", "middle", "after").out.splitlines()), 2)
        for name, count in (("shop/Batch", 2), ("java/util/Batch", 2)):
            self.assertEqual(len(self.found(batch(20, 8, name), batch(80, 600, name))), count)
        self.assertEqual(len(self.found(batch(20, 600), batch(80, 600))), 1)

    def test_hidden_classes(self) -> None:
        """Names of hidden classes differ, and BEFORE may lack a class. What their fields are is said."""
        for before in (lambdas(20, "00aa"), lambdas(0, "")):
            rows = self.found(before, lambdas(80, "00bb"), "--all")
            listener = "static shop/Bus.LISTENER"
            self.assertEqual([row[-1] for row in rows[:2]], [listener, f"{listener} > shop/Bus$$Lambda.arg$1"])
        self.assertEqual(rows[0][3], "0")
        said = self.ran("--all", "before", "after").said
        self.assertIn("leaks: field shop/Bus$$Lambda.arg$1 is a variable that a lambda in shop/Bus captured: ", said)
        self.assertNotIn("lambda", self.ran("monday", "friday").said)

    def test_threads(self) -> None:
        """A local variable of a thread, also if the thread of BEFORE is another one."""
        path = 'thread "http-0" > local shop/Handler.handle'
        rows = self.found(handler(20), handler(80), "--all")
        self.assertEqual([row[-1] for row in rows[:2]], [path, 'thread "http-0"'])
        self.assertEqual([row[3] for row in rows[:2]], ["720", "743"])
        rows = self.found(handler(20, "http-7"), handler(80), "--all")
        self.assertEqual([(row[3], row[-1]) for row in rows[:2]], [("720", path), ("0", 'thread "http-0"')])

    def test_threads_of_a_pattern(self) -> None:
        """Of which threads there are more, and in which method, is said; no line is about threads of no name."""
        rows = self.found(reporters(2), reporters(12))
        self.assertEqual((rows[0][5], rows[0][6]), ("2 to 12", "local shop/Reporter.run"))
        for row in rows:
            self.assertNotRegex(row[6], '(^| )threads?($| [^"])')
        said = self.ran("--html", "page.html", "before", "after").said
        self.assertIn('leaks: 10 threads more: threads "report-*": 2, then 12; most are in shop/Reporter.run\n', said)
        words = (
            "nothing that lasts holds a quarter of what grew, alone or with two others: only new objects do, and line "
            "1 is the topmost of these"
        )
        self.assertIn(f"leaks: {words}\n", said)
        self.assertNotIn("nothing that lasts", self.ran("monday", "friday").said)
        self.assertIn("Threads by name", pathlib.Path("page.html").read_text(encoding="utf-8"))

    def test_thread_in_a_call(self) -> None:
        """Of several threads in a method it is said which gained most, or of one dump holds most; if several gained, it
        is not."""
        among = "leaks: line 1: 1 of 3 local shop/Reporter.run"
        (row,) = self.found(reporters(3), reporters(3, rows=90))
        self.assertEqual((row[-2], row[-1]), ("3", "local shop/Reporter.run"))
        thread = 'java/lang/Thread (its field name "report-3")'
        self.assertIn(f"{among} gained most: {thread}: 100%\n", self.ran("before", "after").said)
        self.assertRegex(self.ran("after").said, re.escape(f"{among} holds most: {thread}: ") + "9[0-9]%\n")
        self.found(reporters(2), reporters(12))
        self.assertNotIn("gained most", self.ran("before", "after").said)
        self.found(reporters(3, has_lists=True), reporters(3, rows=90, has_lists=True))
        self.assertIn(f"{among} gained most: {thread}: 100%\n", self.ran("before", "after").said)

    def test_together(self) -> None:
        """Static fields that hold the growth only together."""
        rows = self.found(journal(20), journal(80))
        self.assertEqual(rows[0][-1], "together static shop/Journal.EVENTS, static shop/Screen.SHOWN")

    def test_together_with_thread(self) -> None:
        """A static field and a thread that hold the growth only together."""
        both = handler(20), handler(80)
        for dump in both:
            dump.of_class(9, "shop/Journal", {"EVENTS": 5000})
            dump.heap += dump.form.root(NATIVE_STACK, 5000) + word(1)
            dump.root(9)
        rows = self.found(*both)
        self.assertEqual(rows[0][-1], 'together thread "http-0", static shop/Journal.EVENTS')

    def test_executor(self) -> None:
        """Who owns the queue, of which a worker thread knows, too. Two that own it only together say less than it."""
        rows = self.found(worker(20), worker(80), "--all")
        timer, queue = "static shop/Service.TIMER", "java/util/Executor.queue"
        self.assertEqual([row[-1] for row in rows[:2]], [timer, f"{timer} > {queue}"])
        owned_twice = [worker(count) for count in (20, 80)]
        for dump in owned_twice:
            dump.of_class(10, "shop/Screen", {"SHOWN": 605}, fields=["task"])
            dump.instance(605, 10, 600)
            dump.root(10)
        both = f"together static shop/Screen.SHOWN, {timer}"
        rows = self.found(owned_twice[0], owned_twice[1], "--all")
        self.assertEqual([row[-1] for row in rows[:2]], [f"{both} > {queue}", both])

    def test_roots(self) -> None:
        """A path that begins at a field has the roots in a message: of many threads none holds it."""
        (row,) = self.found(dispatched(20), dispatched(80))
        server = "sun/net/httpserver/ServerImpl"
        self.assertEqual(row[-1], f"java/lang/Thread.target > {server}$Task.this$0 > {server}.contexts")
        held = 'leaks: line 1: java/lang/Thread.target: held by thread "HTTP-Dispatcher" and 8 more\n'
        self.assertIn(held, self.ran("before", "after").said)
        said = self.ran("--top=2", "after").said.splitlines(True)
        self.assertEqual(said[1], held.replace("line 1", "line 2"))

    def test_running_calls(self) -> None:
        """Calls that are running do not hide what holds the growth, and what they hold is none, in whichever dump."""
        for first, last in ((cache(20), running(80)), (running(20), cache(80)), (running(20), running(80, ["a", "b"]))):
            rows = self.found(first, last)
            self.assertEqual(rows[0], ["120", "2160", "100%", "720", "2880", "1", self.PATH])
        jdk = running(80, name="java/util/Queue")
        jdk.of_class(10, "shop/Server")
        jdk.of_class(12, "[Lshop/Page;")
        jdk.array(901, 12, *[902] * 300)
        jdk.thread(9, 709, [(10, "main")])
        jdk.instance(709, 9)
        jdk.local(9, 0, 901)
        rows = self.found(running(20, name="java/util/Queue"), jdk)
        self.assertIn(["120", "2160", "47%", "720", "2880", "1", self.PATH], rows)
        self.assertIn("Calls that are running do not count", self.ran("--help").out)

    def test_calls_that_hold_little(self) -> None:
        """A call that holds less than a line must have does not keep others from being cut."""
        for size, is_cut in ((500, True), (2000, False)):
            last = running(80)
            last.values(950, BYTE, bytes(size))
            last.thread(9, 709, [(8, "load")])
            last.instance(709, 9)
            last.local(9, 0, 950)
            names = [row[-1] for row in self.found(cache(20), last)]
            self.assertEqual(self.PATH in names, is_cut, names)
            self.assertEqual("local shop/Service.load" in " ".join(names), not is_cut, names)

    def test_order(self) -> None:
        """What only moved is no line. What grew at each step comes before what is large by chance, holders before what
        leaks itself. The number of holders that changed is shown, and the help has the reasons."""
        names = [row[-1] for row in self.found(swapped(20, False), swapped(80, True))]
        self.assertEqual([names[0], "Stock" in " ".join(names)], [self.PATH, False])
        rows = self.found(emptied(0, 60, 100), emptied(60, 0, 1000), "--all")
        self.assertEqual([row[-1] for row in rows[:2]], ["static shop/Tables.ORDERS", "static shop/Pages.ALL"])
        rows = self.found(noisy(20, 900), noisy(80, 9000))
        self.assertEqual(rows[0][-1], "static shop/Pages.ALL")
        noisy(50, 100, minutes=6).write("between")
        noisy(80, 9000, minutes=12).write("after")
        lines = self.ran("before", "between", "after", "--at-least=10", "--all").out.splitlines()
        names = [columns_of(each)[-1] for each in lines]
        self.assertEqual((names[0], names[-1]), (self.PATH, "static shop/Pages.ALL"))
        payload = [columns_of(each) for each in self.ran("--all", "monday", "friday").out.splitlines()][-1]
        self.assertEqual(payload[-2:], ["20 to 80", f"{self.PATH} > shop/Order.text"])
        self.assertIn("accumulation point", self.ran("--help").out)

    def test_share_before_own(self) -> None:
        """A field of the JDK that gained far more comes before an own one."""
        both = cache(20), cache(80)
        for dump, count in zip(both, (20, 80)):
            dump.of_class(8, "java/lang/Platform", {"server": 800})
            dump.values(800, BYTE, bytes(72 * count))
            dump.root(8)
        rows = self.found(*both)
        shown = [row[2::4] for row in rows[:2]]
        self.assertEqual(shown, [["67%", "static java/lang/Platform.server"], ["33%", self.PATH]])

    def test_collections(self) -> None:
        """The field of an own class comes before that of a map which inherits from a collection of the JDK's."""
        names = [row[-1] for row in self.found(library_map(20), library_map(80), "--all")]
        top = "static shop/Service.STORE"
        self.assertEqual(names[:3], [f"{top} > shop/Store.map", top, f"{top} > shop/Store.map > lib/LargeMap.segments"])

    def test_topmost_of_what_leaks(self) -> None:
        """Of fields whose holders became more, the topmost comes first, though it has more holders."""
        rows = self.found(referents(20), referents(80), "--all")
        top = "lib/Reference.referent"
        self.assertEqual([row[-2:] for row in rows], [["50 to 110", top], ["20 to 80", f"{top} > shop/Page.text"]])

    def test_object_first(self) -> None:
        """A field of which one object of many holds most comes before what is above it."""
        baskets(20).write("before")
        baskets(80).write("after")
        ended = self.ran("before", "after")
        path = ["80", "static shop/Baskets.ALL > shop/Basket.items"]
        self.assertEqual(columns_of(ended.out.splitlines()[0])[-2:], path, ended.out + ended.said)
        # It has no name, so it is not known which one of the first dump it was.
        self.assertIn("leaks: line 1: 1 of 80 shop/Basket.items holds most: shop/Basket: 50%", ended.said)

    def test_finalizers(self) -> None:
        """What grew and only final references hold is the answer if it is most of the growth, also of a class; else it
        is said beside the lines, and on the page."""
        finalizers(20, 20).write("before")
        finalizers(80, 80, 12).write("after")
        alone = "120 objects more, 6,480 bytes more are held by {} references alone"
        ended = self.ran("before", "after")
        final = f"{alone.format('final')}, most of them java/lang/ref/Finalizer"
        self.assertIn(f"leaks: {final}: most of the growth; so these references are followed\n", ended.said)
        # Of 10,080 bytes, streams and their finalizers are 7,920.
        row = columns_of(ended.out.splitlines()[0])
        self.assertEqual(row[:5] + row[6:], ["180", "7920", "79%", "2640", "10560", self.FINALIZER])
        # The rest is the next line.
        self.assertEqual([columns_of(each)[2::4] for each in ended.out.splitlines()[1:]], [["21%", self.PATH]])
        ended = self.ran("--class", "shop/Stream", "before", "after")
        row = columns_of(ended.out.splitlines()[0])
        self.assertEqual((row[:5], row[6]), (["60", "480", "100%", "160", "640"], self.FINALIZER), ended.said)
        finalizers(80, 400, 12).write("after")
        ended = self.ran("--html", "page.html", "before", "after")
        alone = alone.format("soft, weak, final or phantom")
        self.assertIn(f"leaks: {alone}: see --weak\n", ended.said)
        self.assertEqual(columns_of(ended.out.splitlines()[0])[-1], self.PATH)
        self.assertIn(f"{alone}: see --weak.", pathlib.Path("page.html").read_text(encoding="utf-8"))

    def test_direct_buffers(self) -> None:
        """Bytes outside the heap are said if they grew, and what holds the buffers is asked if the heap grew by
        less."""
        counted = "so only objects of java/nio/DirectByteBuffer count, and shares are of their number"
        asked = f": the heap grew by less; {counted}"
        for orders, words, first in (21, asked, "Pool.BUFFERS"), (800, "", self.PATH.rpartition("shop/")[2]):
            pathlib.Path("before").write_bytes(buffers(10, 20))
            pathlib.Path("after").write_bytes(buffers(60, orders, 12))
            ended = self.ran("before", "after")
            said = "direct buffers have 2,000 bytes more outside the heap (50 buffers more): 400, then 2,400"
            self.assertIn(f"leaks: {said}{words}\n", ended.said)
            self.assertTrue(columns_of(ended.out.splitlines()[0])[-1].endswith(f"shop/{first}"), ended.out)

    def test_paths_are_true(self) -> None:
        """In `A > B`, held says that all that B holds hangs by A, and a static field is below nothing."""
        makers: Tuple[Callable[[int], Service], ...] = (cache, handler, worker, running, twofold, baskets)
        pairs = [(make(20), make(80)) for make in makers]
        weakly_held = [finalizers(80, 80)]
        pairs += [(lambdas(20, "00aa"), lambdas(80, "00bb")), (finalizers(20, 20), weakly_held[0])]
        steps = 0
        for before, after in pairs:
            for row in self.found(before, after, "--at-least=10", "--all"):
                path = row[-1].split(" > ")
                self.assertFalse(any(" static " in f" {step}" for step in path[1:]), path)
                options = ["--weak"] * (after in weakly_held)
                held = [self.ran(*options, "after", step, tool="held").out for step in path]
                amounts = [{name: int(number) for number, _, name in map(str.split, out.splitlines())} for out in held]
                for upper, lower in zip(amounts, amounts[1:]):
                    less = [name for name, number in lower.items() if upper.get(name, 0) < number]
                    self.assertEqual(less, [], path)
                    steps += 1
        self.assertGreater(steps, 8)

    def test_no_values(self) -> None:
        """With --no-values, neither the output nor the page has a text or a number that the dumps have in fields, such
        as the name of an object, an argument of the program, or a property."""
        of_customer(20).write("before")
        of_customer(80, 12).write("after")
        shown: List[str] = []
        for option in "--top=4", "--no-values":
            ended = self.ran("--html", "page.html", option, "before", "after")
            self.assertEqual(ended.status, 0, ended.said)
            shown.append(ended.out + ended.said + pathlib.Path("page.html").read_text(encoding="utf-8"))
        for text in "of alice 640", "HotSpot", "Java 1.8":
            self.assertEqual([text in shown[number] for number in (0, 1)], [True, False], text)
        self.assertEqual([text for text in ("alice", "hush", "password") if text in shown[1]], [])
        self.assertIn("(its field name)", shown[1])
        self.assertIn("shop.Baskets</code>", shown[1].replace("<wbr>", ""))
        self.assertIn("Show no text or number that the dump has in fields", " ".join(self.ran("--help").out.split()))

    def test_kin(self) -> None:
        """Fields of one class, or of one package, that hold enough only together."""
        rows = self.found(twofold(20), twofold(80))
        self.assertEqual(rows[0][-1], "together shop/Polls.publicKeys, shop/Selector.keys")
        rows = self.found(many_caches(5), many_caches(20))
        path = (
            "together static shop/Caches.CACHE_0, static shop/Caches.CACHE_1, static shop/Caches.CACHE_2 .. and 5 more"
        )
        self.assertEqual((rows[0][2], rows[0][-1]), ("100%", path))

    def test_one_program(self) -> None:
        """The same dump twice, and services on one framework with other main classes."""
        shutil.copy("friday", "copy")
        for other in ("friday", "copy"):
            self.expect(["friday", other], said=f"leaks: {other}: the same file as friday", status=1)
        for name, minutes in (("shop/Orders", 1), ("shop/Orders", 3), ("shop/Stock", 5)):
            of_main(name, minutes).write(f"{minutes}")
        self.assertEqual(self.ran("1", "3").status, 0)
        said = "leaks: 5: another program? it has the main class shop/Stock, not the shop/Orders of 1"
        self.expect(["1", "5"], said=said, status=1)

    def test_no_growth(self) -> None:
        """The whole did not grow, or nothing did."""
        moved(10).write("before")
        moved(60).write("after")
        so = "so only objects of * count, and shares are of their number"
        said = f"leaks: reachable: 816 bytes, then 816: no growth; {so}\n{self.COST}"
        self.expect(["before", "after"], line(50, 0, 100, 10, 60, 1, "static shop/Catalog.SOLD"), said)
        said = "leaks: reachable: 6,508 bytes, then 6,508: no growth"
        cache(80, minutes=15).write("later")
        self.expect(["friday", "later"], said=said, status=3)
        loaded = cache(80, minutes=16)
        loaded.of_class(9, "shop/Late")
        loaded.root(9)
        loaded.write("loaded")
        self.expect(["friday", "loaded"], said=said, status=3)
        lost = cache(80, minutes=20)
        lost.values(9000, BYTE, bytes(500))
        lost.write("lost")
        more = "1 object more, 500 bytes more are unreachable: *waiting virtual threads hold them*: see grown *"
        self.expect(["friday", "lost"], said=f"{said}; {more}", status=3)

    def test_more_than(self) -> None:
        """A growth that the user allows has no line, and status 0; more has its lines, and status 3."""
        lines = self.ran("monday", "friday").out
        self.assertNotEqual(lines, "")
        self.expect(["--more-than", "2159", "monday", "friday"], lines, self.COST, status=3)
        said = "leaks: reachable: 4,348 bytes, then 6,508: not more than 2,160 bytes more"
        self.expect(["--more-than", "2160", "--html", "page.html", "monday", "friday"], said=said)
        self.assertFalse(os.path.exists("page.html"))
        cache(80, minutes=15).write("later")
        said = "leaks: reachable: 6,508 bytes, then 6,508: not more than 0 bytes more"
        self.expect(["--more-than", "0", "friday", "later"], said=said)
        said = "leaks: shop.Order: 160 bytes, then 640: not more than 480 bytes more"
        self.expect(["--more-than", "480", "--class", "shop.Order", "monday", "friday"], said=said)
        first = self.ran("--more-than", "479", "--class", "shop.Order", "monday", "friday")
        self.assertEqual((first.status, first.out.splitlines()[0].split()[0]), (3, "60"))
        said = "leaks: --more-than: one dump shows no growth: a later one does"
        self.expect(["--more-than", "0", "friday"], said=said, status=2)

    def test_nothing_found(self) -> None:
        """What grew are roots themselves: no line, and which option may help. More is unreachable than grew: so it is
        said, too."""
        loose = cache(20, minutes=12)
        for number in range(9000, 9010):
            loose.values(number, BYTE, bytes(40))
            loose.root(number)
        loose.write("loose")
        none = "leaks: no field, local variable or thread alone holds {}% of the growth"
        self.expect(["monday", "loose"], said=f"{none.format(30)}: see --at-least\n{self.COST}")
        self.expect(["--at-least=1", "monday", "loose"], said=f"{none.format(1)}\n{self.COST}")
        loose.values(9100, BYTE, bytes(500))
        loose.write("loose")
        more = "leaks: 1 object more, 500 bytes more are unreachable: *: see grown with jmap -histo:live"
        words = ["--html", "page.html", "monday", "loose"]
        self.expect(words, said=f"{none.format(30)}: see --at-least\n{more}\n{self.COST}")
        page = pathlib.Path("page.html").read_text(encoding="utf-8")
        for said in (" in the last dump than in the first", ": garbage in dumps with -all"):
            self.assertIn(f"500 bytes more are unreachable{said}", page)

    def test_share(self) -> None:
        """A share is above 100% if what the field does not hold shrank, and the help says so. The page has the same
        share, and beside it that of the heap, which is not."""
        before, after = cache(20), cache(80)
        before.of_class(8, "shop/Old", {"ALL": 8000})
        before.values(8000, BYTE, bytes(1080))
        after.of_class(8, "shop/Old", {"ALL": 0})
        rows = self.found(before, after, "--html", "page.html")
        self.assertEqual(rows[0], ["120", "2160", "200%", "720", "2880", "1", self.PATH])
        self.assertIn("A share is above 100% if what the field does not hold shrank.", self.ran("--help").out)
        page = pathlib.Path("page.html").read_text(encoding="utf-8")
        first = re.findall('data-label="(Of the [^"]*)"(.*?)</td>', page, re.S)[:2]
        shares = {name: re.findall(">(?:[^<]* to </span>)?([0-9]+)%<", cell) for name, cell in first}
        self.assertEqual(shares, {"Of the growth": ["200"], "Of the heap": ["13", "44"]})

    def test_several(self) -> None:
        """Further dumps, up to 30 and too many."""
        cache(50, minutes=6).write("tuesday")
        ended = self.ran("monday", "tuesday", "friday")
        self.assertEqual(ended.out, self.ran("monday", "friday").out)
        names = [f"day{number}" for number in range(30)]
        for number, name in enumerate(names):
            cache(20 + number, minutes=number).write(name)
        ended = self.ran("--html", "page.html", *names)
        self.assertEqual((ended.status, ended.out.split()[-1]), (0, "shop/Cache.table"), ended.said)
        self.assertTrue(os.path.getsize("page.html"))
        self.expect(["monday", *["friday"] * 100], said="leaks: 101 dumps: at most 100", status=2)

    def test_refused(self) -> None:
        """Files that do not go together, or cannot be read."""
        pathlib.Path("cut").write_bytes(pathlib.Path("friday").read_bytes()[:-1])
        pathlib.Path("histogram").write_text(histogram((1, 16, "Order")))
        pathlib.Path("other").write_bytes(pathlib.Path("friday").read_bytes().replace(b"shop/", b"bank/"))
        os.mkfifo("pipe")
        for words, said in (
            (["friday", "monday"], "leaks: monday: wrong order? it was dumped earlier than friday"),
            (["monday", "other"], "leaks: other: another program? it has 0 of the * own classes of monday"),
            (["monday", "cut"], self.CUT),
            (["cut", "friday"], self.CUT),
            (["monday", "nowhere"], "leaks: nowhere: no such file"),
            (["monday", "no\nwhere\x1b"], r"leaks: no\x0awhere\x1b: no such file"),
            (["monday", "histogram"], "leaks: histogram: a histogram: leaks needs a dump"),
            (["monday", "pipe"], "leaks: pipe: no plain file, and leaks reads it more than once"),
            (["nowhere", "histogram"], "leaks: nowhere: no such file"),
            (["histogram", "nowhere"], "leaks: histogram: a histogram: leaks needs a dump"),
            (["cut", "nowhere"], self.CUT),
            (["/dev/stdin", "friday"], "leaks: /dev/stdin: no plain file, and leaks reads it more than once"),
        ):
            self.expect(["--html", "page.html", *words], said=said, status=1)
            self.assertEqual(sorted(name for name in os.listdir() if "page" in name), [])

    def test_words(self) -> None:
        """The help, and wrong words."""
        self.check_help("Shows what holds the objects that grew between heap dumps of one program: ")
        self.check_wrong_words([], ["--every", "monday", "friday"], ["monday", "friday", "--top", "0"], ["--class"])
        self.assertIn("required: <DUMP>: ", self.ran().said)

    def test_names_of_files(self) -> None:
        """Names that a tool or a shell may take for something else."""
        out = self.ran("monday", "friday").out
        for name in ("day=2", "two words", "*", "line\nbreak", os.fsdecode(b"\xff")):
            shutil.copy("friday", name)
            self.assertEqual(self.ran("monday", name).out, out, name)
        for name in ("--class", "-dash"):
            shutil.copy("friday", name)
            self.assertEqual(self.ran("--", "monday", name).out, out, name)

    def test_page(self) -> None:
        """The page has the figures of the lines. If it cannot be written, a line says so, and nothing is left of it."""
        out = self.ran("monday", "friday").out
        self.assertEqual(self.ran("--html", "page.html", "monday", "friday").out, out)
        page = pathlib.Path("page.html").read_text(encoding="utf-8")
        text = re.sub("<[^>]*>", "", page)
        for part in ("shop/Cache.table", "shop/Service.CACHE", "leaks --html page.html monday friday"):
            self.assertIn(part, text)
        self.assertIn('"2880"', page)
        said = "leaks: /dev/full: the page cannot be written: No space left on device"
        self.expect(["--html", "/dev/full", "monday", "friday"], out, said, 4)
        full = {"preexec_fn": lambda: resource.setrlimit(resource.RLIMIT_FSIZE, (5000, 5000))}
        said = "leaks: page.html: the page cannot be written: File too large"
        self.expect(["--html", "page.html", "monday", "friday"], out, said, 4, **full)
        self.assertEqual(pathlib.Path("page.html").read_text(encoding="utf-8"), page)
        os.remove("page.html")
        self.expect(["--html", "page.html", "monday", "friday"], out, said, 4, **full)
        self.assertEqual([name for name in os.listdir() if name not in ("monday", "friday")], [])
        for path in ("no/page.html", ".", ""):
            said = f"leaks: {path}: the page cannot be written"
            self.expect(["--html", path, "monday", "friday"], said=said, status=4)
        dump, said = pathlib.Path("monday").read_bytes(), "leaks: monday: a dump: --html wants the name of the page *"
        self.expect(["--html", "monday", "monday", "friday"], said=said, status=2)
        self.assertEqual(pathlib.Path("monday").read_bytes(), dump)

    def test_output(self) -> None:
        """Output that cannot be written, and an interrupt: neither leaves a page."""
        self.check_output(["monday", "friday"], self.ran("monday", "friday").out)
        with open("/dev/full", "wb") as full:
            ended = self.ran("--html", "page.html", "monday", "friday", stdout=full)
        self.assertEqual((ended.status, ended.said), (4, "leaks: the output cannot be written\n"))
        self.assertFalse(os.path.exists("page.html"))
        self.check_interrupt("--html", "page.html", "monday", "friday")
        self.assertFalse(os.path.exists("page.html"))

    def test_heapmark(self) -> None:
        """A retained that fails later, and programs that are missing."""
        later = self.program('[ "$(wc -l < runs)" -lt 3 ] || kill -9 $$\nexec RETAINED "$@"')
        said = "leaks: *: run [34] on * failed: signal 9"  # two begin at once
        words = ["--html", "page.html", "monday", "friday"]
        self.expect(words, said=said, status=5, variables={"RETAINED": later})
        self.assertFalse(os.path.exists("page.html"))
        said = "leaks: /nowhere cannot be run: No such file or directory: the variable HEAPMARK names it"
        self.expect(["monday", "friday"], said=said, status=5, heapmark="/nowhere")
        path = f"{os.path.dirname(sys.executable)}:/usr/bin:/bin"
        tool = pathlib.Path("alone/leaks")
        shutil.copytree(TOOLS / "heap_tools", "alone/heap_tools")
        shutil.copy(TOOLS / "leaks", tool)
        ended = self.ran("monday", "friday", tool=str(tool.resolve()), heapmark="", variables={"PATH": path})
        said = "leaks: heapmark cannot be run: No such file or directory: build heapmark with tools/build, *HEAPMARK*"
        self.assertTrue(fnmatch.fnmatchcase(ended.said.rstrip(), said), ended.said)
        said = "leaks: /bin/false: run 1 on monday failed: status 1: is it heapmark?"
        self.expect(["monday", "friday"], said=said, status=5, heapmark="/bin/false")

    def test_terminal(self) -> None:
        """A terminal shows the growth and the heads of the columns, and how far the search is."""
        ended, seen = self.on_terminal("monday", "friday", stream="stdout")
        top, heads, figures, path = seen.splitlines()[:4]
        self.assertEqual((ended.status, top), (0, "reachable 4.3 kB to 6.5 kB in 12 min"))
        self.assertEqual(heads.split(), ["objects", "bytes", "share", "before", "after", "instances", "field"])
        # Both are wider than 80 columns.
        self.assertEqual((figures.split()[-1], path), ("1", f"    {self.PATH}"), seen)
        _, seen = self.on_terminal("monday", "friday")
        parts = seen.split("\r")
        self.assertEqual(parts[0], "leaks: reading 2 dumps of 2")
        self.assertTrue(any("asking what each field holds" in part for part in parts), seen)
        self.assertTrue(parts[-1].startswith("leaks: "), seen)


class HeapBytesTest(ToolTest):
    """leaks on dumps that show the layout of their heap."""

    tool = "leaks"

    def test_arrays(self) -> None:
        """What a field gained is exact to the byte, whatever the lengths of the arrays that came."""
        before, after = (bytes_of_odd_arrays(count) for count in (100, 1001))
        for count, minutes, path in ((100, 0, "monday"), (1001, 9, "friday")):
            odd_arrays(count, minutes).written().write(path)
        ended = self.ran("monday", "friday")
        found = columns_of(ended.out.splitlines()[0])
        self.assertEqual(found, ["901", f"{after - before}", "100%", f"{before}", f"{after}", "1", "shop/Cache.field0"])


class MostFilesTest(unittest.TestCase):
    """How many dumps a command line may have, without a run."""

    def test_most(self) -> None:
        """A hundred dumps are compared, one more is refused before any is read."""
        with mock.patch("heap_tools.commands.leaks.dumps_of", side_effect=InterruptedError) as read:
            with self.assertRaises(InterruptedError):
                leaks.main(["dump"] * 100)
            self.assertEqual(len(read.call_args[0][0]), 100)
            with self.assertRaisesRegex(Fault, "^101 dumps: at most 100$"):
                leaks.main(["dump"] * 101)
            self.assertEqual(read.call_count, 1)


if __name__ == "__main__":
    unittest.main()
