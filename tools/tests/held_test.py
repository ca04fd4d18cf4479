"""Runs held on small dumps, and compares what it prints."""

import os
import pathlib
import shutil
import unittest

from tests.support.dump_writer import INT, LONG, DumpWriter
from tests.support.held_objects import threads
from tests.support.services import finalizers, handler, running
from tests.support.tool_test import ToolTest, report

KEY, VALUE = "Cache$Entry.key", "Cache$Entry.value"


def line(objects: int, size: int, name: str) -> str:
    """Returns a line of the output."""
    return f"{objects:10} {size:14}  {name}\n"


def cache() -> DumpWriter:
    """A cache has two entries and a list of two items. Each entry has a key, which the list has too, and a value, a
    list with an item of its own. The fields `value` hold two lists and two items, the fields `key` nothing. The fields
    `key`, `value` and `list` together hold all three lists and all four items."""
    dump = DumpWriter(4)
    dump.of_class(11, "Cache", fields=["first", "second", "list"])
    dump.of_class(12, "Cache$Entry", fields=["key", "value"])
    dump.of_class(13, "Item")
    dump.of_class(14, "list", fields=["first", "one"])
    dump.instance(200, 11, 201, 202, 203)
    dump.instance(201, 12, 204, 206)
    dump.instance(202, 12, 205, 207)
    dump.instance(203, 14, 204, 205)
    dump.instance(206, 14, 208, 0)
    dump.instance(207, 14, 0, 209)
    for item in (204, 205, 208, 209):
        dump.instance(item, 13)
    dump.root(11, 12, 13, 14, 200)
    return dump


def statics(id_size: int) -> DumpWriter:
    """The static field `all` of class Größe has an item. Class plain/Other has four static fields: `list` has an
    item, `first` and `second` share an item, and `all` is null. Two hidden classes of one name have an instance each,
    whose `arg$1` is an item. The last class dumps come after the instances."""
    dump = DumpWriter(id_size)
    dump.of_class(20, "Größe", {"all": 201})
    dump.of_class(21, "plain/Other", {"first": 202, "second": 202, "list": 204, "all": 0})
    dump.instance(210, 22, 205)
    dump.instance(211, 23, 206)
    for item in (201, 202, 204, 205, 206):
        dump.instance(item, 24)
    dump.of_class(22, "Shop$$Lambda$14+0x00007fee61009210", fields=["arg$1"])
    dump.of_class(23, "Shop$$Lambda$15+0x00007fee61009a10", fields=["arg$1"])
    dump.of_class(24, "Item")
    dump.of_class(25, "Cache", fields=["int_value"])
    dump.root(20, 21, 22, 23, 24, 25, 210, 211)
    return dump


class HeldTest(ToolTest):
    """held on a cache and on static fields."""

    tool = "held"
    BY_VALUE = line(2, 16, "list") + line(2, 0, "Item")
    NO_CLASS = "held: Cash.list: no class of the dump is called Cash: spell it as the report does, and in quotes"
    NO_FIELD = "held: Cache.third: Cache itself declares no such field: javap -p lists its fields; a superclass may *"

    def setUp(self) -> None:
        super().setUp()
        cache().write("cache.hprof")

    def test_fields(self) -> None:
        """Fields of instances, alone and together."""
        three, items = f"{KEY},{VALUE},Cache.list", line(4, 0, "Item")
        self.expect(["cache.hprof", VALUE], self.BY_VALUE)
        self.expect(["cache.hprof", three], items + line(3, 24, "list"))
        self.expect(["--bytes", "cache.hprof", three], line(3, 24, "list") + items)
        said = f"held: nothing is retained by {KEY}: what that leads to, if anything, is reachable another way, too"
        self.expect(["cache.hprof", KEY], said=said)

    def test_more_than(self) -> None:
        """A limit, for a script."""
        self.expect(["--more-than", "1", "cache.hprof", VALUE], self.BY_VALUE, status=3)
        self.expect(["--more-than=2", "cache.hprof", VALUE])
        self.expect(["cache.hprof", VALUE, "--more-than", "1"], self.BY_VALUE, status=3)

    def test_static_fields(self) -> None:
        """Static fields, hidden classes, letters beyond ASCII, and identifiers of both sizes."""
        other, item, none = "plain/Other", line(1, 0, "Item"), "held: nothing is retained by *"
        lambdas = "Shop$$Lambda"
        for size in (4, 8):
            statics(size).write("static.hprof")
            for fields in (
                "Größe.all",
                r"Gr\xc3\xb6\xc3\x9fe.all",
                f"{other}.first,{other}.second",
                "plain.Other.list",
                "static plain/Other.list",
                f"static {other}.list, static {other}.all",
                f"together static {other}.first, static {other}.second",
                f"static Größe.all > {other}.list",
                f"        20              0   80%         1  static {other}.list",
                f"{lambdas}$15+0x00007fee61009a10.arg$1",
                f"{lambdas}$15/0x00007fee61009a10.arg$1",
            ):
                self.expect(["static.hprof", fields], item)
            for fields in (f"{lambdas}.arg$1", f"{lambdas}$15.arg$1", f"{lambdas}$3/0x0.arg$1"):
                self.expect(["static.hprof", fields], line(2, 0, "Item"))
            self.expect(["static.hprof", f"{other}.first"], said=none)
            self.expect(["static.hprof", f"{other}.all"], said=none)
            numbers = "held: Cache.int_value: this field holds numbers, no references"
            self.expect(["static.hprof", "Cache.int_value"], said=numbers, status=6)
        self.assertNotEqual(INT, LONG)

    def test_two_of_one_name(self) -> None:
        """A class may have a static field and a field of instances with one name. A line says which it is about."""
        dump = DumpWriter()
        dump.of_class(1, "Both", {"it": 201}, fields=["it"])
        dump.of_class(2, "Item")
        dump.of_class(3, "Part")
        dump.instance(200, 1, 202)
        dump.instance(201, 2)
        dump.instance(202, 3)
        dump.root(1, 2, 3, 200)
        dump.write("both.hprof")
        for fields, out in (
            ("static Both.it", line(1, 0, "Item")),
            ("Both.it", line(1, 0, "Item") + line(1, 0, "Part")),
        ):
            self.expect(["both.hprof", fields], out)
        self.expect(["both.hprof", "static Part.it"], said="held: static Part.it: Part itself declares no *", status=6)

    def test_weak_references(self) -> None:
        """What a finalizer names, too, a field retains, unless weak references are followed."""
        dump = finalizers(1, 20)
        dump.of_class(14, "shop/Server", {"STREAM": 30000})
        dump.root(14)
        dump.write("weak.hprof")
        self.assertIn(line(1, 8, "shop/Stream"), self.ran("weak.hprof", "shop/Server.STREAM").out)
        self.assertEqual(self.ran("weak.hprof", "--weak", "shop/Server.STREAM").out, "")
        named = self.ran("weak.hprof", "java/lang/ref/Reference.referent,shop/Server.STREAM")
        self.assertIn(line(1, 8, "shop/Stream"), named.out)

    def test_thread_group(self) -> None:
        """The list of a group's threads does not hold them beside their roots."""
        dump = handler(20)
        dump.of_class(30, "java/lang/ThreadGroup", fields=["threads"])
        dump.of_class(31, "[Ljava/lang/Thread;")
        dump.of_class(32, "shop/Server", {"GROUP": 900})
        dump.instance(900, 30, 901)
        dump.array(901, 31, 700)
        dump.root(32)
        dump.write("group.hprof")
        for words in ('thread "http-0"', 'threads "http-*"'):
            names = [each.split()[-1] for each in self.ran("group.hprof", words).out.splitlines()]
            self.assertIn("java/lang/Thread", names)
            self.assertIn("shop/Order", names)

    def test_threads(self) -> None:
        """Local variables and threads, as lines of holders and leaks have them: without the class of an array, which is
        never unloaded."""
        threads().write("threads.hprof")
        served = line(5, 0, "Message") + line(1, 40, "[LMessage;")
        for end in ("local com/shop/Server.serve", 'thread "http-0" > local com/shop/Server.serve'):
            for begin in ("", "         5              0   62%         1  ", "  5    0   62%     0     5    1  "):
                self.expect(["threads.hprof", begin + end], served)
        self.expect(["threads.hprof", "local com/shop/Worker.take"], line(2, 0, "Message"))
        ended = self.ran("threads.hprof", '        6   0   75%   1  thread "http-0"')
        self.assertIn(line(6, 0, "Message"), ended.out)
        self.assertIn(line(6, 0, "Message"), self.ran("threads.hprof", 'threads "http-*"').out)
        kinds = (
            ("local", "A.f", "local variable"),
            ("thread", '"http, 1"', "thread"),
            ("threads", '"a-*"', "group of threads"),
        )
        for kind, name, noun in kinds:
            said = f"held: {kind} {name}: no {noun} of the dump has this name"
            self.expect(["threads.hprof", f"{kind} {name}"], said=said, status=6)

    def test_nameless_threads(self) -> None:
        """Threads without a name, as holders and leaks call them."""
        handler(20, "").write("nameless.hprof")
        for words in ("thread", 'thread ""', "threads without a name", " 20  160  62%  1  thread"):
            self.assertIn(line(20, 160, "shop/Order"), self.ran("nameless.hprof", words).out, words)
        handler(20).write("named.hprof")
        said = "held: thread: no thread of the dump has this name"
        self.expect(["named.hprof", "thread"], said=said, status=6)

    def test_running_calls(self) -> None:
        """A call that runs hides nothing; but what is reachable only through its local variables fields retain."""
        running(20).write("running.hprof")
        self.assertIn(line(20, 160, "shop/Order"), self.ran("running.hprof", "shop/Cache.table").out)
        handler(20).write("handler.hprof")
        self.assertEqual(self.ran("handler.hprof", "shop/Order.text").out.split()[:3], ["20", "400", "byte[]"])
        self.assertIn("Calls that are running do not count", self.ran("--help").out)
        # Another thread is in a call whose local variable leads to the same orders as a thread's own.
        busy = handler(20)
        busy.of_class(9, "shop/Service")
        busy.thread(2, 710, [(9, "run")])
        busy.local(2, 0, 5000)
        busy.instance(710, 6, 0)
        busy.write("busy.hprof")
        for entry in ('thread "http-0"', 'threads "http-*"', "local shop/Handler.handle"):
            self.assertIn(line(20, 160, "shop/Order"), self.ran("busy.hprof", entry).out, entry)
        both = self.ran("handler.hprof", 'together static shop/Catalog.ALL, thread "http-0"')
        self.assertIn(line(20, 160, "shop/Order"), both.out)
        self.assertIn(line(100, 800, "shop/Product"), both.out)
        for text in ("  5  0  62%  0  5  2 to 30  ", "static A.b > "):
            words = ["running.hprof", f"{text}together a.b, c.d"]
            self.expect(words, said="held: a.b: no class *\nheld: c.d: no class *", status=6)
            words[1] += " .. and 3 more"
            self.expect(words, said=f"held: {words[1]}: the line names not all of these fields: *--json*", status=2)

    def test_no_such_name(self) -> None:
        """Names that match nothing, and what may have been meant."""
        self.expect(["cache.hprof", "Cash.list"], said=self.NO_CLASS, status=6)
        self.expect(["cache.hprof", "Cache.third"], said=self.NO_FIELD, status=6)
        self.expect(["--more-than", "1", "cache.hprof", "Cache.third"], said=self.NO_FIELD, status=6)
        self.expect(["cache.hprof", f"Cache.third,{VALUE}"], self.BY_VALUE, self.NO_FIELD, 6)
        self.expect(["cache.hprof", f"{VALUE},Cash.list", "--more-than", "0"], self.BY_VALUE, self.NO_CLASS, 3)
        both = f"{self.NO_CLASS}\n{self.NO_FIELD}"
        self.expect(["cache.hprof", "Cash.list,Cache.third"], said=both, status=6)
        statics(8).write("static.hprof")
        said = "held: Other.list: no class of the dump is called Other: did you mean plain/Other?"
        self.expect(["static.hprof", "Other.list"], said=said, status=6)
        said = "held: Shop.arg$1: no class of the dump is called Shop: did the shell take a $ away? quote the name"
        self.expect(["static.hprof", "Shop.arg$1"], said=said, status=6)

    def test_names_of_files(self) -> None:
        """Names that heapmark or a shell may take for something else."""
        for name in ("day=2.hprof", "two words", "*"):
            shutil.copy("cache.hprof", name)
            self.expect([name, VALUE], self.BY_VALUE)
        for name in ("--bytes", "-dash.hprof"):
            shutil.copy("cache.hprof", name)
            self.expect(["--", name, VALUE], self.BY_VALUE)
        said = "held: -a.b: no class of the dump is called -a: *"
        self.expect(["--", "cache.hprof", "-a.b"], said=said, status=6)
        self.expect(["cache.hprof", r"Cache.\c"], said=r"held: Cache.\c: Cache itself declares no *", status=6)

    def test_refused(self) -> None:
        """Files and lists that are refused, and wrong words."""
        pathlib.Path("cut.hprof").write_bytes(pathlib.Path("cache.hprof").read_bytes()[:200])
        said = "held: cut.hprof: ends too early: still being written, or cut (refused 3 Truncated at *)"
        self.expect(["cut.hprof", VALUE], said=said, status=1)
        self.expect(["nowhere", VALUE], said="held: nowhere: no such file", status=1)
        self.expect(["/dev/null", VALUE], said="held: /dev/null: no plain file*", status=1)
        for fields in ("referent", os.fsdecode(b"a.\377"), ""):
            self.expect(["cache.hprof", fields], said="held: *: no list of *", status=2)
        said = "held: cut.hprof: a file: leaks cache.hprof cut.hprof shows what grew, and what holds it"
        self.expect(["cache.hprof", "cut.hprof"], said=said, status=2)
        right = ["cache.hprof", VALUE]
        self.check_wrong_words([], right[:1], [*right, VALUE], ["--number", *right], [*right, "--more-than"])
        self.check_help("Shows what some fields of a heap dump retain: ")

    def test_programs(self) -> None:
        """heapmark reads the dump, and then retained. Each may end early, or be missing."""
        other = self.program('exec HEAPMARK "$@"')
        self.expect(["cache.hprof", VALUE], self.BY_VALUE, heapmark=other, variables={"GLIBC_TUNABLES": "a=1"})
        asked = "".join(f"a=1 {each}\n" for each in (f"--skip={VALUE} -- /dev/null", "-- cache.hprof"))
        self.assertEqual(pathlib.Path("runs").read_text(), asked)
        later = {"RETAINED": self.program('cat "$3" > /dev/null\nexit 1')}
        said = "held: */other: run 1 on cache.hprof failed: status 1: is it retained?"
        self.expect(["cache.hprof", VALUE], said=said, status=5, variables=later)
        said = "held: /nowhere cannot be run: No such file or directory: the variable HEAPMARK names it"
        self.expect(["cache.hprof", VALUE], said=said, status=5, heapmark="/nowhere")
        said = "held: /nowhere cannot be run: No such file or directory: the variable RETAINED names it"
        self.expect(["cache.hprof", VALUE], said=said, status=5, variables={"RETAINED": "/nowhere"})
        self.check_interrupt("cache.hprof", VALUE)

    def test_output(self) -> None:
        """What cannot be written."""
        self.check_output(["cache.hprof", VALUE], self.BY_VALUE)
        self.expect(["cache.hprof", VALUE], self.BY_VALUE, variables={"TMPDIR": "/nowhere"})


if __name__ == "__main__":
    unittest.main()
