"""Runs leaks on one small dump, and compares what it prints."""

import json
import pathlib
import unittest

from tests.support.dump_writer import BYTE
from tests.support.outline import Outline
from tests.support.services import add_capacity, batch, buffers, cache, finalizers, handler, of_customer
from tests.support.tool_test import ToolTest

SECOND = "leaks: one dump shows what is held, not what is more than usual: a second one, taken later, shows that"
WORDS_OF_GROWTH = ("grew", "gained", "more than before")


def line(objects: int, size: int, share: int, instances: int, path: str) -> str:
    """Returns a line of the output."""
    return f"{objects:10} {size:14} {share:4}% {instances:9}  {path}\n"


class LeaksOfOneTest(ToolTest):
    """leaks DUMP"""

    tool = "leaks"
    TABLE = line(801, 14400, 80, 1, "static shop/Service.CACHE > shop/Cache.table")
    CATALOG = line(201, 3600, 20, 1, "static shop/Catalog.ALL")
    CACHE = line(802, 14412, 80, 1, "static shop/Service.CACHE")
    TEXT = line(400, 8000, 44, 400, "static shop/Service.CACHE > shop/Cache.table > shop/Order.text")

    def test_lines(self) -> None:
        """Line 1 is the accumulation point, with its path; messages say how full the heap is, and what line 1 holds."""
        cache(400).write("cache.hprof")
        said = [
            "leaks: 18.0 kB are reachable, in 1,010 objects",
            "leaks: line 1: shop/Cache.table: 400 elements",
            "leaks: line 2: static shop/Catalog.ALL: 100 elements",
            "leaks: line 1 holds 400 byte[[]] (8.0 kB), 400 shop/Order (3.2 kB), 1 [[]Ljava/lang/Object; (3.2 kB)",
            SECOND,
            "leaks: * fields, * run of heapmark and * of retained, * s",
        ]
        self.expect(["cache.hprof"], self.TABLE + self.CATALOG, "\n".join(said))
        about = "\n".join([said[0], said[1], said[3]])
        more = f"{about}\nleaks: 20% of 18,028 bytes are in no line: see --top\n*"
        self.expect(["--top", "1", "cache.hprof"], self.TABLE, more)
        more = f"{about}\nleaks: 2 more hold 20% or more: see --top\n*"
        self.expect(["--all", "--top", "1", "cache.hprof"], self.TABLE, more)
        self.assertEqual(self.ran("--all", "cache.hprof").out, self.TABLE + self.CACHE + self.TEXT)
        none = (
            f"{said[0]}\nleaks: no field, local variable or thread alone holds 90% of 18,028 bytes: see --at-least\n*"
        )
        self.expect(["cache.hprof", "--at-least", "90"], "", none)

    def test_calls_with_little(self) -> None:
        """What only a running call holds is a line if it is a tenth of the heap, after what fields hold."""
        for size, count in ((2500, 3), (1500, 2)):
            batch(400, size).write("batch.hprof")
            ended = self.ran("batch.hprof")
            rows = ended.out.splitlines()
            shares = [int(each.split("%")[0][-3:]) for each in rows]
            self.assertEqual(shares, {3: [70, 18, 12], 2: [74, 18]}[count])
            self.assertEqual("local shop/Batch.run > shop/Row.text" in rows[-1], count == 3)
            self.assertEqual(ended.said.count("leaks: local shop/Batch.run is of thread without a name"), count == 3)

    def test_second(self) -> None:
        """What holds a tenth of what line 1 leaves is the second line, and nothing is said to have grown."""
        handler(200).write("handler.hprof")
        ended = self.ran("handler.hprof")
        path = 'thread "http-0" > local shop/Handler.handle'
        lines = line(401, 7200, 66, 1, path) + line(201, 3600, 33, 1, "static shop/Catalog.ALL")
        self.assertTrue(ended.out.startswith(lines), ended.out)
        for word in WORDS_OF_GROWTH:
            self.assertNotIn(word, ended.out + ended.said)
        self.assertIn('leaks: local shop/Handler.handle is of thread "http-0" in shop/Handler.handle\n', ended.said)

    def test_thread_above_local(self) -> None:
        """A thread that holds no more than its local variable stands above it."""
        dump = handler(200)
        dump.root(700)
        dump.write("rooted.hprof")
        lines = self.ran("rooted.hprof", "--all").out.splitlines()
        self.assertEqual(lines[0], line(401, 7200, 66, 1, "local shop/Handler.handle").rstrip("\n"))
        text = line(200, 4000, 37, 200, 'thread "http-0" > local shop/Handler.handle > shop/Order.text')
        self.assertIn(text.rstrip("\n"), lines)

    def test_class(self) -> None:
        """The objects of one class, by their number; and classes of which none is reachable."""
        cache(400).write("cache.hprof")
        held = line(400, 3200, 100, 1, "static shop/Service.CACHE > shop/Cache.table")
        self.expect(["cache.hprof", "--class", "shop.Order", "--objects"], held, "*")
        for name, spelt in (("shop/None", "shop/None"), ("", "''")):
            said = f"leaks: {spelt}: no class of the dump *"
            self.expect(["cache.hprof", "--class", name], said=said, status=6)
            cache(20).write("before.hprof")
            self.expect(["before.hprof", "cache.hprof", "--class", name], said=said, status=6)
        dump = cache(4)
        dump.of_class(10, "shop/Ghost")
        dump.write("ghost.hprof")
        said = "leaks: shop/Ghost: the dump has no object of it"
        self.expect(["ghost.hprof", "--class", "shop/Ghost"], said=said, status=3)

    def test_object(self) -> None:
        """Of many the object that holds most, by a text that --no-values hides."""
        of_customer(400).write("one.hprof")
        for words, name in (["one.hprof"], 'name "of alice 640"'), (["--no-values", "one.hprof"], "name"):
            said = f"leaks: line 1: 1 of 80 shop/Basket.items holds most: shop/Basket (its field {name}): 84%\n"
            ended = self.ran(*words)
            self.assertIn(said, ended.said)
            self.assertIn("80  static shop/Baskets.ALL > shop/Basket.items\n", ended.out.splitlines(True)[0])
            self.assertEqual("alice" in ended.said, name.endswith('"'))

    def test_object_on_page(self) -> None:
        """The end of the path on the page has the object's share of the heap: its share of the line, of that of the
        line, which holds less than all."""
        of_customer(400).write("one.hprof")
        ended = self.ran("--html", "page.html", "--json", "one.hprof")
        found = json.loads(ended.out)
        line = found["lines"][0]
        (one,) = line["objects"]["objects"]
        share = one["share_percent"] * line["share_percent"] / 100
        self.assertLess(share + 3, one["share_percent"])
        text = Outline(pathlib.Path("page.html").read_text(encoding="utf-8")).text().replace("\u00a0", " ")
        self.assertRegex(text, rf'1 of 80 shop/Basket its field name "of alice 640" [0-9.]+ kB {share:.0f}%')

    def test_ran_out(self) -> None:
        """The thread on whose stack the error's constructor is on top."""
        dump = handler(20)
        dump.of_class(9, "java/lang/OutOfMemoryError")
        dump.thread(2, 710, [(9, "<init>"), (4, "grow"), (8, "handle"), (8, "serve")])
        dump.instance(710, 6, 701)
        dump.write("oom.hprof")
        said = self.ran("oom.hprof").said
        self.assertIn('leaks: memory ran out in thread "http-0" in shop/Handler.handle, shop/Handler.serve\n', said)
        self.assertNotIn("of the heap is in use", said)
        add_capacity(dump, 20_000)
        dump.write("large.hprof")
        said = self.ran("large.hprof").said
        self.assertIn(
            "leaks: only 22% of the heap is in use: [Ljava/lang/Object;.grow asked for one array that is", said
        )

    def test_other_memory(self) -> None:
        """What weak references hold, direct buffers, and what is unreachable: if it is much."""
        finalizers(200, 20).write("weak.hprof")
        followed = (
            "leaks: 400 objects, 21.6 kB are held by final references alone, most of them java/lang/ref/Finalizer: "
        )
        followed += "most of the heap; so these references are followed"
        pathlib.Path("direct.hprof").write_bytes(buffers(60, 20))
        garbage = cache(20)
        garbage.values(90000, BYTE, bytes(900))
        garbage.write("garbage.hprof")
        finalizers(20, 400).write("few.hprof")
        for name, said in (
            ("weak", followed),
            ("direct", "leaks: 60 direct buffers have 2.4 kB outside the heap"),
            ("garbage", "leaks: 900 bytes more are unreachable: garbage in dumps with -all*"),
            ("few", "leaks: only soft, weak, final or phantom references hold * more: see --weak"),
        ):
            self.expect([f"{name}.hprof"], self.ran(f"{name}.hprof").out, f"*\n{said}\n*")
        small = cache(400)
        small.values(90000, BYTE, bytes(90))
        small.write("small.hprof")
        self.assertNotIn("unreachable", self.ran("small.hprof").said)

    def test_page(self) -> None:
        """--html writes a page of one dump."""
        cache(400).write("cache.hprof")
        ended = self.ran("--html", "page.html", "cache.hprof")
        page = Outline(pathlib.Path("page.html").read_text(encoding="utf-8")).text()
        self.assertEqual((ended.status, ended.out), (0, self.TABLE + self.CATALOG))
        self.assertIn("CACHE", page)
        for word in WORDS_OF_GROWTH:
            self.assertNotIn(word, page)
        self.expect(["--html", "cache.hprof", "cache.hprof"], said="leaks: cache.hprof: a dump: --html *", status=2)

    def test_refused(self) -> None:
        """Files that are no dump."""
        pathlib.Path("report").write_text("no dump")
        self.expect(["report"], said="leaks: report: no * (refused 1 BadHeader at 0)", status=1)
        self.expect(["none.hprof"], said="leaks: none.hprof: no such file", status=1)

    def test_terminal(self) -> None:
        """On a terminal there are heads above the lines, and a path that does not fit is below its figures."""
        cache(400).write("cache.hprof")
        _, seen = self.on_terminal("cache.hprof", stream="stdout")
        heads = f"{'objects':>10} {'bytes':>14} share instances  field\n"
        table = self.TABLE.replace("  static", "\n    static")
        self.assertEqual(seen, heads + table + self.CATALOG)


if __name__ == "__main__":
    unittest.main()
