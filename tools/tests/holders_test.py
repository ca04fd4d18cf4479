"""Runs holders on small dumps, and compares what it prints."""

import os
import pathlib
import subprocess
import unittest
from typing import List, Union

from tests.support.dump_writer import BYTE, DumpWriter
from tests.support.held_objects import DUMPS, shop
from tests.support.tool_test import HEAPMARK, ToolTest, histogram


def line(objects: int, size: int, share: int, holders: int, text: str) -> str:
    """Returns a line of the output."""
    return f"{objects:10} {size:14} {share:4}% {holders:9}  {text}\n"


def without_statics(rest: int, whole: Union[int, str], what: str, fields: str = "*") -> str:
    """Returns a pattern for the last message."""
    hold = f"threads or the virtual machine hold {rest} of {whole} {what} without any static field"
    return f"holders: {hold}; {fields} of heapmark and * of retained"


class HoldersTest(ToolTest):
    """holders on small dumps."""

    tool = "holders"
    ORDERS = line(20, 0, 80, 1, "static Shop.CACHE") + line(20, 0, 80, 1, "Cache.table")
    WHOLE = line(23, 216, 70, 1, "static Shop.CACHE") + line(21, 200, 65, 1, "Cache.table")

    def setUp(self) -> None:
        super().setUp()
        for name, dump in DUMPS.items():
            dump.write(f"{name}.hprof")

    def test_lines(self) -> None:
        """Lines with CLASS and without, by both sizes of identifiers."""
        of_bytes, none = without_statics(92, 308, "bytes"), "holders: no field, local variable or thread alone holds "
        smaller = self.WHOLE + line(1, 40, 13, 1, "java/lang/Thread.orders")
        first = self.WHOLE.split("\n")[0] + "\n"
        half = line(23, 108, 69, 1, "static Shop.CACHE") + line(21, 100, 64, 1, "Cache.table")
        both = line(9, 0, 90, 2, "together static Journal.EVENTS, static Screen.SHOWN")
        late = line(2, 16, 100, 1, "static List.HEAD") + line(1, 8, 50, 2, "Node.next")
        for words, out, said in (
            (["shop.hprof", "Order"], self.ORDERS, without_statics(5, 25, "objects of Order")),
            (["shop4.hprof", "Order"], self.ORDERS, without_statics(5, 25, "objects of Order")),
            (["shop.hprof"], self.WHOLE, of_bytes),
            (["shop4.hprof"], half, without_statics(48, 156, "bytes")),
            (["shop.hprof", "--at-least", "10"], smaller, of_bytes),
            (["--at-least", "70", "shop.hprof"], first, of_bytes),
            (["shop.hprof", "--top=1"], first, f"holders: 1 more holds 20% or more: see --top\n{of_bytes}"),
            (["shop.hprof", "--at-least=90"], "", f"{none}90% of 308 bytes: see --at-least\n{of_bytes}"),
            (["journal.hprof", "Event"], both, without_statics(0, 10, "objects of Event")),
            (["none.hprof"], "", f"{none}20% of 0 bytes*\n{without_statics(0, 0, 'bytes', '0 fields, *')}"),
            (["late.hprof", "Node"], late, without_statics(0, 2, "objects of Node")),
        ):
            self.expect(words, out, said)

    def test_roots(self) -> None:
        """Objects that are roots themselves: no option helps."""
        dump = DumpWriter()
        dump.of_class(1, "Order")
        dump.instance(200, 1)
        dump.root(200)
        dump.write("roots.hprof")
        none = "holders: no field, local variable or thread alone holds 10% of 1 object of Order: they are roots *"
        self.expect(["roots.hprof", "Order"], said=f"{none}\n{without_statics(1, 1, 'object of Order')}")

    def test_threads(self) -> None:
        """Local variables and threads hold objects, too."""
        lines = line(5, 0, 62, 1, "local com/shop/Server.serve")
        mine = line(6, 0, 75, 1, 'thread "http-0"') + lines
        self.expect(["--at-least", "50", "threads.hprof", "Message"], mine, without_statics(8, 8, "objects of Message"))
        worker = line(2, 0, 25, 2, "local com/shop/Worker.take") + line(1, 0, 12, 1, 'thread "http-ü"')
        ended = self.ran("threads.hprof", "Message")
        for each in (mine + worker).splitlines():
            self.assertIn(each, ended.out.splitlines())

    def test_arrays(self) -> None:
        """Shares of arrays are those of bytes: by number, the catalog would hold 90 %."""
        upload = line(10, 10000, 92, 1, "static Upload.CHUNKS")
        said = without_statics(0, "10,900", "bytes of byte[[]]")
        self.expect(["--at-least", "50", "arrays.hprof", "byte[]"], upload, said)
        ended = self.ran("--at-least", "50", "--bytes", "arrays.hprof", "[[B")
        self.assertEqual(ended.out.splitlines()[0], line(1, 720, 90, 1, "static Catalog.ALL").rstrip())

    def test_weak(self) -> None:
        """What weak references hold, by default and with --weak."""
        weakly, followed = ["weak.hprof", "Order"], line(1, 0, 100, 2, "java/lang/ref/Reference.referent")
        only = "holders: Order: only soft, weak, final or phantom references *"
        self.expect(weakly, said=only, status=7)
        self.expect(["--weak", *weakly], followed, without_statics(1, 1, "object of Order"))

    def test_no_object(self) -> None:
        """No object of a class is reachable, or in the dump."""
        self.expect(["shop.hprof", "Ghost"], said="holders: Ghost: the dump has no object of it", status=3)
        dump = shop()
        dump.of_class(10, "Lost")
        dump.of_class(11, "[LLost;")
        dump.instance(600, 10)
        dump.array(601, 11, 600)
        dump.write("lost.hprof")
        for name in ("Lost", "[LLost;"):
            why = "no object of it is reachable, but 1 is in the dump: *waiting virtual threads*"
            said = f"holders: {name.replace('[', '[[]')}: {why}"
            self.expect(["lost.hprof", name], said=said, status=3)

    def test_unreachable(self) -> None:
        """Much is unreachable."""
        dump = shop()
        dump.values(700, BYTE, bytes(100))
        dump.write("lost.hprof")
        said = "holders: 100 bytes more are unreachable: *waiting virtual threads*"
        self.expect(["lost.hprof"], self.WHOLE, f"{said}\n{without_statics(92, 308, 'bytes')}")

    def test_no_class(self) -> None:
        """No class has the name, and what may have been meant."""
        odd, shop_dump = "odd.hprof", "shop.hprof"
        for words, why in (
            ([shop_dump, "Goat"], "spell it as the report does, and in quotes"),
            ([odd, "Part"], "did you mean java/Part?"),
            ([odd, "shop.Part"], "did you mean java/Part?"),
            ([odd, ""], "*"),
        ):
            said = f"holders: {words[1] or repr('')}: no class of the dump has this name: {why}"
            self.expect(words, said=said, status=6)
        dump = DumpWriter()
        dump.of_class(1, "com/shop/Cache$Order")
        dump.write("inner.hprof")
        why = "no class of the dump has this name: did the shell take a $ away? quote the name"
        said = f"holders: com.shop.Cache: {why}"
        self.expect(["inner.hprof", "com.shop.Cache"], said=said, status=6)

    def test_names(self) -> None:
        """Names as a user may write them, and the lines that they lead to."""
        hidden = line(2, 16, 50, 1, "static Bus.f10") + line(2, 16, 50, 1, "static Bus.f11")
        hidden += line(2, 16, 50, 4, "Bus$$Lambda.next")
        twins = line(2, 16, 50, 1, "static Bus.f12") + line(2, 16, 50, 1, "static Bus.f13")
        twins += line(2, 16, 50, 6, "Twin.next")
        beyond = line(2, 16, 100, 1, "static Bus.f14") + line(1, 8, 50, 2, r"caf\xc3\xa9\x20au\x20lait.next")
        backslash = line(2, 16, 100, 1, "static Bus.f15") + line(1, 8, 50, 2, r"a.b\x5cc.next")
        for out, names in (
            (hidden, ["Bus$$Lambda$1+0x0a", "Bus$$Lambda$2+0xff", "Bus$$Lambda", "Bus$$Lambda$1"]),
            (twins, ["Twin"]),
            (beyond, ["caf\u00e9 au lait", r"caf\xc3\xa9\x20au\x20lait"]),
            (backslash, [r"a.b\c", r"a.b\x5cc"]),
            (line(1, 0, 100, 1, "static ?0x3.MINE"), ["?0x3"]),
            (line(2, 0, 100, 1, "static java/Other.PARTS"), ["java.Part", "java/Part"]),
        ):
            for name in names:
                self.expect(["odd.hprof", name], out, "* without any static field; *")

    def test_largest_share_first(self) -> None:
        """A static field with a small share comes after fields with a larger one, though these have more holders; and
        --top cuts only what is printed."""
        dump = DumpWriter()
        dump.of_class(1, "shop/Catalog", {"ALL": 300})
        dump.of_class(2, "shop/Desk", {"DESKS": 400}, fields=["open"])
        dump.of_class(3, "[Lshop/Order;")
        dump.of_class(4, "shop/Order")
        dump.of_class(5, "[Lshop/Desk;")
        dump.array(300, 3, *range(1000, 1020))
        dump.array(400, 5, 401, 402, 403)
        for desk in (401, 402, 403):
            dump.instance(desk, 2, desk + 100)
            dump.array(desk + 100, 3, *range(100 * desk, 100 * desk + 25))
        for order in [*range(1000, 1020), *(100 * desk + number for desk in (401, 402, 403) for number in range(25))]:
            dump.instance(order, 4)
        dump.root(1, 2)
        dump.write("desks.hprof")
        lines = line(75, 0, 79, 1, "static shop/Desk.DESKS") + line(75, 0, 79, 3, "shop/Desk.open")
        last = line(20, 0, 21, 1, "static shop/Catalog.ALL")
        self.expect(["desks.hprof", "shop/Order"], lines + last, "*")
        said = "holders: 1 more holds 10% or more: see --top\n*"
        self.expect(["desks.hprof", "--top", "2", "shop/Order"], lines, said)

    def test_own_first(self) -> None:
        """At the same number of holders, own classes come before those of the JDK."""
        dump = DumpWriter()
        dump.of_class(1, "java/util/Timer", {"QUEUE": 200})
        dump.of_class(2, "shop/Queue", fields=["tasks"])
        dump.of_class(3, "[LTask;")
        dump.of_class(4, "Task")
        dump.instance(200, 2, 201)
        dump.array(201, 3, 300)
        dump.instance(300, 4)
        dump.root(1)
        dump.write("own.hprof")
        lines = line(1, 0, 100, 1, "shop/Queue.tasks") + line(1, 0, 100, 1, "static java/util/Timer.QUEUE")
        self.expect(["own.hprof", "Task"], lines, "*")

    def test_thread_after_own_field(self) -> None:
        """A thread comes after an own field with the same share, before one by which it holds less, and before fields
        of the JDK."""
        for waiting, names in (
            (40, ["shop/Mailer.waiting", 'thread "mailer"', "java/lang/Thread.target"]),
            (37, ['thread "mailer"', "java/lang/Thread.target", "shop/Mailer.waiting"]),
        ):
            dump = DumpWriter()
            dump.of_class(1, "java/lang/Thread", fields=["name", "target"])
            dump.of_class(2, "java/lang/String", fields=["value", "coder"])
            dump.of_class(3, "shop/Mailer", fields=["waiting", "sent"])
            dump.of_class(4, "[Lshop/Letter;")
            dump.of_class(5, "shop/Letter")
            dump.thread(1, 700, [(3, "run")])
            dump.instance(700, 1, 701, 600)
            dump.instance(701, 2, 702, b"\0")
            dump.values(702, BYTE, b"mailer")
            dump.instance(600, 3, 601, 602)
            letters = range(1000, 1040)
            dump.array(601, 4, *letters[:waiting])
            dump.array(602, 4, *letters[waiting:])
            for letter in letters:
                dump.instance(letter, 5)
            dump.write("mailer.hprof")
            lines = self.ran("mailer.hprof", "shop/Letter").out.splitlines()
            self.assertEqual([each.split(None, 4)[4] for each in lines], names)

    def test_files(self) -> None:
        """Names of files that a tool may take for something else, and files that cannot be read many times."""
        dump, said = pathlib.Path("shop.hprof").read_bytes(), without_statics(5, 25, "objects of Order")
        for name in ("two words", "*", "day=2", "line\nbreak", os.fsdecode(b"\xff.hprof")):
            pathlib.Path(name).write_bytes(dump)
            self.expect([name, "Order"], self.ORDERS, said)
        for name in ("--weak", "-dash.hprof"):
            pathlib.Path(name).write_bytes(dump)
            self.expect(["--", name, "Order"], self.ORDERS, said)
        with open("shop.hprof", "rb") as file:
            self.expect(["/dev/stdin", "Order"], self.ORDERS, said, stdin=file)
        pathlib.Path("cut.hprof").write_bytes(dump[:-1])
        pathlib.Path("empty.hprof").write_bytes(b"")
        pathlib.Path("histogram").write_text(histogram((1, 16, "Order")))
        os.mkfifo("pipe")
        plain = "no plain file, and holders reads it more than once"
        for name, why in (
            ("cut.hprof", "holders: cut.hprof: ends too early: still being written, or cut (refused 3 Truncated at *)"),
            ("empty.hprof", "holders: empty.hprof: empty: still being written, * (refused 1 BadHeader at 0)"),
            ("nowhere", "holders: nowhere: no such file"),
            ("histogram", "holders: histogram: a histogram: holders needs a dump"),
            ("pipe", f"holders: pipe: {plain}"),
            (".", f"holders: .: {plain}"),
            ("/dev/null", f"holders: /dev/null: {plain}"),
        ):
            self.expect([name, "Order"], said=why, status=1)

    def test_command_line(self) -> None:
        """Options after operands, words that are wrong, and two dumps."""
        said = without_statics(5, 25, "objects of Order")
        for words in (
            ["shop.hprof", "Order", "--at-least=10"],
            ["shop.hprof", "--top", "5", "Order"],
            ["--at-least", "010", "--", "shop.hprof", "Order"],
        ):
            self.expect(words, self.ORDERS, said)
        self.check_wrong_words([], ["a", "b", "c"], ["--all", "shop.hprof"], ["--at-least"])
        self.check_wrong_words(["--weak=yes", "shop.hprof"])
        numbers = ("0", "101", "", "-1", "1_0", " 5", "ten", "\u0665")
        self.check_wrong_words(*(["shop.hprof", "--at-least", wrong] for wrong in numbers))
        self.check_wrong_words(["shop.hprof", "--top=0"], ["shop.hprof", "--top", "2.5"])
        why = "holders: shop4.hprof: a file: leaks shop.hprof shop4.hprof shows what grew, and what holds it"
        self.expect(["shop.hprof", "shop4.hprof"], said=why, status=2)
        self.check_help("Shows what holds the objects of a class in a heap dump: ")

    def test_programs(self) -> None:
        """A heapmark or a retained that is missing, that ends early, or that is another program; and dumps that
        change."""
        for text, ended in (
            ("kill -15 $$", "run 1 on shop.hprof failed: signal 15"),
            ("echo 1 2 3", "run 1 on shop.hprof failed: no report: is it heapmark?"),
            ("printf '\\377\\n'", "run 1 on shop.hprof failed: no report: is it heapmark?"),
            ("exit 1", "run 1 on shop.hprof failed: status 1: is it heapmark?"),
        ):
            self.expect(["shop.hprof"], said=f"holders: *: {ended}", status=5, heapmark=self.program(text))
        later = 'cat "$3" > text\n[ "$(wc -l < runs)" -lt 2 ] || '
        for text, ended in (
            (f"{later}exit 0\nexec RETAINED -- $2 text", "run 2 on shop.hprof failed: no table"),
            (f"{later}kill -9 $$\nexec RETAINED -- $2 text", "run 2 on shop.hprof failed: signal 9"),
            ("exit 1", "run 1 on shop.hprof failed: status 1: is it retained?"),
            ("exec yes", "run 1 on shop.hprof failed: no table: is it retained?"),
        ):
            words, variables = ["--weak", "shop.hprof"], {"RETAINED": self.program(text)}
            self.expect(words, said=f"holders: *: {ended}", status=5, variables=variables)
        self.expect(["shop.hprof"], said="holders: /nowhere cannot be run: No such *", status=5, heapmark="/nowhere")
        no_program = os.path.abspath("shop.hprof")
        self.expect(["shop.hprof"], said="holders: *shop.hprof cannot be run: *", status=5, heapmark=no_program)
        shop().write("short.hprof")
        for variables in (
            {"HEAPMARK": self.program("HEAPMARK $@; truncate -s 1000 short.hprof")},
            {"RETAINED": self.program("truncate -s 1000 short.hprof; exec RETAINED $@")},
        ):
            shop().write("short.hprof")
            self.expect(["short.hprof"], said="holders: *it changed while it was read", status=1, variables=variables)

    def test_environment(self) -> None:
        """Huge pages are set only if GLIBC_TUNABLES is not; and the folder for temporary files is missing."""
        said = "* without any static field; *"
        for value in ("glibc.malloc.hugetlb=1", ""):
            for name in ("HEAPMARK", "RETAINED"):
                variables = {"GLIBC_TUNABLES": value, name: self.program(f"exec {name} $@")}
                self.expect(["shop.hprof"], self.WHOLE, said, variables=variables)
                asked = "-- shop.hprof" + " /dev/stdin" * (name == "RETAINED")
                self.assertEqual(pathlib.Path("runs").read_text().split("\n")[-2], f"{value} {asked}")
        self.expect(["shop.hprof"], self.WHOLE, said, variables={"TMPDIR": "/nowhere"})

    def test_interrupt(self) -> None:
        """A signal ends the tool and the heapmark that it runs."""
        self.check_interrupt("shop.hprof")

    def test_output(self) -> None:
        """Output that cannot be written."""
        self.check_output(["shop.hprof", "Order"], self.ORDERS)

    def test_terminal(self) -> None:
        """A terminal shows how far the tool is, and at the end nothing of that; and heads."""
        ended, seen = self.on_terminal("shop.hprof", "Order")
        parts = seen.split("\r")
        self.assertEqual((ended.status, ended.out, parts[0]), (0, self.ORDERS, "holders: reading the dump"))
        self.assertTrue(any("holders: asking what each field holds" in part for part in parts), seen)
        self.assertTrue(parts[-2].isspace(), seen)
        self.assertTrue(parts[-1].startswith("holders: threads or the virtual machine hold 5 of 25 objects of Order"))
        _, seen = self.on_terminal("shop.hprof", "Order", stream="stdout")
        self.assertEqual(seen, f"{'objects':>10} {'bytes':>14} share {'instances':>9}  field\n{self.ORDERS}")

    def test_skip(self) -> None:
        """The line of an instance field has the objects that `heapmark --skip` makes unreachable."""
        for dump in ("shop.hprof", "odd.hprof", "late.hprof"):
            whole = totals(dump)
            for row in self.ran("--at-least=1", "--weak", dump).out.splitlines():
                objects, size, _, _, field = row.split(None, 4)
                if not field.startswith(("static ", "local ", "thread ")) and "\\" not in field and "$$" not in field:
                    rest = totals(dump, "--skip", field)
                    lost = [before - after for before, after in zip(whole, rest)]
                    self.assertEqual(lost, [int(objects), int(size)], row)


def totals(dump: str, *words: str) -> List[int]:
    """Returns the objects and bytes that heapmark says are reachable."""
    ran = subprocess.run([HEAPMARK, *words, "--", dump], stdout=subprocess.PIPE, check=True)
    return [int(number) for number in ran.stdout.decode().split("\n")[-4].split()[:2]]


if __name__ == "__main__":
    unittest.main()
