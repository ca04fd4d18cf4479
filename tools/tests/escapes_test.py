"""Tests that nothing of a dump reaches a terminal or a page as it is if a terminal would obey it, or nobody could see
it; and that no page replaces a dump."""

import os
import pathlib
import unicodedata
import unittest
from typing import List

from heap_tools import page
from heap_tools.page.templates import HIDDEN
from tests.support.dump_writer import BYTE, DumpWriter
from tests.support.hostile_names import HOSTILE, ODD, hostile_leak, hostile_one_dump
from tests.support.tool_test import ToolTest

#: What each name of the dumps has in it: codes of a terminal, line ends, marks of direction, and markup.
CODES = "\x1b[2J\x07\n\r\u202e\u2066\u200b\u2028\x85<b>&"


def hidden_in(text: str) -> List[str]:
    """Returns the characters of `text`, but line ends, that cannot be seen or that a terminal would obey."""
    return sorted({each for each in text if each != "\n" and unicodedata.category(each) in HIDDEN})


def hostile_dump(count: int) -> DumpWriter:
    """Returns a dump all of whose names are hostile, with `count` orders in the first of two baskets, and a thread for
    ten of them."""
    dump = DumpWriter(time=1000 + count)
    dump.of_class(1, "java/lang/Thread", fields=["name", "target"])
    dump.of_class(2, "java/lang/String", fields=["value", "coder"])
    dump.of_class(3, f"shop/Shop{CODES}", {f"BASKETS{CODES}": 100})
    dump.of_class(4, f"[Lshop/Basket{CODES};")
    dump.of_class(5, f"shop/Basket{CODES}", fields=[f"orders{CODES}", "name"])
    dump.of_class(6, f"[Lshop/Order{CODES};")
    dump.of_class(7, f"shop/Order{CODES}")
    dump.array(100, 4, 200, 201)
    for number in range(2):
        dump.instance(200 + number, 5, 210 + number, 220 + number)
        text(dump, 220 + number, f"basket {number}{CODES}".replace("\n", ""))
    dump.array(210, 6, *range(1000, 1000 + count))
    dump.array(211, 6, 999)
    for number in range(999, 1000 + count):
        dump.instance(number, 7)
    for serial in range(1, 2 + count // 10):
        at = 5000 + 10 * serial
        dump.thread(serial, at, [(7, f"sell{CODES}"), (3, f"run{CODES}")])
        dump.instance(at, 1, at + 1, at + 2)
        text(dump, at + 1, f"report{CODES}-{serial}")
        dump.instance(at + 2, 7)
        dump.array(at + 3, 6, at + 2)
        dump.local(serial, 0, at + 3)
    dump.root(3)
    return dump


def text(dump: DumpWriter, number: int, content: str) -> None:
    """Writes a String with two bytes for each letter."""
    dump.instance(number, 2, number + 100_000, b"\1")
    dump.values(number + 100_000, BYTE, content.encode("utf-16-le", "surrogatepass"))


class EscapesTest(ToolTest):
    """Tools that read dumps of hostile names."""

    tool = "leaks"

    def check(self, *words: str, tool: str = "leaks") -> str:
        """Tests that no output of a tool has hidden characters. Returns all that it printed."""
        ended = self.ran(*words, tool=tool)
        self.assertIn(ended.status, (0, 3), ended.said)
        self.assertEqual(hidden_in(ended.out + ended.said), [], words)
        return ended.out + ended.said

    def test_tools(self) -> None:
        """Lines, messages and the page show names of classes, fields, methods and threads, and texts, by their
        bytes."""
        hostile_dump(3).write("before")
        hostile_dump(60).write("after")
        every: List[List[str]] = [[], ["--objects", "--weak"], ["--no-values"]]
        for words in every:
            said = self.check(*words, "--html", "page", "before", "after")
            self.assertEqual(hidden_in(pathlib.Path("page").read_text()), [], words)
            for name in (
                r"BASKETS\x1b",
                r"orders\x1b",
                r"sell\x1b",
                r"report\x1b[*J\x07\x0a\x0d\xe2\x80\xae\xe2\x81\xa6",
            ):
                self.assertIn(name, said)
            if words == []:
                self.assertIn(r"basket 0\x1b[2J\x07\x0d\xe2\x80\xae\xe2\x81\xa6", said)
        self.check("before", "after", tool="grown")
        self.check("after", tool="holders")
        order = r"shop/Order\x1b[2J\x07\x0a\x0d\xe2\x80\xae\xe2\x81\xa6\xe2\x80\x8b\xe2\x80\xa8\xc2\x85<b>&"
        lines = [line for line in self.check("after", order, tool="holders").splitlines() if line.startswith(" ")]
        self.assertGreater(len(lines), 0)
        self.check("after", lines[0].rpartition("  ")[2], tool="held")

    def test_page(self) -> None:
        """All that a page shows is shown so, wherever it is."""
        name = f"a{CODES}/b{CODES}/A{CODES}"
        for names in (ODD[:3], [name, f"{name}.b{CODES}"], HOSTILE + ODD):
            both: List[page.Content] = [hostile_leak(names, names), hostile_one_dump(names, names)]
            for content in both:
                self.assertEqual(hidden_in(page.html_of(content)), [], names)


class ReplacedTest(ToolTest):
    """A page in the place of a dump."""

    tool = "leaks"

    def test_no_dump_is_replaced(self) -> None:
        """A page is not written into a dump, be it one of those that are compared, another one or a link to one."""
        for name, count in (("first", 2), ("second", 30), ("other", 5)):
            hostile_dump(count).write(name)
        os.symlink("other", "link")
        known = {name: pathlib.Path(name).read_bytes() for name in ("first", "second", "other")}
        for place in ("first", "second", "other", "link", "./first"):
            ended = self.ran("--html", place, "first", "second")
            self.assertEqual((ended.status, ended.out), (2, ""), place)
            self.assertIn("a dump: --html wants the name of the page", ended.said)
            self.assertEqual(known, {name: pathlib.Path(name).read_bytes() for name in known})


if __name__ == "__main__":
    unittest.main()
