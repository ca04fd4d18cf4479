"""Tests that --no-values hides what the fields of dumps have, wherever it may be said and whatever names an object."""

import html
import json
import pathlib
import unittest
from typing import List, NamedTuple

from tests.support.named_channels import PROCESS, WAYS, Way, channels
from tests.support.tool_test import ToolTest


class Said(NamedTuple):
    """What a run says: its messages, its document, and its page, in which names may be broken."""

    messages: str
    document: str
    page: str

    def has(self, text: str) -> List[bool]:
        """Tests which of the three have a text."""
        return [text in each for each in self]


class NoValuesTest(ToolTest):
    """What leaks says of one dump, and of two."""

    tool = "leaks"

    def said(self, *words: str) -> Said:
        """Returns what a run says."""
        ended = self.ran("--html", "page.html", "--json", *words)
        self.assertEqual(ended.status, 0, ended.said)
        document = json.dumps(json.loads(ended.out), ensure_ascii=False).replace('\\"', '"')
        page = html.unescape(pathlib.Path("page.html").read_text(encoding="utf-8").replace("<wbr>", ""))
        return Said(ended.said, document, page)

    def check(self, way: Way, *paths: str) -> None:
        """Tests what is said of dumps in which an object is named in a way: all texts, or with --no-values those of
        threads; and how it is named in either."""
        shown, hidden = self.said(*paths), self.said("--no-values", *paths)
        for text in way.texts:
            self.assertEqual((text, shown.has(text)), (text, [True] * 3))
            self.assertEqual((text, hidden.has(text)), (text, [way.are_of_threads] * 3))
        for how in way.how:
            self.assertEqual((how, shown.has(how), hidden.has(how)), (how, [True] * 3, [True] * 3))
        for text, is_shown in ("hush.jar", True), (str(PROCESS), True), ("HotSpot", True), ("alice", False):
            self.assertEqual((text, text in shown.page), (text, is_shown))
        for text in ("hush", "alice", "HotSpot", str(PROCESS)):
            self.assertEqual((text, hidden.has(text)), (text, [False] * 3))

    def test_ways(self) -> None:
        """In messages, on the page and in the document, of one dump and of two, no text or number is shown by which an
        object is named, neither the first nor the second, nor what names its owner, its part, its labels or its key,
        but for the names of threads; and nothing of the program's command line, process or machine."""
        for way in WAYS:
            channels(way, 9_000).write("monday")
            channels(way, 19_000, minutes=60).write("friday")
            for paths in (["monday"], ["monday", "friday"]):
                with self.subTest(how=way.how, paths=paths):
                    self.check(way, *paths)


if __name__ == "__main__":
    unittest.main()
