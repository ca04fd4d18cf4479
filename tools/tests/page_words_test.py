"""How the page spells texts, figures and times."""

import unittest
from typing import Any, Callable, Dict

from heap_tools.page import names, templates, words
from heap_tools.reports import Unit
from tests.support.hostile_names import HOSTILE
from tests.support.outline import Outline
from tests.support.page_sample import MINUTE, NOON


class WordsTest(unittest.TestCase):
    """Each function over a table."""

    def check(self, spell: Callable[[Any], str], table: Dict[Any, str]) -> None:
        """Requires of `spell` each result of a table, with plain blanks."""
        for given, wanted in table.items():
            with self.subTest(given):
                self.assertEqual(spell(given).replace("\u00a0", " "), wanted)

    def test_percent(self) -> None:
        """Percentages, whole as on the terminal; what is little is not nothing."""
        table: Dict[float, str] = {0: "0%", 0.04: "<1%", 0.49: "<1%", 0.6: "1%", 9.73: "10%", 35.04: "35%"}
        table.update({99.4: "99%", 99.6: "100%", 100: "100%", 104.6: "105%", 12_345.6: "12,346%"})
        self.check(words.percent, table)

    def test_with_sign(self) -> None:
        """Differences, with the sign of a minus and the noun."""
        self.check(lambda it: words.with_sign(it, Unit.BYTES), {5: "+5 bytes", -1000: "−1.0 kB", 0: "±0 bytes"})
        table = {1: "+1 object", -124: "−124 objects", 0: "±0 objects"}
        self.check(lambda it: words.with_sign(it, Unit.OBJECTS), table)
        self.check(lambda it: words.percent_more(*it), {(10, 14): "+40%", (10, 5): "−50%", (10, 10): "±0%"})

    def test_units(self) -> None:
        """Bytes are in words, objects with or without their noun."""
        self.check(lambda it: words.bare(it, Unit.OBJECTS), {1: "1", 1234: "1,234"})
        self.check(lambda it: words.full(it, Unit.OBJECTS), {1: "1 object", 1234: "1,234 objects"})
        for spell in words.bare, words.full:
            self.assertEqual(spell(1234, Unit.BYTES), "1.2\u00a0kB")

    def test_figures(self) -> None:
        """The exact number is beside what is shown, with the sign of a difference."""
        for html, wanted in [
            (words.figure(1, "object"), ("1", "1\u00a0object", "1")),
            (words.figure(41_208_334, "byte"), ("41208334", "41,208,334\u00a0bytes", "41.2 MB")),
            (words.figure(-124, "object", is_difference=True), ("-124", "−124\u00a0objects", "−124")),
            (words.figure(1, "byte", is_difference=True), ("1", "+1\u00a0byte", "+1 byte")),
            (words.figure_in(1, Unit.OBJECTS), ("1", "1\u00a0object", "1 object")),
            (words.figure_in(2, Unit.OBJECTS), ("2", "2\u00a0objects", "2 objects")),
        ]:
            outline = Outline(html)
            attributes = outline.all("data")[0]
            self.assertEqual((attributes["value"], attributes["title"], outline.text()), wanted)

    def test_times(self) -> None:
        """Times in UTC, and times that are none."""
        self.assertIn(">1970-01-01 00:00<", words.when(0))
        self.assertEqual(words.when(None), "not known")
        self.assertEqual(words.when(2**64 - 1), "not known")
        self.assertEqual(words.clock([0, 61_000]), ["00:00:00", "00:01:01"])
        self.assertEqual(words.clock([0, 86_400_000]), ["1970-01-01 00:00", "1970-01-02 00:00"])
        self.assertEqual(words.clock([None, None]), ["dump 1", "dump 2"])
        self.assertEqual(words.clock([0, 2**64 - 1])[1], "dump 2")

    def test_period(self) -> None:
        """From when to when, without what is the same, or nothing."""
        for first, last, wanted in [
            (NOON, NOON + 12 * MINUTE, "2026-11-27 12:00 to 12:12 UTC"),
            (NOON, NOON + MINUTE - 1, "2026-11-27 12:00 UTC"),
            (NOON, NOON + 24 * 60 * MINUTE, "2026-11-27 12:00 to 2026-11-28 12:00 UTC"),
            (None, NOON, ""),
            (NOON, 2**64 - 1, ""),
        ]:
            with self.subTest(wanted):
                self.assertEqual(Outline(words.period(first, last)).text(), wanted)


class TemplatesTest(unittest.TestCase):
    """How plain text becomes HTML."""

    def test_visible(self) -> None:
        """Of characters that cannot be seen the bytes are shown, all others stay."""
        for text, wanted in {
            "a\x00\n": "a\\x00\\x0a",
            "\u202e": "\\xe2\\x80\\xae",
            "\udcff": "\\xff",
            "\ud800": "\\xed\\xa0\\x80",
            "é": "é",
            "\U000e0001": "\\xf3\\xa0\\x80\\x81",
        }.items():
            with self.subTest(wanted):
                self.assertEqual(templates.visible(text), wanted)

    def test_shortened(self) -> None:
        """A long text keeps its beginning and its end."""
        self.assertEqual(templates.shortened("x" * 60, 60), "x" * 60)
        self.assertEqual(templates.shortened("a" * 50 + "b" * 50, 60), "a" * 39 + "…" + "b" * 20)

    def test_names_are_whole(self) -> None:
        """A name is the same text, whatever is between its parts."""
        for name in HOSTILE[:8]:
            with self.subTest(name):
                self.assertEqual(Outline(names.name_of(name, 240)).text(), name)

    def test_names_of_arrays(self) -> None:
        """Arrays are spelled as in Java, and what only looks like one as it is."""
        table = {"[Ljava/lang/Object;": "java/lang/Object[]", "[[La/B;": "a/B[][]", "byte[]": "byte[]"}
        table.update(
            {"[[I": "int[][]", "[": "[", "[Lno end": "[Lno end", "[[Q": "[[Q", "a/B": "a/B", "<class>": "<class>"}
        )
        for name, wanted in table.items():
            with self.subTest(name):
                self.assertEqual(names.in_java(name), wanted)


if __name__ == "__main__":
    unittest.main()
