"""Tests which fields a line of holders or leaks means, when it is given to held."""

import unittest

from heap_tools.candidates import LOCAL, THREAD, THREADS
from heap_tools.faults import WRONG_USE, Fault
from heap_tools.field_list import entries_of, root_of


class FieldListTest(unittest.TestCase):
    """Lines as the tools print them."""

    def test_entries(self) -> None:
        """The last step of a path counts, without the columns before it and the words of a line."""
        of_leaks = "        20            160  100%            720           2880 {}  static A.x > B.y"
        for text, entries in (
            ("A.x,B.y", ["A.x", "B.y"]),
            ("A.x, B.y", ["A.x", "B.y"]),
            ("A.x,  static B.y", ["A.x", "static B.y"]),
            (of_leaks.format("        1"), ["B.y"]),
            (of_leaks.format(" 20 to 80").replace("static A.x > ", ""), ["B.y"]),
            ("  5  0  62%  1  static A.x", ["static A.x"]),
            ("together static A.x, static B.y", ["static A.x", "static B.y"]),
            ('together static A.x, thread "a, b", B.y', ["static A.x", 'thread "a, b"', "B.y"]),
            ('static A.x > thread "from > to"', ['thread "from > to"']),
            ('  5  0  62%  1  thread "9  8  7%  1  x"', ['thread "9  8  7%  1  x"']),
            ('thread "a .. and 2 more"', ['thread "a .. and 2 more"']),
            ("", [""]),
        ):
            self.assertEqual(entries_of(text), entries, text)

    def test_more(self) -> None:
        """A line that does not name all that it is about is refused: nothing is dropped."""
        with self.assertRaises(Fault) as raised:
            entries_of("  5  0  62%  1  together static A.a, static A.b, static A.c .. and 2 more")
        self.assertEqual(raised.exception.status, WRONG_USE)

    def test_roots(self) -> None:
        """An entry may be a local variable, a thread or threads."""
        for text, key in (
            ("static A.x > local B.run", (LOCAL, "B.run")),
            ('thread "http 1"', (THREAD, "http 1")),
            ('  5  0  62%  1  threads "report-*"', (THREADS, "report-*")),
            ("  5  0  62%  1  thread", (THREAD, "")),
            ("static A.x > thread", (THREAD, "")),
            ("threads without a name", (THREAD, "")),
            ('thread ""', (THREAD, "")),
            ("static A.local", None),
            ("static A.thread", None),
        ):
            (entry,) = entries_of(text)
            self.assertEqual(root_of(entry), key, text)


if __name__ == "__main__":
    unittest.main()
