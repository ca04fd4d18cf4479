"""What tests of a page as HTML require of each page: that it is well formed, small enough, readable and not active."""

import re
import unittest

from heap_tools import page
from tests.support.outline import Outline

#: Elements that fetch or run something.
ACTIVE = {"script", "img", "link", "iframe", "object", "embed", "form", "base", "image", "use", "foreignobject"}


class HtmlOfPage(unittest.TestCase):
    """A test of pages as HTML."""

    def outline(self, it: page.Content) -> Outline:
        """Returns the outline of a page that is well formed and small enough."""
        text = page.html_of(it)
        self.assertLessEqual(len(text.encode()), page.MOST_BYTES)
        outline = Outline(text)
        self.assertEqual((outline.faults, outline.open), ([], []))
        return outline

    def check_texts(self, it: page.Content, *wanted: str) -> str:
        """Requires texts of a page, and returns all of its text."""
        text = self.outline(it).text()
        for each in wanted:
            with self.subTest(each):
                self.assertTrue(each in text, "missing")
        return text

    def check_structure(self, it: page.Content) -> None:
        """Requires what a screen reader needs: headings in order, captions, scopes, landmarks, labels that exist."""
        outline = self.outline(it)
        levels = [int(tag[1]) for tag, _ in outline.elements if re.fullmatch("h[1-6]", tag)]
        self.assertEqual(levels[0], 1)
        self.assertEqual(levels.count(1), 1)
        self.assertTrue(all(after <= before + 1 for before, after in zip(levels, levels[1:])))
        ids = outline.values("id")
        self.assertEqual(len(ids), len(set(ids)))
        self.assertTrue(all(attributes.get("scope") for attributes in outline.all("th")))
        self.assertEqual(len(outline.all("table")), len(outline.all("caption")))
        self.assertEqual([len(outline.all(tag)) for tag in ("header", "nav", "main", "footer")], [1] * 4)
        self.assertEqual(outline.all("html"), [{"lang": "en"}])
        labels = " ".join(outline.values("aria-labelledby")).split()
        targets = [target[1:] for target in outline.values("href")]
        self.assertLessEqual({*labels, *targets}, set(ids))

    def check_not_active(self, it: page.Content) -> None:
        """Requires that nothing in a page fetches or runs something."""
        outline = self.outline(it)
        self.assertEqual(ACTIVE & {tag for tag, _ in outline.elements}, set())
        names = {name for _, attributes in outline.elements for name in attributes}
        self.assertEqual([name for name in names if re.match("on|src|xlink", name)], [])
        self.assertTrue(all(target.startswith("#") for target in outline.values("href")))
