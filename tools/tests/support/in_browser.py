"""Tests of pages in a browser: what a page fetches, logs and shows, and whether it fits and has contrast."""

import atexit
import pathlib
import tempfile
import unittest
from typing import Any, List

from heap_tools import page
from tests.support import chromium

#: Returns the texts of the page whose contrast is below 4.5, as the browser draws them.
LOW_CONTRAST = """
(() => {
  const numbers = text => text.match(/[\\d.]+/g).map(Number);
  const light = colour => {
    const [r, g, b] = colour.map(it => it / 255).map(it => it <= 0.04045 ? it / 12.92 : ((it + 0.055) / 1.055) ** 2.4);
    return 0.2126 * r + 0.7152 * g + 0.0722 * b;
  };
  const ground = element => {
    const box = element.closest('svg.cell') || element.closest('svg.group');
    if (box) return numbers(getComputedStyle(box.querySelector('rect')).fill);
    for (let at = element; at; at = at.parentElement) {
      const colour = numbers(getComputedStyle(at).backgroundColor);
      if (colour.length < 4 || colour[3] > 0) return colour;
    }
    return [255, 255, 255];
  };
  const low = [];
  for (const element of document.querySelectorAll('body *')) {
    const text = [...element.childNodes].filter(it => it.nodeType === 3).map(it => it.data).join('').trim();
    if (!text || !element.getClientRects().length) continue;
    const style = getComputedStyle(element);
    const front = light(numbers(element instanceof SVGElement ? style.fill : style.color));
    const back = light(ground(element));
    const ratio = (Math.max(front, back) + 0.05) / (Math.min(front, back) + 0.05);
    if (ratio < 4.5) low.push(`${ratio.toFixed(2)} ${element.tagName} ${text.slice(0, 40)}`);
  }
  return low;
})()
"""
#: Returns the texts that are cut: they reach out of what clips them, or of the page.
CUT = """
(() => {
  const isShown = it => it.getClientRects().length && !it.closest('.aside, caption, thead, title, desc, svg.cell');
  const cut = [];
  for (const element of document.querySelectorAll('body *')) {
    const text = [...element.childNodes].filter(it => it.nodeType === 3).map(it => it.data).join('').trim();
    if (!text || !isShown(element)) continue;
    const range = document.createRange();
    range.selectNodeContents(element);
    const box = range.getBoundingClientRect();
    const clip = (element.closest('.scroll, figure') || document.documentElement).getBoundingClientRect();
    if (box.left < clip.left - 1 || box.right > clip.right + 1) cut.push(text.slice(0, 40));
  }
  return cut;
})()
"""
#: Returns the texts that are smaller than 11 pixels as they are drawn.
SMALL = """
[...document.querySelectorAll('body *')].filter(element => {
  const text = [...element.childNodes].filter(it => it.nodeType === 3).map(it => it.data).join('').trim();
  if (!text || !element.getClientRects().length || element.closest('.aside, caption, title, desc')) return false;
  const drawn = element instanceof SVGGraphicsElement ? element.getScreenCTM() : {a: 1, b: 0};
  return parseFloat(getComputedStyle(element).fontSize) * Math.hypot(drawn.a, drawn.b) < 11;
}).map(element => element.textContent.slice(0, 40))
"""
#: Returns the texts of the chart that is shown which another one or a line of it is on.
COVERED = """
(() => {
  const chart = [...document.querySelectorAll('svg.chart')].find(it => it.clientWidth > 0);
  const boxes = [...chart.querySelectorAll(':scope > text')].map(it => [it.textContent, it.getBoundingClientRect()]);
  const points = [...chart.querySelectorAll('.lines polyline')].flatMap(line => {
    const drawn = line.getScreenCTM(), ends = [...line.points].map(it => it.matrixTransform(drawn));
    const parts = [...Array(101).keys()].map(it => it / 100);
    const between = (a, b) => parts.map(at => [a.x + at * (b.x - a.x), a.y + at * (b.y - a.y)]);
    return ends.slice(1).flatMap((end, at) => between(ends[at], end));
  });
  const isIn = ([x, y], box) => x > box.left + 1 && x < box.right - 1 && y > box.top + 3 && y < box.bottom - 3;
  const isOn = (one, other) => one.left < other.right - 1 && other.left < one.right - 1
    && one.top < other.bottom - 3 && other.top < one.bottom - 3;
  return boxes.filter(([text, box], number) => points.some(point => isIn(point, box))
    || boxes.some(([_, other], at) => at !== number && isOn(box, other))).map(([text]) => text);
})()
"""
#: Returns the numbers at the ends of the lines of the chart that is shown: the first ones, then the last.
ENDS = """
(chart => ['end', 'start'].map(anchor => [...chart.querySelectorAll(`.label[text-anchor=${anchor}][dx^="${
  anchor === 'end' ? '-10' : '10'}"]`)].map(it => it.firstChild.data)))(
  [...document.querySelectorAll('svg.chart')].find(it => it.clientWidth > 0))
"""
#: Returns how many pictures each figure shows that has some.
PICTURES = """
[...document.querySelectorAll('figure')].map(it => [...it.querySelectorAll('svg.chart, svg.treemap')])
  .filter(it => it.length).map(it => it.filter(picture => picture.clientWidth > 0).length)
"""
#: Returns the texts of the boxes of a treemap that reach out of their box.
OUT_OF_BOX = """
[...document.querySelectorAll('svg.treemap .cell text, svg.treemap .group-name')].filter(text => {
  const box = (text.closest('svg.cell') || text.parentElement).querySelector('rect').getBoundingClientRect();
  const it = text.getBoundingClientRect();
  return it.width && (it.left < box.left - 1 || it.right > box.right + 1 || it.bottom > box.bottom + 1);
}).map(text => text.textContent)
"""
#: Returns the kinds of the tables that are wider than their place.
SCROLLING = (
    "[...document.querySelectorAll('.scroll')].filter(it => it.scrollWidth > it.clientWidth + 1)"
    ".map(it => it.firstElementChild.className)"
)


def say_left_out() -> None:
    """Says that no page was opened in a browser."""
    print("left out: the pages in a browser: no chromium is here", flush=True)


class InBrowser(unittest.TestCase):
    """A test with a browser. Without one it is skipped, and the last line of all says so."""

    browser: chromium.Chromium

    @classmethod
    def setUpClass(cls) -> None:
        """Starts the browser."""
        program = chromium.found()
        if not program:
            atexit.unregister(say_left_out)
            atexit.register(say_left_out)
            raise unittest.SkipTest("no chromium is here")
        cls.browser = chromium.Chromium(program)

    @classmethod
    def tearDownClass(cls) -> None:
        """Ends the browser."""
        cls.browser.close()

    def open(self, file: str) -> None:
        """Opens a page, and requires that it fetched nothing, logged nothing and runs nothing."""
        address = pathlib.Path(file).resolve().as_uri()
        self.browser.open(address)
        self.assertEqual(self.browser.fetched(), [address])
        self.assertEqual(self.browser.logged(), [])
        self.assertEqual(self.browser.value("document.scripts.length"), 0)

    def open_page_of(self, content: page.Content) -> None:
        """Opens a page."""
        with tempfile.TemporaryDirectory() as room:
            page.save(content, f"{room}/leak.html")
            self.open(f"{room}/leak.html")

    def check_screens(self, may_scroll: bool = False) -> None:
        """Requires that the page fits into each window, that all text has contrast, and that one of the pictures that
        show the same is shown. `may_scroll`: its tables need not fit."""
        for width, dark in (1280, False), (1280, True), (768, False), (390, False), (390, True):
            with self.subTest(width=width, dark=dark):
                self.browser.show(width, dark)
                self.check_shown(width, may_scroll)

    def check_shown(self, width: int, may_scroll: bool = False) -> None:
        """Requires that of the page in a window of this width."""
        self.assertLessEqual(self.browser.value("document.documentElement.scrollWidth"), width)
        self.assertEqual(self.browser.value(LOW_CONTRAST), [])
        self.assertEqual(self.browser.value(OUT_OF_BOX), [])
        if not may_scroll:
            self.assertEqual((self.browser.value(SCROLLING), self.browser.value(CUT)), ([], []))
        shown = self.browser.value(PICTURES)
        self.assertEqual(shown, [1] * len(shown))

    def texts(self, selector: str) -> List[str]:
        """Returns the texts of the elements that a selector names, with plain blanks."""
        found = self.browser.value(f"[...document.querySelectorAll({selector!r})].map(it => it.textContent)")
        return [" ".join(text.replace("\u00a0", " ").split()) for text in found]

    def figures(self, selector: str) -> Any:
        """Returns the exact figures of the elements that a selector names."""
        return self.browser.value(f"[...document.querySelectorAll({selector!r})].map(it => Number(it.value))")
