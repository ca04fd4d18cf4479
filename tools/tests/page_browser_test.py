"""A browser opens pages of `leaks --html`: of dumps, and of what no dump has."""

import dataclasses
import pathlib
import re
import tempfile
import unittest
import zlib
from typing import List, Sequence, Tuple

from heap_tools.class_names import shown
from heap_tools import page
from heap_tools.page import templates
from heap_tools.page.chart_lines import series_of, time_places
from heap_tools.page.words import bare
from tests.support import page_sample
from tests.support.dump_writer import DumpWriter
from tests.support.hostile_names import HOSTILE_CLASSES, SCRIPT, hostile_leak, hostile_one_dump
from tests.support.in_browser import COVERED, CUT, ENDS, LOW_CONTRAST, SCROLLING, SMALL, InBrowser
from tests.support.picture import picture_of
from tests.support.services import cache
from tests.support.tool_test import ToolTest

#: Adds an element to the page, and returns which rule of its policy refuses that.
REFUSED = """
new Promise(done => {
  document.addEventListener('securitypolicyviolation', event => done(event.effectiveDirective));
  document.body.append(Object.assign(document.createElement('%s'), {%s}));
})
"""
#: Returns the colour of the name in the headline.
ACCENT = """
(it => getComputedStyle(it.lastChild.nodeType === 3 ? it : it.lastElementChild).color.match(/[0-9.]+/g).map(Number))(
  document.querySelector('h1 .name'))
"""
#: Returns the selectors of the style, without what follows a colon, that nothing of the page has.
UNUSED = """
(() => {
  const rules = list => [...list].flatMap(rule => rule.cssRules ? [rule, ...rules(rule.cssRules)] : [rule]);
  const every = rules(document.styleSheets[0].cssRules).flatMap(rule => (rule.selectorText || '').split(','));
  return [...new Set(every.map(it => it.trim().replace(/:(before|after|:before|:after|hover|focus-visible)/g, '')))]
    .filter(it => it && !it.startsWith(':') && !document.querySelector(it));
})()
"""
#: Returns the dots of the drawn path that are not below the one before them.
DOTS_OUT_OF_LINE = """
(dots => dots.filter((dot, at) => at && !(dot.left === dots[at - 1].left && dot.top >= dots[at - 1].bottom - 1)))(
  [...document.querySelectorAll('.chain > li')].map(it => it.getBoundingClientRect()))
"""
#: The sides of A4 in points, and of what is printed on it in pixels: without the margins of 13 and 14 mm at each side.
A4 = (595, 842)
A4_WIDTH, A4_HEIGHT = int((210 - 2 * 13) * 96 / 25.4), int((297 - 2 * 14) * 96 / 25.4)


class ToolPageTest(InBrowser, ToolTest):
    """The pages that leaks makes of dumps have what leaks prints."""

    tool = "leaks"

    def made(self, before: DumpWriter, after: DumpWriter, *files: str) -> List[str]:
        """Makes the page of two dumps, in files with these names. Returns the columns of the first line of leaks."""
        before.write(files[0])
        after.write(files[1])
        ended = self.ran("--html", "page.html", "--", *files)
        self.assertEqual(ended.status, 0, ended.said)
        return str(ended.out).split("\n")[0].split(None, 6)

    def test_leak(self) -> None:
        """The figures of a leak."""
        objects, size, share, before, after, instances, way = self.made(cache(40), cache(160, 12), "monday", "friday")
        self.open("page.html")
        self.check_screens()
        *above, name = way.split(" > ")
        self.assertEqual(self.texts("#holders .holders tbody:first-of-type th > .name"), [name])
        self.assertEqual(self.texts("#holders .holders tbody:first-of-type .way li"), above)
        self.assertEqual(self.texts("header li"), above)
        row = "#holders .holders tbody:first-of-type tr:first-child td:nth-of-type"
        self.assertEqual(self.figures(f"{row}(1) data"), [int(instances)])
        self.assertEqual(self.figures(f"{row}(2) data")[2], int(objects))
        self.assertEqual(self.figures(f"{row}(3) data"), [int(before), int(after), int(size)])
        self.assertEqual(self.texts(f"{row}(4)"), [share])
        self.assertEqual(self.figures("h1 data"), [int(after), int(before)])
        self.assertEqual(self.texts("#making tbody th"), ["monday", "friday"])
        self.assertIn("In 12 min", self.texts(".lead")[0])
        command = self.texts(".next code")[0]
        self.assertEqual(command, f"held friday {name}")
        self.assertIn("shop/Order", self.ran(*command.split()[1:], tool="held").out)

    def test_hostile_dump(self) -> None:
        """The names of classes, of fields and of files are text."""
        files = [f"{SCRIPT[:-9]}{number}.hprof" for number in (1, 2)]
        *_, way = self.made(hostile_dump(2), hostile_dump(9), *files)
        self.assertIn(shown(f"{SCRIPT}.{SCRIPT}".encode()), way)
        self.open("page.html")
        self.check_screens()
        self.assertEqual(self.texts("#making tbody th"), files)
        grown = self.texts("#grown tbody th")
        for name in HOSTILE_CLASSES:
            self.assertIn(templates.plain(shown(name.encode()), 240), grown)
        self.assertIn(shown(f"{SCRIPT}.{SCRIPT}".encode()), " ".join(self.texts("#holders tbody th")))


def is_near(one: Sequence[int], other: Sequence[int], most: int) -> bool:
    """Tests whether no part of two colours differs by more than `most`."""
    return all(abs(first - second) <= most for first, second in zip(one, other))


def hostile_dump(count: int) -> DumpWriter:
    """Returns a dump in which a static field holds `count` objects of each of the hostile classes."""
    dump = DumpWriter(time=60_000 * count)
    objects: List[int] = []
    dump.of_class(1, SCRIPT, {SCRIPT: 1000})
    dump.of_class(2, "[Ljava/lang/Object;")
    for number, name in enumerate(HOSTILE_CLASSES, 10):
        dump.of_class(number, name, fields=[SCRIPT])
        for at in range(count):
            objects.append(10_000 * number + at)
            dump.instance(objects[-1], number, 0)
    dump.array(1000, 2, *objects)
    dump.root(1)
    return dump


def lowest_text(pdf: bytes) -> List[float]:
    """Returns where the lowest text of each page of a PDF of Chromium begins, 1 being the foot."""
    objects = dict(re.findall(rb"\n(\d+) 0 obj\n(.*?)\nendobj", pdf, re.S))
    ends = []
    for each in objects.values():
        content = re.search(rb"/Contents (\d+) 0 R", each)
        if content:
            packed = objects[content[1]].partition(b"stream")[2].lstrip(b"\r\n")
            heights = [1 - at / A4[1] for at in heights_of_text(zlib.decompressobj().decompress(packed))]
            ends.append(max(at for at in heights if at < 1))
    return ends


def heights_of_text(content: bytes) -> List[float]:
    """Returns the heights of the texts of a page above its foot, in points. Nothing on it is turned."""
    scale, shift, found = 1.0, 0.0, []
    kept: List[Tuple[float, float]] = []
    for line in content.split(b"\n"):
        *numbers, word = line.split() or [b""]
        if word == b"q":
            kept.append((scale, shift))
        elif word == b"Q":
            scale, shift = kept.pop()
        elif word == b"cm":
            scale, shift = scale * float(numbers[3]), scale * float(numbers[5]) + shift
        elif word == b"Tm":
            found.append(scale * float(numbers[5]) + shift)
    return found


class BrowserTest(InBrowser):
    """What a browser makes of the pages."""

    def test_figures_of_a_leak(self) -> None:
        """The browser shows the figures of the sample."""
        leak = page_sample.leak()
        self.open_page_of(leak)
        self.check_screens()
        name = "com/acme/shop/metrics/MetricsService.METERS"
        self.assertEqual(self.texts("h1"), [f"Static field {name} holds 20.4 MB, up from 4.0 MB"])
        cell = "#holders tbody:first-of-type tr:first-child td:nth-of-type(3)"
        self.assertEqual(self.texts(f"{cell} data"), ["4.0 MB", "20.4 MB", "+16.4 MB"])
        self.assertEqual(self.texts("#grown tbody th"), [it.name for it in leak.grown[:-1]])
        exact = set(self.figures("#making td data"))
        for dump in leak.dumps:
            self.assertLessEqual({*dump.reachable, *dump.unreachable, dump.size, dump.unresolved}, exact)
        self.assertEqual(self.texts("#last tfoot data"), ["1,304,914", "58.3 MB"])
        above = [field for step in leak.holders[-1].above for field in step.fields]
        steps = self.texts("#holders .holders tbody:last-of-type .path li")
        self.assertEqual([page_sample.field(step) for step in steps], above)
        self.assertEqual(self.texts("title")[0], f"{name}: 4.0 MB to 20.4 MB")

    def test_other_pages(self) -> None:
        """Pages of which nothing was found, and some that have all that there can be."""
        leaks = page_sample.bare_leak(), page_sample.full_leak()
        every: List[page.Content] = [*leaks, page_sample.bare_dump(), page_sample.one_dump(), page_sample.sizes()]
        for it in every:
            self.open_page_of(it)
            self.check_screens()

    def test_figures_of_one_dump(self) -> None:
        """The browser shows the figures of the sample, and draws the path: a dot for each step, one below the other."""
        dump = page_sample.one_dump()
        self.open_page_of(dump)
        self.assertEqual(self.texts("head title"), ["com/acme/mail/Tenants.BY_NAME: 40.3 MB of 49.6 MB"])
        held = [step.held for step in dump.suspects[1].above] + [dump.suspects[1].held]
        sizes = [each.amount.bytes for each in held if each] + [dump.objects[0].bytes]
        self.assertEqual(self.figures(".chain .amount data"), sizes)
        self.assertEqual(self.figures(".full + figcaption data")[:2], [sizes[0], dump.dump.reachable.bytes - sizes[0]])
        self.assertEqual(
            self.figures(".contents tbody td:nth-of-type(2) data"), [it.amount.bytes for it in dump.contents]
        )
        for width in 1280, 390:
            self.browser.show(width)
            self.assertEqual(self.browser.value(DOTS_OUT_OF_LINE), [])

    def test_pictures(self) -> None:
        """In pictures of the pages the edges are empty, their inside nowhere for long, and the answer is at the top;
        light and dark differ in nothing but colours."""
        both: List[page.Content] = [page_sample.full_leak(), page_sample.one_dump()]
        for it in both:
            self.open_page_of(it)
            self.check_pictures()

    def check_pictures(self) -> None:
        """Requires that of the page that is open."""
        for width, scale, top in (1280, 0.125, 180), (390, 0.25, 260):
            heights = set()
            for dark in False, True:
                self.browser.show(width, dark)
                rows = picture_of(self.browser.picture(scale)).rows
                heights.add(len(rows))
                ground, accent = rows[0][0], (self.browser.value(ACCENT))
                self.assertEqual(max(ground) < 60, dark, ground)
                edges = {row[x] for row in rows for x in (0, 1, -2, -1)}
                self.assertTrue(all(is_near(edge, ground, 8) for edge in edges), (width, ground, edges))
                named = [number for number, row in enumerate(rows) if any(is_near(each, accent, 80) for each in row)]
                self.assertLess(named[0] / scale, top)
                empty = "".join("x" if not all(is_near(each, ground, 2) for each in row) else " " for row in rows)
                self.assertLess(max(map(len, empty.split("x"))) / scale, 80, width)
            self.assertEqual(len(heights), 1)

    def test_each_width(self) -> None:
        """In a window of each width from 390 to 1,280 pixels all text has at least 11, and no column is cut."""
        every: List[page.Content] = [page_sample.full_leak(), page_sample.one_dump(), page_sample.sizes()]
        for it in every:
            self.open_page_of(it)
            for width in 390, 520, 640, 641, 768, 900, 1040, 1041, 1160, 1280:
                with self.subTest(width):
                    self.browser.show(width)
                    self.check_shown(width)
                    self.assertEqual(self.browser.value(SMALL), [])

    def test_numbers_of_the_chart(self) -> None:
        """The first and the last number of each line are beside it, whatever the lines do, and nothing covers a number:
        on wide, middle and narrow screens and on paper."""
        heaps = [
            ((5, 1, 0), (60, 55, 0)),
            ((60, 58, 2), (61, 59, 40)),
            ((9, 8, 7), (60, 3, 59)),
            ((3, 0, 0), (9, 9, 9)),
        ]
        every = [page_sample.full_leak(), *(page_sample.leak_from(first, last) for first, last in heaps)]
        for it in every:
            self.open_page_of(it)
            series = series_of(it, time_places(it.dumps))
            wanted = [[bare(line.numbers[at], it.by) for line in series] for at in (0, -1)]
            for width, media in (
                (390, "screen"),
                (641, "screen"),
                (1040, "screen"),
                (1280, "screen"),
                (A4_WIDTH, "print"),
            ):
                with self.subTest(width=width, lines=wanted):
                    self.browser.show(width, media=media)
                    self.assertEqual(self.browser.value(COVERED), [])
                    self.assertEqual(self.browser.value(ENDS), wanted)

    def test_wide_tables(self) -> None:
        """In a window of middle width each row of a wide table is a card. Should a table still be wider than its place,
        a shadow shows that it scrolls."""
        self.open_page_of(page_sample.full_leak())
        heads = "[...document.querySelectorAll('.cards thead')].map(it => it.getBoundingClientRect().height > 1)"
        for width, has_heads in ((1041, True), (1040, False), (641, False), (640, False)):
            self.browser.show(width)
            self.assertEqual(self.browser.value(heads), [has_heads] * 4)
        cells = "[...document.querySelectorAll('#holders .holders tr:first-child td')].map(it => it.offsetTop)"
        self.browser.show(768)
        self.assertEqual(len(set(self.browser.value(cells)[:5])), 1)
        style = self.browser.value("getComputedStyle(document.querySelector('.scroll')).backgroundAttachment")
        self.assertEqual(sorted(set(style.split(", "))), ["local", "scroll"])

    def test_paper(self) -> None:
        """On paper the page is light, also for those who have it dark, and nothing is cut."""
        both: List[page.Content] = [page_sample.full_leak(), page_sample.one_dump()]
        for it in both:
            self.open_page_of(it)
            self.browser.show(A4_WIDTH, dark=True, media="print")
            self.check_shown(A4_WIDTH)
            colour = self.browser.value("getComputedStyle(document.querySelector('h2')).color")
            self.assertEqual(colour, "rgb(21, 25, 30)")

    def test_answer_is_on_the_first_printed_page(self) -> None:
        """The answer is whole on the first page of paper: the figures, as many lines as leaks prints, with their paths,
        and the objects; of one dump the path, the object, what is in it, and all lines. No head of these is broken."""
        full = page_sample.full_leak()
        four = page_sample.full_leak(holders=[*full.holders[:3], full.holders[4]], objects=full.objects[:1])
        both: List[Tuple[page.Content, str]] = [(four, ".objects"), (page_sample.one_dump(), ".holders")]
        for it, last in both:
            self.open_page_of(it)
            self.browser.show(A4_WIDTH, media="print")
            foot = self.browser.value(f"document.querySelector('{last}').getBoundingClientRect().bottom + scrollY")
            self.assertLess(foot, A4_HEIGHT, last)
            heads = "[...document.querySelectorAll('.holders thead th')].map(it => it.getClientRects()[0].height)"
            self.assertEqual(len(set(self.browser.value(heads))), 1)
            self.assertLess(self.browser.value(heads)[0], 25)

    def test_printed(self) -> None:
        """It is printed on A4, no page but the last is left half empty, and the last has more than two lines."""
        long = page_sample.leak(grown=page_sample.leak().grown * 4)
        leaks = page_sample.leak(), page_sample.full_leak(), long
        every: List[page.Content] = [*leaks, page_sample.one_dump(), page_sample.bare_dump()]
        for it in every:
            self.open_page_of(it)
            self.browser.show(700, media="print")
            printed = self.browser.printed()
            self.assertTrue(printed.startswith(b"%PDF-"))
            sides = re.findall(rb"/MediaBox \[0 0 ([\d.]+) ([\d.]+)\]", printed)
            self.assertEqual({(round(float(width)), round(float(height))) for width, height in sides}, {A4})
            ends = lowest_text(printed)
            self.assertEqual(len(ends), len(sides))
            for end in ends[:-1]:
                self.assertGreater(end, 0.7)
            self.assertGreater(ends[-1], 0.12)

    def test_hostile_names(self) -> None:
        """The browser shows hostile names as text."""
        self.open_page_of(hostile_leak())
        self.check_screens(may_scroll=True)
        self.assertIn(SCRIPT, self.texts("#grown tbody th"))
        self.assertIn("\\xe2\\x80\\xaeltr\\xe2\\x81\\xa6", self.texts("#making tbody th"))
        self.assertEqual(self.browser.value("document.images.length + document.links.length"), 7)
        self.open_page_of(hostile_one_dump())
        self.check_screens(may_scroll=True)
        self.assertIn(SCRIPT, self.texts("#holders .contents tbody th"))
        self.assertEqual(self.browser.value("document.images.length + document.links.length"), 7)

    def test_names_from_right_to_left(self) -> None:
        """A name that is written from right to left does not turn what is around it: the steps of a path are in their
        order, and the bytes of a group come after its name."""
        name = "\u05d7\u05d1\u05e8\u05d4/\u05de\u05d8\u05de\u05d5\u05df"
        above = [page_sample.step(f"{name}.\u05d0{number}") for number in range(3)]
        first = dataclasses.replace(page_sample.holders()[0], above=above, fields=[page_sample.field(f"{name}.\u05d0")])
        shares = [page_sample.share(f"{name}.\u05d0", {"byte[]": (9, 19_000_000)})]
        self.open_page_of(page_sample.full_leak(holders=[first], shares=shares))
        for selector in "header .path li", "svg.treemap.wide .group-name:first-of-type tspan":
            places = f"[...document.querySelectorAll('{selector}')].map(it => it.getBoundingClientRect()).slice(0, 2)"
            (before, after) = self.browser.value(f"{places}.map(it => [it.left, it.right])")
            self.assertGreater(before[1], before[0] + 20)
            self.assertGreaterEqual(after[0], before[1] - 1, selector)

    def test_screen_reader(self) -> None:
        """The parts that a screen reader finds have names, on narrow screens, too."""
        self.open_page_of(page_sample.leak())
        for width in 1280, 390:
            self.browser.show(width)
            parts = self.browser.named()
            for role in "banner", "navigation", "main", "contentinfo", "table", "figure", "rowheader":
                self.assertIn(role, [part for part, _ in parts])
            images = [name for role, name in parts if role in ("image", "img")]
            self.assertEqual(len(images), 2 + len(page_sample.leak().grown[:-1]))
            self.assertTrue(all(images))
            regions = [name for role, name in parts if role == "region"]
            self.assertTrue(all(regions))
            self.assertIn("What holds what grew", regions)

    def test_style_has_no_rest(self) -> None:
        """Each selector of the style names something of a page; the colours of packages are as many as there may be."""
        first, middle, _ = page_sample.leak().dumps
        last = page_sample.dump(2, (1, 58_000_000), (1, 30_000_000))
        dumps, lines = [first] + [middle] * 60 + [last], page_sample.holders()[::-1]
        many = page_sample.full_leak(dumps=dumps, holders=lines, last=page_sample.many_packages())
        above = [page_sample.step(f"a/B.c{number}") for number in range(9)]
        deep = [dataclasses.replace(page_sample.one_dump().suspects[0], above=above)]
        unused = []
        bytes_of = "Bytes are those of the heap."
        full, one = page_sample.full_leak(layout=bytes_of), page_sample.one_dump(layout=bytes_of)
        every: List[page.Content] = [full, many, one, page_sample.one_dump(suspects=deep, objects=[])]
        for it in every:
            self.open_page_of(it)
            unused.append(set(self.browser.value(UNUSED)))
        self.assertEqual(set.intersection(*unused), set())

    def test_policy(self) -> None:
        """If a name ever were more than text, the policy of the page would still refuse to fetch or to run it."""
        self.open_page_of(page_sample.leak())
        for tag, attributes, rule in [
            ("img", "src: 'http://127.0.0.1:9/x'", "img-src"),
            ("script", "textContent: 'alert(1)'", "script-src-elem"),
            ("iframe", "src: 'http://127.0.0.1:9/x'", "frame-src"),
        ]:
            with self.subTest(tag):
                self.assertEqual(self.browser.value(REFUSED % (tag, attributes)), rule)

    def test_the_browser_sees_what_is_wrong(self) -> None:
        """These tests would see a page that fetches, runs, overflows, is cut, is pale, or has a chart with a small text
        or one that a line crosses."""
        pale = "<p style='color: #999; width: 2000px'>pale"
        cut = f"<div class=scroll style='width: 50px; overflow: auto'><table class=wide><td>{'x' * 200}</table></div>"
        line = "<svg class=lines width=300 height=60><polyline points='0,50 300,50'/></svg>"
        texts = "<text x=10 y=54 font-size=10>crossed</text><text x=9 y=20>one</text><text x=12 y=24>two</text>"
        chart = f"<svg class=chart width=300 height=60>{line}{texts}</svg>"
        with tempfile.TemporaryDirectory() as room:
            file = pathlib.Path(room, "wrong.html")
            file.write_text(f"{pale}<img src='http://127.0.0.1:9/x'><script>alert(1)</script></p>{cut}{chart}")
            self.browser.open(file.as_uri())
        self.assertIn("http://127.0.0.1:9/x", self.browser.fetched())
        self.assertGreaterEqual(len(self.browser.logged()), 2)
        self.assertEqual(len(self.browser.value(LOW_CONTRAST)), 1)
        self.assertGreater(self.browser.value("document.documentElement.scrollWidth"), 1280)
        self.assertEqual(self.browser.value(SCROLLING), ["wide"])
        self.assertEqual(self.browser.value(CUT), ["x" * 40])
        self.assertEqual(self.browser.value(SMALL), ["crossed"])
        self.assertEqual(self.browser.value(COVERED), ["crossed", "one", "two"])


if __name__ == "__main__":
    unittest.main()
