"""What `leaks --html` shows of dumps, as HTML: what the dumps do not show, dumps between, weak references, odd
names."""

import pathlib
import re
import unittest
from typing import Tuple

from tests.support.dump_writer import BYTE, DumpWriter
from tests.support.outline import Outline
from tests.support.services import Service, buffers, cache, finalizers, handler, noisy
from tests.support.tool_test import ToolTest


def unnamed(count: int, minutes: int = 0) -> Service:
    """A class without a name has a static field that holds an array of orders."""
    dump = Service(minutes)
    dump.of_class(6, None, {"CACHE": 5000})
    dump.orders(count)
    dump.root(6)
    return dump


class PageOfDumpsTest(ToolTest):
    """The page that leaks makes of dumps."""

    tool = "leaks"

    def page_of(self, *dumps: DumpWriter, options: Tuple[str, ...] = ()) -> str:
        """Returns the page of dumps."""
        files = [f"dump-{number}" for number in range(len(dumps))]
        for file, dump in zip(files, dumps):
            dump.write(file)
        ended = self.ran(*options, "--html", "page.html", *files)
        self.assertEqual(ended.status, 0, ended.said)
        return pathlib.Path("page.html").read_text(encoding="utf-8")

    def texts(self, html: str, begin: str, end: str) -> str:
        """Returns the text of a page between the head of a section and that of another."""
        return Outline(html).text().rpartition(f" {begin} ")[2].partition(f" {end} ")[0]

    def charts(self, html: str) -> str:
        """Returns the lines of the charts of a page, without those of the legend."""
        return "".join(re.findall(r'<svg class="lines".*?</svg>', html, re.S))

    def test_what_dumps_do_not_show(self) -> None:
        """If more is unreachable in the last dump, the page says so and why, also if that is little."""
        after = cache(160, 12)
        after.values(9000, BYTE, bytes(5))
        html = self.page_of(cache(40), after)
        said = self.texts(html, "What dumps do not show", "Terms")
        self.assertTrue(
            said.startswith("In the last dump, 1 object more, 5 bytes more are unreachable: garbage in"), said
        )
        self.assertNotIn("Not in these figures", html)
        said = self.texts(self.page_of(cache(40), cache(160, 12)), "What dumps do not show", "Terms")
        self.assertTrue(said.startswith("Memory outside of the heap: "), said)

    def test_what_line_1_holds(self) -> None:
        """What line 1 holds is said class by class, and a part of the picture of the last heap by itself, with its
        arrays."""
        html = self.page_of(cache(40), cache(160, 12))
        holds = self.texts(html, "What line 1 holds", "Next").replace("\u00a0", " ")
        self.assertIn("byte[] +2.4 kB +120 objects 40 to 160 800 bytes to 3.2 kB shop/Order +960 bytes", holds)
        made_of = self.texts(html, "Part of the heap Objects Bytes Share of the heap", "All reachable")
        wanted = "held by shop/Cache.table 321 5.8 kB 61% byte[] 160 3.2 kB 34% shop/Order 160 1.3 kB 14% "
        self.assertTrue(made_of.replace("\u00a0", " ").startswith(wanted), made_of)
        self.assertIn(" arrays of numbers 100 2.0 kB 21% byte[] 100 2.0 kB 21% shop 102 1.6 kB 17% ", made_of)

    def test_dumps_between(self) -> None:
        """What line 1 holds is drawn as it was measured in a dump between: not as the line from the first to the
        last. Of more dumps than are asked its dots are those that were."""
        dumps = [noisy(count, 100, minutes) for minutes, count in enumerate((20, 30, 80))]
        html = self.page_of(*dumps)
        for points in re.findall(r'<g class="line held"><polyline points="([^"]*)"', self.charts(html)):
            (_, first), (_, middle), (_, last) = [map(float, point.split(",")) for point in points.split()]
            self.assertAlmostEqual((first - middle) / (first - last), 10 / 60, delta=0.02)
        self.assertEqual(self.charts(html).count('<g class="line held">'), 3)
        self.assertNotIn("measured at the dots", html)
        dumps = [noisy(20 + 10 * minutes, 100, minutes) for minutes in range(7)]
        html = self.page_of(*dumps)
        dots = re.findall(r'<g class="dots held">((?:<rect[^>]*/>)+)</g>\n', html)
        self.assertEqual([group.count("<rect") for group in dots], [5] * 3)
        self.assertIn("measured at the dots", html)

    def test_weak_references(self) -> None:
        """That weak references are followed is said at the top, whether it was asked for or most of what grew is held
        by them alone; else it is not said."""
        both = finalizers(20, 20), finalizers(80, 80, 12)
        most, asked = "so these references are followed.", "phantom references hold counts, too."
        for dumps, options, wanted in (
            (both, (), [most]),
            (both, ("--weak",), [asked]),
            ((cache(40), cache(160, 12)), (), []),
        ):
            top = Outline(self.page_of(*dumps, options=options)).text().partition(" The heap over the dumps ")[0]
            self.assertEqual([each for each in (most, asked) if each in top], wanted)

    def test_what_is_asked(self) -> None:
        """If it is not the growth of the heap that counts, the top says what does, and why."""
        files = [pathlib.Path(f"{name}.hprof") for name in ("before", "after")]
        files[0].write_bytes(buffers(10, 20))
        files[1].write_bytes(buffers(60, 21, 12))
        ended = self.ran("--html", "page.html", *map(str, files))
        self.assertEqual(ended.status, 0, ended.said)
        top = Outline(pathlib.Path("page.html").read_text(encoding="utf-8")).text()
        counted = "only objects of java/nio/DirectByteBuffer count, and shares are of their number"
        self.assertIn(f"the heap grew by less; so {counted}.", top)

    def test_classes_without_a_name(self) -> None:
        """A class that no record names has its number for a name: in the headline, on its line, and in the command."""
        html = self.page_of(unnamed(40), unnamed(160, 12))
        text = Outline(html).text()
        self.assertIn("Static field ?0x6.CACHE holds ", text)
        self.assertIn("1 static field ?0x6.CACHE ", text)
        self.assertIn("held dump-1 'static ?0x6.CACHE'", text)

    def test_names_of_threads(self) -> None:
        """The name of a thread is text, also if it has HTML, and of a control character its bytes are shown."""
        for name, shown in ("a\x1b[31mb", "a\\x1b[31mb"), ("<b>bold</b>", "<b>bold</b>"):
            html = self.page_of(handler(20, name), handler(80, name))
            self.assertNotIn("\x1b", html)
            self.assertEqual(Outline(html).all("b"), [])
            self.assertIn(f'"{shown}"', Outline(html).text())


if __name__ == "__main__":
    unittest.main()
