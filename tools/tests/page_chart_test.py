"""The pictures of amounts over the dumps: the chart of the heap, and the small lines of the classes."""

import dataclasses
import itertools
import re
import unittest
from typing import List, Optional, Tuple

from heap_tools import page
from heap_tools.page import chart, chart_labels, chart_lines, small_lines
from heap_tools.page.words import bare, full
from tests.support import page_sample
from tests.support.outline import Outline
from tests.support.page_sample import NOON, full_leak, leak, leak_from, uneven

Points = List[Tuple[float, float]]


def points_of(text: str) -> Points:
    """Returns the points of a line of SVG."""
    return [(float(x), float(y)) for x, y in re.findall(r"([\d.]+),([\d.]+)", text)]


def lines_in(html: str, kind: str) -> List[Points]:
    """Returns the points of each line of this kind, one for each width."""
    drawn = "".join(re.findall(r'<svg class="lines".*?</svg>', html, re.S))
    found = re.findall(rf'<g class="line {kind}">.*?<polyline points="([^"]*)"', drawn, re.S)
    return [points_of(each) for each in found]


def lines_of(it: page.Leak) -> List[chart_lines.Series]:
    """Returns the lines of the chart of a leak."""
    return chart_lines.series_of(it, chart_lines.time_places(it.dumps))


class ChartTest(unittest.TestCase):
    """The chart and the small lines of leaks that are made for it."""

    def drawn(self, it: page.Leak) -> str:
        """Returns the chart of a leak."""
        return chart.chart(it, page.LIMITS[0])

    def test_places_are_those_of_the_times(self) -> None:
        """Chart and small lines place dumps by their times, so that what grows steadily is straight."""
        it = uneven([0, 1, 2, 30, 60])
        (small,) = re.findall('<svg class="small-line".*?<polyline points="([^"]*)"', page.html_of(it), re.S)
        lines = lines_in(self.drawn(it), "reachable") + [points_of(small)]
        self.assertEqual(len(lines), 1 + len(chart.CHARTS))
        for points in lines:
            (left, bottom), *between, (right, top) = points
            self.assertEqual([round((x - left) / (right - left) * 60) for x, _ in between], [1, 2, 30])
            for x, y in between:
                self.assertAlmostEqual(y, bottom + (x - left) / (right - left) * (top - bottom), delta=0.15)

    def test_places_without_times(self) -> None:
        """Without rising times the dumps are evenly placed."""
        dumps = leak().dumps
        cases: List[List[Optional[int]]] = [[None] * 3, [NOON] * 3, [NOON, NOON + 2, NOON + 1], [NOON, None, NOON + 1]]
        for times in cases:
            given = [dataclasses.replace(dump, time=time) for dump, time in zip(dumps, times)]
            self.assertEqual(chart_lines.time_places(given), [0, 0.5, 1])

    def test_what_is_held(self) -> None:
        """What the first holder holds has a dot at each dump in which it was measured, and no area. Its line is dashed,
        and the legend says why, unless it was measured in each dump."""
        it = leak()
        first, *others = it.holders
        measured = [dataclasses.replace(first, between={1: page.Amount(9_000, 6_000_000)}), *others]
        two = leak(dumps=[it.dumps[0], it.dumps[-1]])
        for each, places, kind in [
            (it, [0, -1], "held partial"),
            (leak(holders=measured), [0, 1, -1], "held"),
            (two, [0, -1], "held"),
        ]:
            with self.subTest(kind):
                html = self.drawn(each)
                for points, reachable in zip(lines_in(html, kind), lines_in(html, "reachable")):
                    self.assertEqual([x for x, _ in points], [reachable[at][0] for at in places])
                drawn = "".join(re.findall(r'<svg class="lines".*?</svg>', html, re.S))
                groups = re.findall(r'<g class="line ([\w ]+)">(.*?)</g>', drawn, re.S)
                self.assertEqual([name for name, _ in groups], ["reachable", kind] * len(chart.CHARTS))
                self.assertEqual(["polygon" in group for _, group in groups], [True, False] * len(chart.CHARTS))
                dots = re.findall(r'<g class="dots held">((?:<rect[^>]*/>)+)</g>\n<text', html)
                self.assertEqual([group.count("<rect") for group in dots], [len(places)] * len(chart.CHARTS))
                text = Outline(page.html_of(each)).text()
                self.assertEqual("METERS, measured at the dots" in text, "partial" in kind)
        heights = [y for _, y in lines_in(self.drawn(leak(holders=measured)), "held")[0]]
        self.assertLess(heights[0] - heights[1], (heights[0] - heights[2]) / 5)
        self.assertRegex(page.html_of(it), r"g\.line\.partial polyline {[^}]*stroke-dasharray")

    def test_lines_differ_without_colour(self) -> None:
        """Each line has a dot of another form, its name at its end, and both in the legend."""
        html = self.drawn(full_leak())
        legend = re.findall(r'<span class="key (\w+)"><svg class="sample".*?<g class="dots \1"><(\w+)', html, re.S)
        self.assertEqual(legend, [("reachable", "circle"), ("unreachable", "circle"), ("held", "rect")])
        self.assertRegex(page.html_of(full_leak()), r"\.dots\.unreachable circle {\s*fill: var\(--paper\)")
        names = re.findall(r'<text class="label (\w+)"[^>]*>[^<]*<tspan class="of"[^>]*> ?(\w+)<', html)
        self.assertEqual(names, [(kind, kind) for kind in ("reachable", "held", "unreachable")] * len(chart.CHARTS))

    def test_described(self) -> None:
        """The chart in words has each line that is drawn, with all of its numbers."""
        it = full_leak()
        (described,) = set(re.findall(r"<desc id=\"chart-\w+-description\">([^<]*)<", self.drawn(it)))
        first, sentences = it.holders[0], described.split(". ")
        amounts = [
            ("Reachable bytes: ", dict(enumerate(dump.reachable for dump in it.dumps))),
            ("Held by static com/acme/shop/metrics/MetricsService.METERS: ", {0: first.before.amount}),
            ("Unreachable bytes: ", dict(enumerate(dump.unreachable for dump in it.dumps))),
        ]
        amounts[1][1][2] = first.after.amount
        self.assertEqual(len(sentences), len(amounts))
        for sentence, (begin, wanted) in zip(sentences, amounts):
            texts = [f"{full(amount.bytes, it.by)} in dump {number + 1}" for number, amount in wanted.items()]
            self.assertEqual(sentence.rstrip("."), begin + ", ".join(texts))
        self.assertNotIn("Held by", self.drawn(leak(of_class="a/B")))

    def test_room_for_the_axis(self) -> None:
        """The numbers of the axis are within the picture, also of many objects."""
        many = page.Amount(16_777_216, 41_208_334)
        objects = leak(by=page.Unit.OBJECTS, dumps=[dataclasses.replace(dump, reachable=many) for dump in leak().dumps])
        for it in leak(), objects:
            html = self.drawn(it)
            self.assertEqual(len(re.findall(r'<text class="axis"[^>]*>[^<]*UTC<', html)), len(chart.CHARTS))
            for picture, size in zip(html.split('</svg>\n<svg class="chart'), chart.CHARTS):
                (left,) = map(float, re.findall(r"--left: ([\d.]+)px", picture))
                numbers = re.findall(r'<text class="axis" x="(-[\d.]+)"[^>]*text-anchor="end">([^<]*)<', picture)
                self.assertGreaterEqual(len(numbers), 3 * size.has_axis)
                for x, text in numbers:
                    self.assertGreaterEqual(left + float(x) - chart.LETTER * len(text), 0, text)

    def test_heights_of_the_grid(self) -> None:
        """The lines of the grid are as far apart as their numbers, on the scale of what is drawn."""
        it = leak()
        html = self.drawn(it)
        numbers, step = ["0\u00a0bytes", "20.0\u00a0MB", "40.0\u00a0MB"], 20_000_000
        pattern = r'<line class="grid"[^>]* y1="([\d.]+)" y2="\1"/>\s*<text class="axis"[^>]* y="\1"[^>]*>([^<]*)<'
        for picture, points, size in zip(html.split("</desc>")[1:], lines_in(html, "reachable"), chart.CHARTS):
            grid = re.findall(pattern, picture) if size.has_axis else [("0", "")] * 3
            if size.has_axis:
                self.assertEqual([text for _, text in grid], numbers)
                floor, one, two = (float(y) for y, _ in grid)
                self.assertGreater(floor, one + 20)
                self.assertAlmostEqual(floor - two, 2 * (floor - one), delta=0.2)
            else:
                self.assertEqual(picture.count('<line class="grid"'), 1)
                floor = float(re.findall(r'<line class="grid"[^>]* y1="([\d.]+)"', picture)[0])
                one = floor - (floor - points[0][1]) * step / it.dumps[0].reachable.bytes
            for dump, (_, y) in zip(it.dumps, points):
                self.assertAlmostEqual(floor - y, (floor - one) * dump.reachable.bytes / step, delta=0.4)

    def test_numbers_have_the_style_of_their_line(self) -> None:
        """Each number is drawn in the style of the line whose point it is at."""
        it = full_leak()
        first = it.holders[0]
        amounts = {
            "reachable": [dump.reachable.bytes for dump in it.dumps],
            "held": [first.before.amount.bytes, first.after.amount.bytes],
            "unreachable": [dump.unreachable.bytes for dump in it.dumps],
        }
        labels = re.findall(r'<text class="label (\w+)"[^>]*>([^<]*)<', self.drawn(it))
        self.assertEqual({kind for kind, _ in labels}, set(amounts))
        for kind, text in labels:
            self.assertIn(text, [bare(amount, it.by) for amount in amounts[kind]], kind)

    def test_ends_have_their_numbers(self) -> None:
        """No line is without the number of its first point or of its last one, however steep it is and however near to
        another: in each drawing all are beside the lines, within the picture, clear of each other and near their
        points, in the order of these."""
        heaps = [(60, 55, 0), (60, 59, 58), (5, 1, 0), (5, 5, 5), (60, 1, 60), (1, 0, 0)]
        for first, last, size in itertools.product(heaps, heaps, chart.CHARTS):
            it = leak_from(first, last)
            lines = lines_of(it)
            scale = chart.scale_of(lines, chart.grid_numbers(60_000_000), size, it.by)
            points = [[(scale.x(it.place), scale.y(it.number)) for it in series.points] for series in lines]
            texts = [chart.numbers_of(series.points, it.by) for series in lines]
            gap = chart.TEXT_HEIGHT * (1 + size.is_stacked)
            ends = chart_labels.labels_of_ends(points, texts, gap, 12, scale.floor)
            self.assertEqual([label.text for label in ends], [t[0] for t in texts] + [t[-1] for t in texts])
            for labels, at, apart in ((ends[: len(lines)], 0, chart.TEXT_HEIGHT), (ends[len(lines) :], -1, gap)):
                order = sorted(labels, key=lambda label: (points[label.line][at][1], label.line))
                for upper, lower in zip(order, order[1:]):
                    self.assertGreaterEqual(lower.y - upper.y, apart - 0.01)
                for label in labels:
                    self.assertTrue(label.right < 0 if at == 0 else label.left > scale.width)
                    self.assertGreaterEqual(label.left, -scale.left)
                    self.assertLessEqual(label.right, scale.width + scale.right)
                    self.assertGreaterEqual(label.y, 12 - 0.01)
                    self.assertLessEqual(label.y, scale.floor + 5)
                    self.assertLess(abs(label.y - points[label.line][at][1]), len(lines) * apart)

    def test_texts_are_moved_apart(self) -> None:
        """Texts that would overlap are moved apart, each as little as can be, and not out of the picture."""
        cases: List[Tuple[List[float], List[float]]] = [
            ([50, 80], [50, 80]),
            ([50, 50], [45, 55]),
            ([52, 50], [56, 46]),
            ([50, 54, 90], [47, 57, 90]),
            ([50, 50, 50], [40, 50, 60]),
            ([5, 5], [10, 20]),
            ([99, 99], [90, 100]),
            ([], []),
        ]
        for heights, wanted in cases:
            self.assertEqual(chart_labels.moved_apart(heights, 10, 10, 100), wanted)

    def test_numbers_between_are_clear(self) -> None:
        """Numbers between the ends are clear of each other, of those of the ends, of the lines, and of the axis."""
        first, middle, last = full_leak().dumps
        amounts = [0, 84, 1_800_000, 4_000_000, 14_500_118, 30_000_000, 58_000_000]
        count = 0
        for begin, end in itertools.product(amounts, amounts):
            dumps = [
                dataclasses.replace(first, unreachable=page.Amount(1, begin)),
                middle,
                dataclasses.replace(last, unreachable=page.Amount(1, end)),
            ]
            it = leak(dumps=dumps)
            lines = [
                [(600 * point.place, 200 - point.number / 300_000) for point in each.points] for each in lines_of(it)
            ]
            texts = [chart.numbers_of(each.points, it.by) for each in lines_of(it)]
            ends = chart_labels.labels_of_ends(lines, texts, 13, 12, 200)
            found = chart_labels.labels_between(lines, texts, ends, 200)
            count += len(found)
            for label, other in itertools.combinations([*ends, *found], 2):
                self.assertTrue(label.is_clear_of(other), (label, other))
            for label in found:
                self.assertLess(label.y, 200 - chart_labels.CLEAR)
                self.assertFalse(any(label.is_crossed_by(points) for points in lines), label)
                self.assertNotIn(label.text, ["0\u00a0bytes", "84\u00a0bytes"])
        self.assertGreaterEqual(count, len(amounts) ** 2)

    def test_times_have_room(self) -> None:
        """The first and the last time are there in a narrow chart, too, also with their days; none is on another."""
        for texts, count in [
            (["12:00:00", "12:06:00", "12:12:00 UTC"], 2),
            (["2026-11-27 12:00", "2026-11-28 12:00", "2026-11-29 12:00 UTC"], 2),
            (["dump 1", "dump 2", "dump 3"], 3),
        ]:
            found = chart_labels.labels_of_times([0, 65, 130], texts, 230, (-86, 220))
            self.assertEqual([label.text for label in found][:2], [texts[2], texts[0]])
            self.assertEqual(len(found), count)
            for label, other in itertools.combinations(found, 2):
                self.assertTrue(label.is_clear_of(other), texts)
            for label in found:
                self.assertTrue(-86 <= label.left and label.right <= 220, label)

    def test_what_crosses_a_number(self) -> None:
        """A line crosses a text if it comes into its box, however it runs."""
        label = chart_labels.Label(0, "1234567890", 100, 50, "start")
        for points, wanted in [
            ([(0, 45), (300, 45)], True),
            ([(0, 39), (300, 39)], False),
            ([(0, 54), (300, 54)], False),
            ([(0, 0), (300, 100)], True),
            ([(0, 45), (99, 45)], False),
            ([(180, 45), (300, 45)], False),
            ([(140, 0), (140, 100)], False),
            ([(0, 100), (90, 100), (140, 45), (190, 100)], True),
        ]:
            self.assertEqual(label.is_crossed_by(points), wanted, points)

    def test_small_lines_have_one_scale(self) -> None:
        """A small line rises as much as its class grew, whatever it had before; with two dumps there are none."""
        one = page_sample.grown("A", (1, 1_000_000), (1, 1_000_000), (1, 1_000_100))
        two = page_sample.grown("B", (1, 0), (1, 400_000), (1, 1_000_000))
        html = page.html_of(leak(grown=[two, one]))
        steep, flat = [
            points_of(each) for each in re.findall('<svg class="small-line".*?<polyline points="([^"]*)"', html, re.S)
        ]
        room = small_lines.SMALL_HEIGHT - 8
        self.assertAlmostEqual(steep[0][1] - steep[2][1], room, delta=0.1)
        self.assertAlmostEqual(steep[0][1] - steep[1][1], 0.4 * room, delta=0.1)
        self.assertLess(flat[0][1] - flat[2][1], 0.1)
        ends = leak(dumps=[leak().dumps[0], leak().dumps[2]], grown=[page_sample.grown("B", (1, 0), (1, 400_000))])
        self.assertNotIn('class="small-line"', page.html_of(ends))
        self.assertNotIn("Over the dumps", Outline(page.html_of(ends)).text())

    def test_many_dumps(self) -> None:
        """Of many dumps, evenly chosen ones are drawn, the first and the last among them."""
        items = list(range(1000))
        found = chart_lines.sampled(items)
        self.assertEqual((found[0], found[-1], len(found)), (0, 999, chart_lines.MOST_POINTS))
        self.assertEqual(chart_lines.sampled(items[:60]), items[:60])

    def test_nothing_at_all(self) -> None:
        """Empty heaps have a chart, too."""
        dumps = [dataclasses.replace(dump, reachable=page.Amount(), unreachable=page.Amount()) for dump in leak().dumps]
        self.assertIn("0\u00a0bytes", self.drawn(leak(dumps=dumps, holders=[])))


if __name__ == "__main__":
    unittest.main()
