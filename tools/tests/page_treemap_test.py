"""The treemap of the last heap: its groups, and its boxes."""

import re
import unittest
from typing import List, Tuple

from heap_tools import page
from heap_tools.page import treemap, treemap_picture
from heap_tools.reports import Amount
from tests.support import page_sample
from tests.support.outline import Outline


class TreemapTest(unittest.TestCase):
    """What the last heap is made of."""

    def test_packages(self) -> None:
        """The group of a class."""
        table = {
            "com/acme/shop/catalog/Product": "com/acme/shop",
            "[[Ljava/util/HashMap$Node;": "java/util",
            "byte[]": "arrays of numbers",
            "[[I": "arrays of numbers",
            "<class>": "classes",
            "Main": "no package",
            "[LMain;": "no package",
            "?0x7f": "no package",
        }
        for name, package in table.items():
            with self.subTest(name):
                self.assertEqual(treemap.package_of(name), package)

    def test_short_names(self) -> None:
        """The name of a class in its box."""
        table = {"a/B$C": "B$C", "[[La/B;": "B[][]", "byte[]": "byte[]", "Main": "Main", "<class>": "<class>"}
        for name, short in table.items():
            with self.subTest(name):
                self.assertEqual(treemap.short_name(name), short)

    def test_number_alone(self) -> None:
        """Small ones are shown as one, unless there is only one; so are those for which there is no room."""
        cases: List[Tuple[List[int], int, int]] = [
            ([100, 50, 9], 5, 3),
            ([100, 50, 9, 9], 5, 2),
            ([100, 50, 40], 2, 1),
            ([100, 50, 40], 3, 3),
            ([9, 9], 5, 0),
            ([], 5, 0),
        ]
        for sizes, most, wanted in cases:
            self.assertEqual(treemap.number_alone(sizes, most, 10), wanted, sizes)

    def test_small(self) -> None:
        """A package or class of less than a 100th is not shown alone: its box would have no room for a name."""
        sizes = {"a/a/a/A": 9_750, "b/b/b/B": 101, "c/c/c/C": 99, "d/d/d/D": 50}
        groups = treemap.groups_of({name: Amount(1, size) for name, size in sizes.items()}, 9, 9)
        self.assertEqual([group.name for group in groups], ["a/a/a", "b/b/b", None])

    def test_own_code_is_set_off(self) -> None:
        """Packages of the program and its libraries have other colours than those of the JDK, and arrays."""
        sizes = {"com/acme/Order": 40, "java/util/HashMap$Node": 30, "byte[]": 20, "Main": 10, "[Lorg/lib/Entry;": 9}
        groups = treemap.groups_of({name: Amount(1, size) for name, size in sizes.items()}, 9, 9)
        colours = dict(zip([group.name for group in groups], treemap_picture.colours_of(groups)))
        self.assertEqual(
            colours,
            {
                "com/acme": "colour-own-0",
                "java/util": "colour-jdk-0",
                "arrays of numbers": "colour-jdk-1",
                "no package": "colour-own-1",
                "org/lib": "colour-own-2",
            },
        )
        self.assertEqual(treemap_picture.colours_of([treemap.Group(None, [])]), ["colour-rest"])

    def test_labels_are_whole(self) -> None:
        """A box has the whole name of its class, in lines if need be, or none of it; then its bytes."""
        part = treemap.Part("java/util/concurrent/ConcurrentHashMap$Node", 1, Amount(1, 2_200_000))
        rest = treemap.Part(None, 95, Amount(100, 1_100_000))
        for it, width, height, wanted in [
            (part, 300, 100, ["ConcurrentHashMap$Node", "2.2\u00a0MB"]),
            (part, 144, 100, ["ConcurrentHashMap$", "Node", "2.2\u00a0MB"]),
            (part, 100, 100, ["Concurrent", "HashMap$Node", "2.2\u00a0MB"]),
            (part, 100, 32, ["Concurrent", "HashMap$Node"]),
            (part, 100, 20, []),
            (part, 60, 100, []),
            (rest, 64, 100, ["95 more", "1.1\u00a0MB"]),
            (rest, 20, 100, []),
        ]:
            with self.subTest(f"{width} {height}"):
                box = treemap.Box(0, 0, width, height)
                self.assertEqual(treemap_picture.box_labels(it, box), wanted)
                self.assertNotIn("…", treemap_picture.cell(it, box, box, 10**8))
        narrow = treemap.Box(0, 0, 20, 100)
        self.assertIn("rotate(90)", treemap_picture.cell(rest, narrow, narrow, 10**8))

    def test_labels_of_groups(self) -> None:
        """A package has its name and its bytes, or as much as there is room for: never a part of a word."""
        group = treemap.Group("java/util/concurrent", [treemap.Part("java/util/concurrent/A", 1, Amount(1, 3_400_000))])
        for width, wanted in [
            (300, "java/util/concurrent  3.4\u00a0MB"),
            (168, "java/util/concurrent"),
            (155, "concurrent  3.4\u00a0MB"),
            (90, "concurrent"),
            (40, ""),
        ]:
            lines, size = treemap_picture.group_label(group, width)
            self.assertEqual("".join(lines) + size, wanted, width)
        held = treemap.Group(None, group.parts, fields=[page_sample.field("static com/acme/Shop.ORDERS")])
        for width, wanted in [
            (400, "held by static com/acme/Shop.ORDERS  3.4\u00a0MB"),
            (300, "held by static com/acme/Shop.ORDERS"),
            (250, "held by Shop.ORDERS  3.4\u00a0MB"),
            (180, "held by Shop.ORDERS"),
            (150, "Shop.ORDERS"),
            (80, "Shop.|ORDERS"),
            (40, ""),
        ]:
            lines, size = treemap_picture.group_label(held, width)
            self.assertEqual("|".join(lines) + size, wanted, width)

    def test_groups_lose_nothing(self) -> None:
        """The groups have all objects, bytes and classes."""
        classes = page_sample.classes()
        whole = treemap.total_of(classes.values())
        for most in (1, 2, 3, 50):
            with self.subTest(most):
                groups = treemap.groups_of(classes, most, most)
                self.assertLessEqual(len(groups), most)
                self.assertEqual(treemap.total_of(group.amount for group in groups), whole)
                self.assertEqual(sum(part.classes for group in groups for part in group.parts), len(classes))

    def test_what_is_held(self) -> None:
        """What something holds is a group of its own, with its arrays, before the packages of all else; what is held in
        it is a group within it. Nothing is lost, and nothing is in two groups."""
        classes = {"byte[]": Amount(90, 9_000), "a/b/Order": Amount(10, 600), "c/d/Page": Amount(10, 400)}
        orders, pages = page_sample.field("static a/b/Shop.ORDERS"), page_sample.field("c/d/Cache.pages")
        texts = page.ShareEntry([page_sample.field("a/b/Order.text")], {"byte[]": Amount(50, 5_000)})
        shares = [
            page.ShareEntry([pages], {"c/d/Page": Amount(9, 360), "byte[]": Amount(20, 2_000)}),
            page.ShareEntry([orders], {"a/b/Order": Amount(10, 600)}, [texts]),
        ]
        first, second, *rest = treemap.groups_of(classes, 9, 9, shares)
        self.assertEqual([first.fields, second.fields], [[orders], [pages]])
        self.assertEqual(first.parts, [treemap.Part("a/b/Order", 1, Amount(10, 600))])
        self.assertEqual(
            [(it.fields, it.parts) for it in first.groups],
            [(texts.fields, treemap.parts_of(treemap.rows_of(texts.classes), treemap.Most(9, 9, 0)))],
        )
        self.assertEqual([it.name for it in second.parts], ["byte[]", "c/d/Page"])
        self.assertEqual(
            [(it.name, it.amount) for it in rest], [("arrays of numbers", Amount(20, 2_000)), ("c/d", Amount(1, 40))]
        )
        self.assertEqual(first.amount, Amount(60, 5_600))
        whole = treemap.total_of(classes.values())
        self.assertEqual(treemap.total_of(it.amount for it in (first, second, *rest)), whole)
        self.assertEqual(first.children(), [*first.groups, *first.parts])

    def test_shares_that_are_small(self) -> None:
        """What holds less than a 100th of the heap is among the packages, or within another one among its classes; so
        is what is too much for the picture. If a caller says more of a class than there is, none of it is left."""
        classes = {"byte[]": Amount(100, 10_000), "a/b/C": Amount(10, 1_000)}
        fields = [page_sample.field(f"static a/b/C.f{number}") for number in range(3)]
        small = page.ShareEntry([fields[0]], {"byte[]": Amount(1, 90)})
        large = page.ShareEntry([fields[1]], {"byte[]": Amount(20, 2_000)}, [small])
        larger = page.ShareEntry([fields[2]], {"byte[]": Amount(30, 3_000)})
        for shares, most, wanted in [
            ([small], 9, [([], 10_000), ([], 1_000)]),
            ([large], 9, [([fields[1]], 2_090), ([], 7_910), ([], 1_000)]),
            ([large, larger], 2, [([fields[2]], 3_000), ([fields[1]], 2_090), ([], 4_910), ([], 1_000)]),
            ([large, larger], 1, [([fields[2]], 3_000), ([], 8_000)]),
            ([page.ShareEntry([fields[0]], {"byte[]": Amount(101, 9_000)})], 9, [([fields[0]], 9_000), ([], 1_000)]),
        ]:
            groups = treemap.groups_of(classes, most, 9, shares)
            self.assertEqual([(it.fields, it.amount.bytes) for it in groups], wanted)
            self.assertEqual([it.groups for it in groups], [[]] * len(groups))

    def test_what_is_held_is_drawn(self) -> None:
        """What something holds has its name, its colour, and a box in it for each class and for what is held in it; the
        description and the table have the same."""
        shares = [
            page_sample.share("static a/b/Shop.ORDERS", {"byte[]": (9, 9_000_000)}, ("a/b/Order.text", 4_000_000))
        ]
        html = page.html_of(page_sample.leak(shares=shares))
        drawn = re.findall(r'<svg class="treemap wide".*?</desc>(.*?)\n</svg>\n<svg class="treemap', html, re.S)[0]
        boxes = re.findall(r'<svg class="(group [\w-]+|cell)"|<text class="group-name"[^>]*><tspan>([^<]*)<', drawn)
        kinds = [kind or text.replace("\u00a0", " ") for kind, text in boxes]
        self.assertEqual(
            kinds[:7],
            [
                "group colour-line-0",
                "held by Shop.ORDERS",
                "cell",
                "group colour-line-0",
                "held by a/b/Order.text",
                "cell",
                "group colour-jdk-0",
            ],
        )
        text = Outline(html).text().replace("\u00a0", " ")
        self.assertIn("The heap by what holds it, and by package and class", text)
        self.assertIn("held by static a/b/Shop.ORDERS 22%, java/lang 29%", text)
        self.assertIn(
            "held by a/b/Shop.ORDERS 109 13.0 MB 22% byte[] 9 9.0 MB 15% held by a/b/Order.text 100 4.0", text
        )
        self.assertIn('<tr class="inner">', html)
        self.assertNotIn("what holds it, and by package", page.html_of(page_sample.leak()))

    def test_places_are_parts_of_the_width(self) -> None:
        """A box is where it is in the picture, across as a part of its width."""
        frame, box = treemap.Box(100, 50, 400, 200), treemap.Box(200, 60, 100, 40)
        wanted = {"x": "25.00%", "width": "25.00%", "y": "10.0", "height": "40.0"}
        self.assertEqual(treemap_picture.place_of(box, frame), wanted)

    def test_boxes_fill_the_box(self) -> None:
        """Each box is as large as its weight, and within the whole."""
        for weights in [[1], [6, 6, 4, 3, 2, 2, 1], [10**12, 1, 1], list(range(100, 0, -1))]:
            with self.subTest(len(weights)):
                boxes = treemap.boxes_of(weights, treemap.Box(0, 0, 600, 400))
                self.assertEqual(len(boxes), len(weights))
                for weight, box in zip(weights, boxes):
                    self.assertAlmostEqual(box.width * box.height, weight / sum(weights) * 240_000, delta=0.01)
                    self.assertGreaterEqual(min(box.x, box.y), 0)
                    self.assertLess(max(box.x + box.width - 600, box.y + box.height - 400), 0.01)

    def test_no_box_is_no_fault(self) -> None:
        """A box without room has no boxes."""
        self.assertEqual(treemap.boxes_of([1], treemap.Box(0, 0, 0, 10)), [])


if __name__ == "__main__":
    unittest.main()
