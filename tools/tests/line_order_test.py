"""Tests the order of the lines of leaks alone: rows of features in, the answer out, a row for each rule and pair.

A row is why, a colon, and lines, of which the answer has a star. In `A > B`, A holds all that B does. Words in
parentheses after a name are what the line gained of 1,000, its instances before and now as `2..9`, of `9/99` nine with
a value, and others; all else is as in `SPOKEN`."""

import itertools
import unittest
from dataclasses import replace
from typing import Any, Dict, List, NamedTuple, Sequence, Set, Tuple

from heap_tools import line_order
from heap_tools.candidates import FEW, FIELD, LOCAL, STATIC, THREAD, THREADS
from heap_tools.commands import leaks
from heap_tools.line_features import Features, evenness
from heap_tools.line_order import LASTS, MOST, MOST_ASKED, NEARLY, LineOrder, Scoring, part_gained
from tests.support.tool_test import TOP

GROWTH = 1000
#: What words in parentheses mean. `moved`: what gained nothing, and is no line; `other`: it gained what others lost.
SPOKEN: Dict[str, Dict[str, Any]] = {
    "null": {"before": 0},
    "large": {"before": 9000},
    "had": {"before": 400},
    "one": {"of_one": 0.9},
    "half": {"of_one": 0.6},
    "each": {"of_each": 1.0},
    "largest": {"of_largest": 0.8},
    "elements": {"of_elements": 0.9},
    "unsteady": {"evenness": 0.0},
    "odd": {"evenness": 0.5},
    "uneven": {"evenness": 0.4},
    "jump": {"evenness": 0.1},
    "chain": {"is_chain": True},
    "together": {"kinds": (STATIC, STATIC)},
    "roots": {"kinds": (STATIC, THREAD)},
    "moved": {"is_line": False, "gain": 0},
    "few": {"gains": {"byte[]": 9}},
    "other": {"is_line": False, "gain": 0, "gains": {"shop/Order": 900}},
}

ROWS = """
rule 1, the largest gain: *static shop/A.a (600), static shop/B.b (400)
rule 1, not what is large: *static shop/A.a (600), static shop/B.b (400 large)
rule 1, new instances do not count: *static shop/A.a (400), shop/Order.text (10..110)
rule 1, classes alike that came are no instances: *static shop/V$$*.v (900 100..2690), static shop/B.b (400)
rule 1, classes of one name are: static shop/V.v (900 10..2690), *static shop/B.b (400)
rule 1, each of many gained, and some came: *shop/A.a (900 100..110), static shop/B.b (400)
rule 1, each of many gained, but new ones may hold most: shop/A.a (900 100..110 largest), *static shop/B.b (400)
rule 1, new ones hold most, and those before gained most: *shop/A.a (900 100..110 largest), static shop/B.b (99)
rule 1, few came, which may hold most: *shop/A.a (900 2..8 null largest), static shop/B.b (400)
rule 1, few came, which would have held nothing: *shop/A.a (900 2..8 null), static shop/B.b (400)
rule 1, many came, of which few have a value: *shop/A.a (900 2..6/99 null), static shop/B.b (400)
rule 1, many came, and many have a value: shop/A.a (900 2..65/99 null), *static shop/B.b (400)
rule 1, few came, which would have held as much: shop/A.a (700 1..8), *static shop/B.b (400)
rule 1, new instances have no value: *shop/Node.children (900 340/500..351/9999), static shop/B.b (400)
rule 1, new instances have values: shop/Node.children (900 34/500..351/9999), *static shop/B.b (400)
rule 1, what was there has a value now: *shop/A.a (900 0/200..180/201 null), static shop/B.b (400)
rule 1, what came may have the values: shop/A.a (900 0/200..180/999 null), *static shop/B.b (400)
rule 1, it was null: *static shop/A.a (600 0..1 null), static shop/B.b (400)
rule 1, it had no instance: shop/A.a (900 0..9 null), *static shop/B.b (400)
rule 1, one object gained most: *shop/A.a (900 10..110 one), static shop/B.b (400)
rule 1, it moved from below what is above: shop/Swap.s (moved) > shop/A.a (900), *static shop/B.b (400)
rule 1, something else went from there: shop/Swap.s (other) > *shop/A.a (900), static shop/B.b (400)
rule 1, what is below it had it before: shop/A.a (900 null) > shop/C.c (500 had), *static shop/B.b (600)
rule 1, something else went from below it: *shop/A.a (900 null) > shop/C.c (100 had other), static shop/B.b (600)
rule 1, what is below it gained it in few objects: *static shop/A.a > shop/C.c (880 9..99 few), static shop/B.b (400)
rule 1, it did not grow at each step: static shop/A.a (600 unsteady), *static shop/B.b (400)
rule 1, nothing grew at each step: *static shop/A.a (600 unsteady), static shop/B.b (400 unsteady)
rule 1, it gained most in one step: static shop/A.a (900 uneven), *static shop/B.b (400)
rule 1, it gained most in one step, but far more: *static shop/A.a (uneven), static shop/B.b (399)
rule 1, all gained most in one step: *static shop/A.a (900 uneven), static shop/B.b (400 jump)
rule 1, none grew at each step, and that most: *static shop/A.a (900 unsteady), static shop/B.b (400 unsteady)
rule 2, nothing lasts: *shop/Session.orders (9..99) > shop/Order.text (10..110)
rule 2, nothing lasts, of two the one that gained more: threads "job" (900 9..99), *shop/B.b (950 9..99)
rule 2, a quarter lasts: *static shop/A.a (250), shop/Order.text (10..110)
rule 2, less than a quarter lasts: static shop/A.a (249), *shop/Order.text (10..110)
rule 2, little grew at each step: *static shop/A.a (200), static shop/B.b (700 unsteady)
rule 2, what gained most in one step lasts: *static shop/A.a (250 jump), shop/Order.text (10..110 jump)
rule 2, a thread came that did not grow at each step: *shop/Order.text (10..110), thread "job" (unsteady)
rule 3, the deepest: static shop/A.STORE > *shop/Store.map
rule 3, the deepest with half: static shop/A.a > *shop/B.b (500) > shop/C.c (499)
rule 3, of two below it that which gained evenly: static shop/A.a > *shop/B.b (500), shop/C.c (600 uneven)
rule 3, what is below gained most in one step: *static shop/A.a > shop/C.c (900 uneven)
rules 3 and 4, nearly as much, however even: *shop/B.b (950 uneven) > java/lang/L.l (990 odd)
rule 3, what is beside is not deeper: *static shop/A.a, static shop/B.b (600)
rule 4, no collection: *static shop/A.STORE > java/util/HashMap.table
rule 1, a collection beside that has more: *java/util/HashMap.table, static shop/A.a (999)
rule 4, no variable of a lambda: *static shop/A.STORE > shop/Bus$$Lambda.arg$1
rule 4, no thread: thread "main" > *local shop/Main.run
rule 4, no thread above a field of the JDK: thread "main" > *java/lang/Queue.list
rule 4, no thread above several together: thread "main" > *two (together)
rule 4, a thread, if nothing else is there: *thread "main", java/util/HashMap.table (600)
rule 4, no fields of the JDK together: *thread "main" > java/lang/Thread.target (together)
rule 4, a thread rather than a collection: *thread "main" > java/util/HashMap.table
rule 4, no field of the JDK: *static shop/A.STORE > java/lang/Queue.list
rule 4, no field of the JDK, if what is above has half: *static shop/A.a (500) > java/lang/Queue.list
rule 4, one of the JDK rather than a collection: *java/lang/Queue.list > java/util/HashMap.table
rule 1, several together before a healthy catalog: *two (740 together), static shop/Catalog.all (220)
rule 4, several together, and a collection: *two (together), java/util/HashMap.table
rule 4, several of one object, and a single one: *two (together one), static shop/A.a
rule 4, several of one object, and one with far more: two (400 together one), *static shop/A.a
rule 4, several of one object of the JDK: java/lang/Text.value (together one), *static shop/A.a
rule 1, a name that says more, but less: *java/lang/Text.value, static shop/A.a (999)
rules 1 and 2, one object refutes that nothing lasts: threads "job" (900 9..99), *shop/B.b (900 9..99 one)
rules 1 and 2, what moved does not last: shop/Swap.s (moved) > shop/B.b (900), *shop/Order.text (10..110)
rules 1 and 3, the payload is deeper: *static shop/A.STORE > shop/Order.text (10..110)
rules 1 and 3, one object is deeper: static shop/A.STORE > *shop/Tenant.inbox (9..99 one)
rules 1 and 3, elements of the answer are deeper: static shop/A.NET > *shop/Node.edges (9..99 elements)
rules 1 and 3, of elements and payload the former: shop/A.net > *shop/Node.edges (9..99 elements) > shop/E.to (9..99)
rules 1 and 4, elements of the JDK are not: *static shop/A.NET > java/awt/Container.component (9..99 elements)
rules 1 and 3, one object has less than half: *static shop/A.STORE > shop/Tenant.inbox (800 9..99 half)
rules 1 and 4, a field of the JDK of which one object gained most: static shop/A.a > *java/lang/Queue.list (9..9 one)
rules 1 and 4, a collection of which one object did: *static shop/A.a > java/util/HashMap.table (9..9 one)
rules 1 and 4, a name that says more did not last: shop/A.a (9..99) > *java/lang/Queue.list
rules 2 and 3, of what does not last the topmost: *shop/Order.text (10..110) > shop/Order.id (900 10..110)
rules 3 and 4, one of the JDK below several together: two (together) > *java/lang/Thread.threadLocals
rules 3 and 4, several of one object below a single one: static shop/A.a > *two (9..99 together one)
rules 3 and 4, several of several objects below a single one: *static shop/A.a > two (together)
rules 3 and 4, several of each of some objects below a single one: static shop/A.a > *two (9..9 together each)
rules 3 and 4, several together above a collection: *two (together) > java/util/HashMap.table
rules 3 and 4, several together below several half: two (together) > *fields (500 together)
rules 3 and 4, several together below several less: *two (together) > fields (499 together)
rules 3 and 4, a thread and others together above a collection: all (roots) > *java/util/HashMap.table
rules 3 and 4, below a field of the JDK half: java/lang/Queue.list > *shop/A.a (500)
rule 4, a part of a collection: java/util/HashMap.table > *shop/A.a (400), java/util/HashMap.table > shop/B.b (300)
rule 4, the deepest of a part: java/util/HashMap.table > shop/A.a (400) > *shop/C.c (300)
rule 4, too small a part of a collection: *java/util/HashMap.table > shop/A.a (249)
rule 4, no part of a thread: *thread "main" > java/lang/Thread.target (400)
rules 3 and 4, below a collection half: static shop/A.STORE > java/util/HashMap.table > *shop/Tenant.inbox (500)
"""
#: Rows of one dump.
OF_ONE_DUMP = """
the deepest: static shop/A.STORE > *shop/Store.map
few instances: static shop/A.STORE > *shop/Pool.list (0..64)
many instances: *static shop/A.STORE > shop/Order.text (0..65)
many instances, of which few have a value: static shop/A.STORE > *shop/Order.text (0..64/500)
many instances, of which some have a value: *static shop/A.STORE > shop/Order.text (0..65/500)
many classes alike: *static shop/V$$*.v (0..2690), shop/B.b (400)
many classes of one name: static shop/V.v (0..2690), *shop/B.b (400)
many instances, of which one holds most: static shop/A.STORE > *shop/Tenant.inbox (0..500 one)
nothing has few instances: *shop/A.a (0..100) > shop/B.b (900 0..100)
"""


def line(name: str, words: str, depth: int) -> Features:
    """Returns the features of a line, by its name and the words in parentheses after it."""
    kind = name.rpartition(" ")[0]
    known: Dict[str, Any] = {"gain": GROWTH, "before": 100, "instances": 1, "instances_before": 1}
    known["kinds"] = (kind if kind in (STATIC, LOCAL, THREAD, THREADS) else FIELD,)
    for word in words.split():
        was, dots, now = word.partition("..")
        more = SPOKEN.get(word)
        if dots:
            more = dict(zip(("with_value", "instances"), map(int, f"{now}/{now}".split("/"))))
            more.update(zip(("with_value_before", "instances_before"), map(int, f"{was}/{was}".split("/"))))
        known.update({"gain": int(word)} if more is None else more)
    gain = known.pop("gain")
    known.setdefault("with_value", known["instances"])
    known.setdefault("with_value_before", known["instances_before"])
    known.setdefault("gains", {"shop/Order": gain})
    is_collection = name.startswith("java/util/")
    return Features(
        name,
        is_own="java/" not in name,
        is_collection=is_collection,
        amount=known["before"] + gain,
        heap=100 - depth,
        **known,
    )


class Row(NamedTuple):
    """Why a line is the answer, all lines, which holds all that another does, by their names, and the answer."""

    why: str
    lines: List[Features]
    above: Set[Tuple[str, str]]
    answer: str

    @classmethod
    def of(cls, text: str) -> "Row":
        """Returns what a row of a table says."""
        why, _, chains = text.partition(": ")
        row = cls(why, [], set(), chains.partition("*")[2].partition(" (")[0].partition(" > ")[0].partition(", ")[0])
        for chain in chains.split(", "):
            names: List[str] = []
            for depth, text in enumerate(chain.split(" > ")):
                name, _, words = text.lstrip("*").partition(" (")
                row.above.update((upper, name) for upper in names)
                row.lines.append(line(name, words.rstrip(")"), depth))
                names.append(name)
        return row

    def order(self, scoring: Scoring = Scoring.GAIN, step: int = 1) -> "Tuple[LineOrder, List[str]]":
        """Returns the order, and the names of the lines, from the last one up if `step` is -1."""
        lines = self.lines[::step]
        names = [each.name for each in lines]
        return LineOrder(lines, lambda upper, lower: (names[upper], names[lower]) in self.above, scoring), names


class LineOrderTest(unittest.TestCase):
    """LineOrder"""

    def test_answer(self) -> None:
        """The answer is right, in whatever order the lines are found."""
        for scoring, table in ((Scoring.GAIN, ROWS), (Scoring.SHARE, OF_ONE_DUMP)):
            for row in map(Row.of, table.strip().splitlines()):
                for step in 1, -1:
                    with self.subTest(row.why, step=step):
                        order, names = row.order(scoring, step)
                        found = order.sorted()
                        self.assertEqual(names[found[0]], row.answer)
                        self.assertEqual(sorted(found), [it for it, each in enumerate(order.lines) if each.is_line])

    def sorted(self, text: str) -> List[str]:
        """Returns the names of lines in their order."""
        order, names = Row.of(text).order()
        return [names[number] for number in order.sorted()]

    def test_others(self) -> None:
        """After the answer, lines stand by their scores, of lines with the same one the deepest first, those last whose
        names say nothing. There may be none."""
        store = (
            "static shop/A.STORE > shop/Cache.all > *shop/Store.map > java/util/HashMap.table > shop/Order.text (9..99)"
        )
        wanted = [
            "shop/Store.map",
            "shop/Cache.all",
            "static shop/A.STORE",
            "java/util/HashMap.table",
            "static shop/B.b",
        ]
        self.assertEqual(self.sorted(f"all: {store}, static shop/B.b (400)"), [*wanted, "shop/Order.text"])
        self.assertEqual(LineOrder([], lambda upper, lower: False).sorted(), [])

    def test_lasts(self) -> None:
        """Nothing lasts if no score is a quarter of the most that a line gained: the answer is then the topmost one."""
        for row, wanted in (
            ("static shop/A.a (249)", True),
            ("static shop/A.a (250), shop/Order.text (10..110)", True),
            ("static shop/A.a (249), shop/Order.text (10..110)", False),
            ("shop/Session.orders (9..99) > shop/Order.text (10..110)", False),
            ("shop/B.b (900 9..99 one)", True),
        ):
            order, _ = Row.of(f"lasts: *{row}").order()
            self.assertEqual(order.lasts(), wanted, row)
        self.assertTrue(LineOrder([], lambda upper, lower: False).lasts())

    def test_nearly_the_same(self) -> None:
        """Each of two lines that hold nearly the same holds the other: that which holds less is below."""
        deepest = "static shop/A.STORE > *shop/Store.map"
        topmost = "*shop/Session.orders (9..99) > shop/Order.text (10..110)"
        for row in (Row.of(f"deepest: {deepest}"), Row.of(f"topmost: {topmost}")):
            order = LineOrder(row.lines, lambda upper, lower: True)
            self.assertEqual(row.lines[order.sorted()[0]].name, row.answer, row.why)

    def test_larger_asked_first(self) -> None:
        """Whether a line is on the path of another one is asked first of the one that holds more."""
        row = Row.of("all: static shop/A.STORE > *shop/Store.map > java/util/HashMap.table")
        asked: List[Tuple[int, int]] = []

        def holds(upper: int, lower: int) -> bool:
            asked.append((upper, lower))
            return upper < lower

        self.assertEqual(LineOrder(row.lines, holds).answer(), 1)
        self.assertEqual([each for each in asked if each[0] > each[1]], [])

    def test_to_ask(self) -> None:
        """It is asked of fields of several instances that are below the answer and gained most of what it did: of those
        first whose names say most, then of those with the fewest instances; last of the answer."""
        for asked, is_asked in (
            ("shop/Tenant.inbox (5..500)", True),
            ("shop/Tenant.inbox (600 9..500)", True),
            ("shop/Tenant.inbox (499 9..500)", False),
            ("shop/Tenant.inbox (400)", False),
            ("static shop/Tenant.inbox (600 1..500)", False),
            ("shop/Node.next (600 9..500 chain)", False),
            ("java/util/Node.value (600 9..64)", True),
            ("java/util/Node.value (600 9..65)", False),
        ):
            order, names = Row.of(f"one: *static shop/A.a > {asked}, shop/Beside.b (9..9)").order()
            self.assertEqual(order.to_ask(), [1, 0] if is_asked else [0], asked)
        fields = ["java/util/M.m (600 1..3)", "java/lang/L.l (9..99)", "shop/C.c (8..98)", "shop/D.d (7..97)"]
        order, names = Row.of(f"all: *static shop/A.a > {' > '.join(fields)}").order()
        self.assertEqual(
            [names[number] for number in order.to_ask()], ["shop/D.d", "shop/C.c", "java/lang/L.l", "static shop/A.a"]
        )
        self.assertEqual(LineOrder([], lambda upper, lower: False).to_ask(), [])

    def test_to_ask_of_elements(self) -> None:
        """What elements of the answer's container gained is asked of fields below it that gained most of what it did,
        by new instances: of those first whose names say most, then of those that hold most, at most three. It is not
        asked if nothing has one container."""
        for asked, is_asked in (
            ("shop/Node.edges (9..99 chain)", True),
            ("shop/Node.edges (500 9..99)", True),
            ("shop/Node.edges (499 9..99)", False),
            ("java/lang/Queue.list (600)", False),
            ("static shop/Node.edges (9..99)", False),
            ("java/util/Node.value (9..99)", False),
            ("java/awt/Container.component (9..99)", True),
        ):
            order, _ = Row.of(f"one: *static shop/A.net > {asked}, shop/Beside.b (9..99)").order()
            self.assertEqual(order.to_ask_of_elements(), [1] if is_asked else [], asked)
        fields = ["java/lang/L.l (9..99)", "shop/B.b (9..99)", "shop/C.c (9..99)", "shop/D.d (9..99)"]
        order, names = Row.of(f"all: *static shop/A.a > {' > '.join(fields)}").order()
        self.assertEqual([names[number] for number in order.to_ask_of_elements()], ["shop/B.b", "shop/C.c", "shop/D.d"])
        for above in ("two (together)", 'thread "main"', "local shop/Main.run"):
            order, _ = Row.of(f"none: *{above} > shop/Node.edges (9..99)").order()
            self.assertEqual(order.to_ask_of_elements(), [], above)
        self.assertEqual(LineOrder([], lambda upper, lower: False).to_ask_of_elements(), [])

    def test_evenness(self) -> None:
        """Steps are even that are the same, or the same per time. One that is no gain is none; three jumps that happen
        to be in one direction differ by more than half of what they are together."""
        hours = [0, 60, 120, 180]
        for steps, times, wanted in (
            ([300, 300, 300], hours, 1.0),
            ([308, 298, 295], hours, 0.99),
            ([160, 145, 826], hours, 0.40),
            ([100, 900], [0, 60, 600], 1.0),
            ([500, 500], [0, 60, 600], 1.0),
            ([900, 100], [0, 60, 600], 0.20),
            ([100, 900], hours[:3], 0.20),
            ([100, 900], [0, 0, 60], 0.20),
            ([100, 900], [60, 60, 0], 0.20),
            ([300, 0, 300], hours, 0.0),
            ([300, -9, 300], hours, 0.0),
            ([7], [0, 60], 1.0),
        ):
            amounts = list(itertools.accumulate([50, *steps]))
            self.assertAlmostEqual(evenness(amounts, times), wanted, 2, f"{steps} {times}")

    def test_to_ask_of_new(self) -> None:
        """What new instances can hold is asked of the best line and the answer, if their scores are averages over many
        instances of which some came, and nothing else shows what lasts."""
        for text, asked in (
            ("*shop/A.a (900 100..110), static shop/B.b (400)", "shop/A.a"),
            ("static shop/A.ALL > *shop/A.a (900 100..110)", "shop/A.a"),
            ("java/util/M.m (900 100..110), *static shop/B.b (400)", "java/util/M.m"),
            ("*shop/A.a (900 100..110 largest), static shop/B.b (99)", None),
            ("*shop/A.a (900 100..100), static shop/B.b (400)", None),
            ("*shop/A.a (900 50..64), static shop/B.b (400)", None),
            ("*shop/A.a (900 100..110 one), static shop/B.b (400)", None),
            ("*static shop/B.b, shop/A.a (900 100..110)", None),
            ("*shop/Order.text (10..110)", None),
        ):
            order, names = Row.of(f"asked: {text}").order()
            found = order.to_ask_of_new()
            self.assertEqual(None if found is None else names[found], asked, text)
        self.assertIsNone(LineOrder([], lambda upper, lower: False).to_ask_of_new())

    def test_part_gained(self) -> None:
        """What moved is seen by the class of which most was gained above, too."""
        found = line("shop/A.a", "", 0)
        lower = replace(found, gains={"shop/Order": 90, "shop/Moved": 10, "shop/Less": -50})
        for moved, part in ((0, 0.0), (5, 0.5), (10, 1.0)):
            upper = replace(found, gains={"shop/Moved": moved, "shop/Less": 50})
            self.assertEqual(part_gained(lower, upper), part, moved)

    def test_page(self) -> None:
        """docs/LEAK.md quotes the order, which the help of leaks says in short, without scores."""
        quoted = " ".join((line_order.__doc__ or "").partition("\n\n")[2].split())
        self.assertIn(quoted, (TOP / "docs/LEAK.md").read_text(encoding="utf-8"))
        self.assertEqual(quoted.count(". ") + 1, 6)
        self.assertIn("the accumulation point", leaks.NOTES)
        self.assertNotIn("score", leaks.NOTES)

    def test_numbers(self) -> None:
        """The numbers that docs/LEAK.md has."""
        self.assertEqual((MOST, NEARLY, LASTS, FEW, MOST_ASKED), (0.5, 0.9, 0.25, 64, 3))


if __name__ == "__main__":
    unittest.main()
