"""Tests what is found to hold much only together: each of it is needed, and nothing in it has to do with something
else."""

import unittest
from typing import Iterable, List, Sequence, Tuple

from heap_tools.joint_search import JointSearch, with_effect
from heap_tools.leak_answer import answer_of
from heap_tools.leak_options import Bounds
from heap_tools.reports import Amount
from tests.support.dump_writer import BYTE, DumpWriter
from tests.support.marked import RETAINED, growth_of, probe_of


def shared(parts: Sequence[Tuple[int, str]], grown: bool = True) -> DumpWriter:
    """Returns a dump in which static fields `shop/A.ALL` and so on have arrays: of each part so many arrays of 1,000
    bytes are in the arrays of the classes with these letters, none if the dump was made before that."""
    dump = DumpWriter(time=60_000 * (1 + grown))
    dump.of_class(1, "[Ljava/lang/Object;")
    lists: List[List[int]] = [[] for _ in "ABCD"]
    number = 10_000
    for count, letters in parts:
        for number in range(number, number + count * grown):
            dump.values(number, BYTE, bytes(1000))
            for letter in letters:
                lists["ABCD".index(letter)].append(number)
        number += 1
    for at, elements in enumerate(lists):
        dump.array(100 + at, 1, *elements)
        dump.of_class(11 + at, f"shop/{'ABCD'[at]}", {"ALL": 100 + at})
        dump.root(11 + at)
    return dump


def arrays_of(**lists: Iterable[int]) -> DumpWriter:
    """Returns a dump in which the static field `shop/A.ALL` and so on have arrays of these arrays of 500 bytes each."""
    numbers = {letter: list(each) for letter, each in lists.items()}
    dump = DumpWriter(time=60_000 * (1 + sum(map(len, numbers.values()))))
    dump.of_class(1, "[Ljava/lang/Object;")
    for at, (letter, each) in enumerate(numbers.items()):
        dump.of_class(11 + at, f"shop/{letter}", {"ALL": 100 + at})
        dump.array(100 + at, 1, *each)
        dump.root(11 + at)
    for number in set().union(*numbers.values()):
        dump.values(number, BYTE, bytes(500))
    return dump


class NeededTest(unittest.TestCase):
    """Which of some candidates are found."""

    def found(self, *parts: Tuple[int, str]) -> str:
        """Returns the classes of what is found of all static fields that gained at least a tenth together."""
        probe = growth_of(shared(parts, False), shared(parts))
        found = JointSearch(probe, 10, probe.candidates.statics()).find()
        return "".join(sorted(each.owner[-1] for each in found))

    def test_each_is_needed(self) -> None:
        """Of three no two gained nearly as much; of several such groups it is the first that gained nearly most."""
        self.assertEqual(self.found((85, "AB"), (3, "ABC"), (12, "D")), "AB")
        self.assertEqual(self.found((85, "AB"), (3, "ABC"), (10, "ABD")), "ABD")
        self.assertEqual(self.found((40, "AB"), (40, "ABC"), (20, "D")), "ABC")
        self.assertEqual(self.found((9, "AB"), (91, "D")), "")

    def test_known(self) -> None:
        """Nothing is asked if it is known what all, two and one of some candidates hold, and they count alone."""
        dumps = [shared([(60, "AB"), (40, "A")], grown) for grown in (False, True)]
        probe = growth_of(*dumps)
        both = [each for each in probe.candidates.statics() if each.owner in ("shop/A", "shop/B")]
        probe.ask_together([both])
        before = RETAINED.runs
        self.assertEqual(JointSearch(probe, 70, both, counts_alone=True).find(), both)
        self.assertEqual(RETAINED.runs, before)
        JointSearch(probe, 70, both).find()
        self.assertEqual(RETAINED.runs, before + 2)

    def test_moved(self) -> None:
        """What held something alone that all hold now adds nothing to the others, which gained as much without it."""
        moved, common, own = range(2000, 2020), range(3000, 3025), range(4000, 4025)
        before = arrays_of(A=[], B=[], C=moved, D=[])
        after = arrays_of(A=[*moved, *common, *own], B=[*moved, *common], C=moved, D=range(5000, 5025))
        probe = growth_of(before, after)
        found = JointSearch(probe, 20, probe.candidates.statics()).find()
        self.assertEqual([each.owner for each in found], ["shop/A", "shop/B"])

    def test_thread(self) -> None:
        """A thread that holds alone what it adds to others is none of them."""
        both: List[DumpWriter] = []
        for dump in (shared([(60, "AB"), (20, "A"), (20, "B")], grown) for grown in (False, True)):
            dump.of_class(20, "shop/Task", fields=["rows"])
            dump.thread(1, 700)
            dump.instance(700, 20, 701)
            dump.values(701, BYTE, bytes(9000 if len(both) else 1))
            both.append(dump)
        probe = growth_of(*both)
        found = JointSearch(probe, 10, probe.candidates.few()).find()
        self.assertEqual(sorted(map(str, found)), ["static shop/A.ALL", "static shop/B.ALL"])

    def test_with_effect(self) -> None:
        """Of a group those without which it gained less: of two that lead to the same both."""
        for parts, wanted in (
            ([(5, "A"), (5, "ABC")], "ABC"),
            ([(50, "A"), (5, "AB"), (5, "B")], "AB"),
            ([(5, "D")], "D"),
        ):
            probe = growth_of(shared(parts, False), shared(parts))
            statics = sorted(probe.candidates.statics(), key=str)
            self.assertEqual("".join(each.owner[-1] for each in with_effect(probe, statics)), wanted, parts)
        both = [shared([(5, "D")], grown) for grown in (False, True)]
        for dump in both:
            dump.of_class(20, "shop/E", {"ALL": 103})
            dump.root(20)
        probe = growth_of(*both)
        found = with_effect(probe, probe.candidates.statics())
        self.assertEqual(sorted(each.owner[-1] for each in found), ["D", "E"])


class RestTest(unittest.TestCase):
    """What no line has."""

    def test_beside(self) -> None:
        """A second leak is known that has no line, since as much was lost elsewhere; not what gained less than a line
        must, nor what is known to be in a line."""
        for lost, share in ((45, 90), (4, None)):
            before = arrays_of(A=range(1000, 1010), B=range(2000, 2010), C=range(3000, 3005 + lost))
            after = arrays_of(A=range(1000, 1060), B=range(2000, 2010 + lost), C=range(3000, 3005))
            answer = answer_of(growth_of(before, after), Bounds())
            self.assertEqual([line.path() for line in answer.lines], ["static shop/A.ALL"])
            self.assertEqual(answer.beside and round(answer.beside.share), share)

    def test_above(self) -> None:
        """What the list above a line gained beside it is in no line, which is known."""
        both = []
        for count in (2, 60):
            dump = DumpWriter(time=60_000 * count)
            dump.of_class(1, "[Ljava/lang/Object;")
            dump.of_class(2, "shop/Page", fields=["rows"])
            dump.of_class(3, "shop/Registry", {"ALL": 100})
            own, rows = range(10_000, 10_000 + count), range(20_000, 20_000 + 2 * count)
            dump.array(100, 1, 101, *own)
            dump.instance(101, 2, 102)
            dump.array(102, 1, *rows)
            for each in (*own, *rows):
                dump.values(each, BYTE, bytes(500))
            dump.root(3)
            both.append(dump)
        answer = answer_of(growth_of(*both), Bounds())
        self.assertEqual([line.path() for line in answer.lines], ["static shop/Registry.ALL > shop/Page.rows"])
        self.assertEqual((answer.is_above, answer.lines[0].before), (True, Amount(5, 2032)))


if __name__ == "__main__":
    unittest.main()
