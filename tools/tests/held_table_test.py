"""Tests the tables of retained: how they are read, what labels of small dumps hold, and how the program runs."""

import os
import pathlib
import tracemalloc
import unittest
from typing import Dict, List, Tuple
from unittest import mock

from heap_tools.faults import NO_HEAPMARK, Fault
from heap_tools.heap_dump import HeapDump
from heap_tools.held_table import EMPTY, RowPart, by_row, read_table, table_bound
from heap_tools.label_text import Labels, in_class, in_object, in_root
from heap_tools.reports import LONGEST_LINE, Amount
from heap_tools.retained_program import LabelledDump, RetainedProgram
from tests.support.dump_writer import DumpWriter
from tests.support.labelled_heap import LabelledHeap
from tests.support.tool_test import RETAINED, ToolTest

#: Labels 0 to 2, and the sets 0 + 1 and 0 + 1 + 2.
TABLE = b"""set 4 = 0 + 1
         5               50  10  4  A
set 6 = 4 + 2
         3               41   3  6  byte[]
         2               10   5  6  B
         1                8   8  2  A
         1                8   8  2  byte[]
        10                0   0  -  <class>
"""


def shop() -> DumpWriter:
    """A static field and a local variable lead to a list of two orders; one order has a user of its own, and both share
    an address."""
    dump = DumpWriter()
    dump.of_class(1, "java/lang/Object")
    dump.of_class(2, "[LOrder;", superclass=1)
    dump.of_class(3, "Order", fields=["int_number", "user", "address"], superclass=1)
    dump.of_class(4, "User", superclass=1)
    dump.of_class(5, "Shop", {"none": 0, "orders": 100}, superclass=1)
    dump.array(100, 2, 101, 102)
    dump.instance(101, 3, b"\0\0\0\1", 103, 104)
    dump.instance(102, 3, b"\0\0\0\2", 0, 104)
    dump.instance(103, 4)
    dump.instance(104, 4)
    dump.root(1, 2, 3, 4, 5)
    dump.thread(1, 4)
    dump.local(1, 0, 102)
    return dump


#: Labels of it: the fields of an order, the static field, the local variable, the first element of the list, and both
#: of its elements.
PLACES = [
    [in_class(3, 1)],
    [in_class(3, 2)],
    [in_object(5, 5)],
    [in_root(6)],
    [in_object(100, 1)],
    [in_object(100, 1), in_object(100, 2)],
]


class TableTest(unittest.TestCase):
    """The text of a table."""

    def test_read(self) -> None:
        """What labels hold is added up over the sets that have them."""
        table = read_table(TABLE)
        assert table
        a, b, odd, even, of_class = map(RowPart, ("A", "B", "byte[]", "byte[]", "<class>"), (0, 0, 3, 8, 0))
        self.assertEqual(table.held(0), {a: Amount(5, 50), b: Amount(2, 10), odd: Amount(3, 41)})
        self.assertEqual(table.held(2), {a: Amount(1, 8), b: Amount(2, 10), odd: Amount(3, 41), even: Amount(1, 8)})
        self.assertEqual(table.held(3), {})
        whole = {a: Amount(6, 58), b: Amount(2, 10), odd: Amount(3, 41), even: Amount(1, 8), of_class: Amount(10, 0)}
        self.assertEqual(table.whole(), whole)
        every = {"A": Amount(6, 58), "B": Amount(2, 10), "byte[]": Amount(4, 49), "<class>": Amount(10, 0)}
        self.assertEqual(by_row(table.whole()), every)
        self.assertEqual(table.objects_in(table.sets_with(0) & table.sets_with(2)), 5)
        self.assertEqual(table.total(6, {odd: (16, 1), b: (1, 0.5), a: (1000, 0)}), 3 * 16 + 41 + 2 + 5)
        self.assertEqual(table.total(7, {odd: (16, 1)}), 0)
        self.assertEqual(set(table.every_set()), {EMPTY, 2, 4, 6})

    def test_label_without_place(self) -> None:
        """A label that has no place in the text holds nothing, whatever set the table has under its number."""
        table = read_table(TABLE)
        assert table
        self.assertEqual(
            [sorted(table.sets_with(label)) for label in range(7)], [[4, 6], [4, 6], [2, 6], [], [], [], []]
        )

    def test_wrong(self) -> None:
        """Any other text is none."""
        wrong = [b"1 2   2  3\n", b"no", b"1 2   2  3  A", TABLE[:-1], TABLE + b"x\n", b"set 3 = 4\n"]
        wrong += [b"1 2   2  x  A\n", b"1 2  -  A\n", b"1 2  3  A\n", b"1 16  16  -  A\n", b"1 2  2  -  A\n"]
        for text in [*wrong, b"1 2   -  -  A\n", b"1 2  02  -  A\n"]:
            self.assertIsNone(read_table(text), text)
        empty = read_table(b"")
        self.assertEqual(empty and set(empty.every_set()), set())

    def test_bound(self) -> None:
        """What is printed without end is bounded."""
        line = b"1 2   2  -  A\n"
        cases = [(line, True), (b"1 2", True), (b"no\n", False), (b"set 3 = 1 + 2\n", True), (b"", True)]
        cases += [(line * 12, False), (line + b"A" * LONGEST_LINE, False), (b"1 2  -  A\n", False)]
        for text, is_right in cases:
            self.assertEqual(table_bound(8, 3)(text), is_right, text[:20])

    def test_size(self) -> None:
        """A table of many labels and lines with long sets takes some hundred bytes a line."""
        count = 20_000
        sets = (f"set {count + each + 1} = {max(count + each, 0)} + {each}\n" for each in range(1, count))
        lines = (f"{1:10}  {24:14}   8  {count + each + 1}  A{each % 999}\n" for each in range(1, count))
        text = f"set {count + 1} = 0 + 1\n" + "".join(sets) + "".join(lines)
        tracemalloc.start()
        table = read_table(text.encode())
        _, peak = tracemalloc.get_traced_memory()
        tracemalloc.stop()
        self.assertLess(peak, 1000 * count)
        assert table
        self.assertEqual(sum(each.objects for each in table.held(count - 1).values()), 1)


class LabelsTest(unittest.TestCase):
    """What labels of a small dump hold."""

    def held(self, labels: Labels) -> List[Dict[str, Amount]]:
        """Returns what each label holds."""
        table = LabelledHeap(HeapDump(shop().bytes())).table(labels)
        return [by_row(table.held(number)) for number in range(len(labels.places))]

    def test_held(self) -> None:
        """Each label holds what is not reachable without it."""
        order, user, array = ("Order", Amount(1, 20)), ("User", Amount(1, 0)), ("[LOrder;", Amount(1, 16))
        expected: List[Dict[str, Amount]]
        expected = [dict([user]), dict([user]), dict([order, user, array]), {}, dict([order, user])]
        self.assertEqual(self.held(Labels(places=PLACES))[:5], expected)
        self.assertEqual(self.held(Labels(places=PLACES))[5], dict([order, user]))

    def test_cut(self) -> None:
        """References that are cut lead nowhere, and roots that are added do."""
        held = self.held(Labels([in_root(6)], (), PLACES))
        self.assertEqual(held[2], {"Order": Amount(2, 40), "User": Amount(2, 0), "[LOrder;": Amount(1, 16)})
        self.assertEqual(self.held(Labels((), [100], PLACES))[2], {})
        self.assertEqual(
            self.held(Labels(roots=[102], cut=[in_root(6)], places=PLACES)), self.held(Labels(places=PLACES))
        )

    def test_text(self) -> None:
        """The text has a line for each place."""
        labels = Labels([in_root(6)], [100], PLACES[:2] + [[]] + PLACES[2:3])
        text = b"".join(labels.text()).decode()
        expected = ["cut root 6", "root 100", "label 0 class 3 1", "label 1 class 3 2", "label 3 object 5 5"]
        self.assertEqual(text.splitlines(), expected)
        self.assertEqual(b"".join(Labels(places=[["root 1"] * 99_999]).text()), b"label 0 root 1\n" * 99_999)


class ProgramTest(ToolTest):
    """Runs of retained, and of stand-ins for it."""

    def retained(self, text: str) -> RetainedProgram:
        """Returns a stand-in that is a shell script."""
        with mock.patch.dict(os.environ, RETAINED=self.program(text)):
            return RetainedProgram()

    def dump(self, has_objects: bool = True) -> LabelledDump:
        """Returns a dump with labels."""
        shop().write("dump")
        return LabelledDump("dump", os.path.getsize("dump"), Labels(places=PLACES), has_objects)

    def test_same(self) -> None:
        """The program prints the table that is found here."""
        if not os.access(RETAINED, os.X_OK):
            self.skipTest("retained is not built")
        with mock.patch.dict(os.environ, RETAINED=RETAINED):
            program = RetainedProgram()
        tables = program.tables([self.dump(), self.dump(), self.dump()])
        expected = LabelledHeap(HeapDump(shop().bytes())).table(self.dump().labels)
        for table in tables:
            for number in range(len(PLACES)):
                self.assertEqual(table.held(number), expected.held(number), number)
        self.assertEqual(program.runs, 3)

    def test_input(self) -> None:
        """The text comes by a pipe, however long it is, and each dump gets its own table."""
        text = 'wc -c < "$3" > count.$2\necho "$(wc -c < "$2") 8   0  -  A"'
        dumps = []
        for name in ("first", "second", "third"):
            pathlib.Path(name).write_text(name)
            dumps.append(LabelledDump(name, 1 << 20, Labels(places=[["root 1"] * 99_999])))
        tables = self.retained(text).tables(dumps)
        self.assertEqual([table.whole()[RowPart("A")].objects for table in tables], [5, 6, 5])
        self.assertEqual(int(pathlib.Path("count.third").read_text()), 15 * 99_999)

    def test_faults(self) -> None:
        """A run that fails, or prints something else, is said to."""
        cases: List[Tuple[str, str]] = [
            ("exec yes", "no table: is it retained?"),
            ("exit 0", "no table: is it retained?"),
            ("echo 'retained: refused 21 BadOptions' >&2; exit 1", "status 1: retained: refused 21 *: is it retained?"),
            ("kill -9 $$", "signal 9"),
        ]
        for text, ended in cases:
            program = self.retained(f'cat "$3" > /dev/null\n{text}')
            with self.assertRaises(Fault) as raised:
                program.tables([self.dump()])
            said = f"{program.program}: run 1 on dump failed: {ended}"
            self.assertRegex(str(raised.exception), f"^{said.replace('?', '[?]').replace('*', '.*')}$")
            self.assertEqual(raised.exception.status, NO_HEAPMARK)
        self.assertEqual(set(self.retained("exit 0").tables([self.dump(False)])[0].every_set()), set())
        with mock.patch.dict(os.environ, RETAINED="/no/where"), self.assertRaises(Fault) as missing:
            RetainedProgram().tables([self.dump()])
        self.assertRegex(str(missing.exception), "^/no/where cannot be run: .*: the variable RETAINED names it$")


if __name__ == "__main__":
    unittest.main()
