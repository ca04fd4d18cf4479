"""Tests which roots are said to lead to paths that begin at a field."""

import unittest
from typing import List, Optional, Tuple
from unittest import mock

from heap_tools import path_roots
from heap_tools.candidates import FIELD, MACHINE_ROOT, THREAD, Candidate
from heap_tools.heap_objects import HeapObjects
from heap_tools.object_parts import FieldUses
from heap_tools.path_roots import PathRoots, RootAbove, RootsAbove, RootSearch
from heap_tools.probe import Retained
from heap_tools.reports import Amount
from heap_tools.what_counts import Calls, Way, side_of
from tests.support.dump_writer import DumpWriter
from tests.support.marked import held_by, marked, probe_of
from tests.support.services import dispatched

#: The tag of a root of native code.
JNI_GLOBAL = 0x01
DISPATCHER = RootAbove(THREAD, "HTTP-Dispatcher", 1)
TARGET, TASK, SERVER = "java/lang/Thread.target", "sun/net/httpserver/ServerImpl$Task.this$0", "ServerImpl.contexts"


def chain(length: int) -> DumpWriter:
    """Returns a dump in which a static field leads to an object by so many references."""
    dump = DumpWriter()
    dump.of_class(20, "shop/Main", {"FIRST": 600 + length - 1})
    dump.of_class(21, "shop/Link", fields=["next"])
    for number in range(length):
        dump.instance(600 + number, 21, 600 + number - 1 if number else 0)
    dump.root(20)
    return dump


class RootSearchTest(unittest.TestCase):
    """Which roots lead to an object"""

    def search(self, dump: DumpWriter, calls: Optional[Calls] = None, identifier: int = 600) -> RootSearch:
        """Returns the roots above an object, if these running calls do not count."""
        return RootSearch(side_of(marked(dump), Way(calls=calls)), {identifier})

    def found(self, dump: DumpWriter, calls: Optional[Calls] = None) -> List[str]:
        """Returns the names of the roots above the object 600."""
        return list(map(str, self.search(dump, calls).found))

    def test_threads(self) -> None:
        """All threads that lead there, by their names; neither a weak reference nor an object that is no root."""
        wanted = ['thread "HTTP-Dispatcher"', *(f'thread "worker {name}"' for name in "abcdefgh")]
        self.assertEqual(self.found(dispatched(3)), wanted)
        self.assertTrue(self.search(dispatched(3)).is_done)

    def test_of_one_thread(self) -> None:
        """A thread counts once, however many of its calls lead there: as the thread if several do, or its object, too.
        Two of one name are two."""
        for target, second, main in ((0, 0, "local shop/Main.main"), (791, 0, "thread"), (0, 600, "thread")):
            dump = dispatched(3, "aa")
            dump.of_class(60, "shop/Main")
            dump.thread(9, 790, [(60, "main"), (60, "run")])
            dump.instance(790, 6, 0, target)
            dump.instance(791, 9, 600, 0)
            dump.local(9, 0, 600)
            dump.local(9, 1, second)
            wanted = [main, 'thread "HTTP-Dispatcher"', 'thread "worker a"', 'thread "worker a"']
            self.assertEqual(self.found(dump), wanted)

    def test_many(self) -> None:
        """Of many objects of one class that refer to it not all are known: so there may be more roots."""
        found = self.search(dispatched(3, "abcdefghijklmnopqrst"))
        self.assertEqual((found.found[0], found.is_done), (DISPATCHER, False))

    def test_kinds(self) -> None:
        """The nearest root comes first; of those as near what is own does, then threads, then what is of the JDK."""
        dump = DumpWriter()
        dump.of_class(20, "shop/Main", {"LATE": 610, "SERVER": 600})
        dump.of_class(21, "java/util/Timers", {"ALL": 600})
        dump.of_class(22, "shop/Box", fields=["server"])
        dump.of_class(23, "java/lang/Thread")
        dump.instance(600, 22, 0)
        dump.instance(610, 22, 600)
        dump.instance(611, 22, 600)
        dump.thread(1, 700, [(20, "main"), (20, "start")])
        dump.thread(2, 701, [(21, "wait")])
        dump.instance(700, 23)
        dump.instance(701, 23)
        dump.local(1, 0, 600)
        dump.local(1, 0, 610)
        dump.local(2, 0, 611)
        dump.heap += dump.form.root(JNI_GLOBAL, 600) + dump.form.spell([1])
        dump.root(20, 21)
        of_calls = {"local shop/Main.main", "local java/util/Timers.wait"}
        near = ["static shop/Main.SERVER", "local shop/Main.main", "static java/util/Timers.ALL", "the virtual machine"]
        far = ["static shop/Main.LATE", "local java/util/Timers.wait"]
        self.assertEqual(self.found(dump), near + far)
        self.assertEqual(self.found(dump, Calls.ALL), [each for each in near + far if each not in of_calls])
        self.assertEqual(self.found(dump, Calls.OF_JDK), near + far[:1])

    def test_fields_of_one_name(self) -> None:
        """A reference counts if that of a superclass does which has the same name."""
        dump = DumpWriter()
        dump.of_class(20, "shop/Main", {"HOLDER": 610})
        dump.of_class(21, "java/lang/ref/Reference", fields=["referent"])
        dump.of_class(22, "shop/Both", fields=["referent"], superclass=21)
        dump.of_class(23, "shop/Server")
        dump.instance(600, 23)
        dump.instance(610, 22, 600, 600)
        dump.root(20)
        self.assertEqual(self.found(dump), ["static shop/Main.HOLDER"])

    def test_bounds(self) -> None:
        """It is not gone further up than some steps, nor from many objects: then it is not known which roots there
        are."""
        near, far = self.search(chain(path_roots.STEPS_UP)), self.search(chain(path_roots.STEPS_UP + 1))
        self.assertEqual((list(map(str, near.found)), near.is_done), (["static shop/Main.FIRST"], True))
        self.assertEqual((far.found, far.is_done), ([], False))
        with mock.patch.object(path_roots, "MOST_ABOVE", 3):
            few, many = self.search(chain(3)), self.search(chain(5))
        self.assertEqual((len(few.found), few.is_done, len(many.found), many.is_done), (1, True, 0, False))

    def test_cycles(self) -> None:
        """What leads only from below to above is passed once."""
        dump = chain(3)
        dump.of_class(22, "shop/Back", fields=["first", "last"])
        dump.instance(650, 22, 600, 650)
        found = self.search(dump)
        self.assertEqual((list(map(str, found.found)), found.is_done), (["static shop/Main.FIRST"], True))


class PathRootsTest(unittest.TestCase):
    """Which roots are above a path"""

    def above(self, dump: DumpWriter, *fields: str) -> Optional[RootsAbove]:
        """Returns the roots above a path of these fields."""
        probe = probe_of(dump)
        path = [held_by(probe, name) for name in fields]
        return PathRoots(probe, FieldUses(HeapObjects(probe.runs.dump))).above(path)

    def test_of_path(self) -> None:
        """They are those above the step with the fewest objects. Of nine tasks none holds anything alone: if these are
        not too many, they are those above all."""
        found = self.above(dispatched(30), TARGET, TASK, f"sun/net/httpserver/{SERVER}")
        assert found
        self.assertEqual((found.first.candidates[0].name, found.roots[0], len(found.roots)), (TARGET, DISPATCHER, 9))
        found = self.above(dispatched(30), TARGET, TASK)
        assert found
        self.assertEqual((found.roots[0], len(found.roots)), (DISPATCHER, 9))
        with mock.patch.object(path_roots, "MOST_OWNERS", 8):
            self.assertIsNone(self.above(dispatched(30), TARGET, TASK))

    def test_one_of_many(self) -> None:
        """Of many objects that have the field it is asked of the few that hold nearly all."""
        dump = DumpWriter()
        dump.of_class(20, "shop/Main", {"LARGE": 600, "LARGE_TOO": 600, "SMALL": 620})
        dump.of_class(21, "lib/Buffer", fields=["content"])
        dump.of_class(22, "[Ljava/lang/Object;")
        for number, size in ((600, 5000), (620, 50), (640, 50)):
            dump.instance(number, 21, number + 1)
            dump.array(number + 1, 22, *[0] * size)
        dump.root(20, 640)
        found = self.above(dump, "lib/Buffer.content")
        assert found
        self.assertEqual(list(map(str, found.roots)), ["static shop/Main.LARGE", "static shop/Main.LARGE_TOO"])
        with mock.patch.object(path_roots, "NEARLY", 0.995):
            found = self.above(dump, "lib/Buffer.content")
        assert found
        self.assertEqual([str(each) for each in found.roots][2:], ["static shop/Main.SMALL", "the virtual machine"])
        with mock.patch.multiple(path_roots, MOST_OBJECTS=2, MOST_OWNERS=2):
            self.assertIsNone(self.above(dump, "lib/Buffer.content"))
        with mock.patch.object(path_roots, "MOST_OWNERS", 0):
            self.assertIsNone(self.above(dump, "lib/Buffer.content"))

    def test_of_several(self) -> None:
        """What fields hold only together no value of one of them holds: so the roots above all of these are there."""
        dump = DumpWriter()
        dump.of_class(20, "shop/Main", {"FIRST": 600, "SECOND": 610, "OTHER": 620})
        dump.of_class(21, "lib/Reader", fields=["text"])
        dump.of_class(22, "lib/Writer", fields=["lines"])
        dump.of_class(23, "[Ljava/lang/Object;")
        for number, of_class, array in ((600, 21, 700), (610, 22, 700), (620, 21, 710)):
            dump.instance(number, of_class, array)
        dump.array(700, 23, *[0] * 500)
        dump.array(710, 23, 0)
        dump.root(20)
        probe = probe_of(dump)
        fields = [held_by(probe, name).candidates[0] for name in ("lib/Reader.text", "lib/Writer.lines")]
        found = PathRoots(probe, FieldUses(HeapObjects(probe.runs.dump))).above([probe.retained(fields)])
        assert found
        self.assertEqual(
            [each.name for each in found.roots], [f"shop/Main.{it}" for it in ("FIRST", "OTHER", "SECOND")]
        )
        with mock.patch.object(path_roots, "MOST_OWNERS", 1):
            self.assertIsNone(PathRoots(probe, FieldUses(HeapObjects(probe.runs.dump))).above([probe.retained(fields)]))

    def test_nested(self) -> None:
        """What objects hold that lead to each other counts once: so the roots above others that hold much are there."""
        dump = DumpWriter()
        dump.of_class(20, "shop/Main", {"CHAIN": 600, "OTHER": 610})
        dump.of_class(21, "lib/Task", fields=["next"])
        dump.of_class(23, "[Ljava/lang/Object;")
        for number, after in ((600, 601), (601, 602), (602, 700), (610, 710)):
            dump.instance(number, 21, after)
        for array, count in ((700, 60), (710, 40)):
            dump.array(array, 23, *[0] * count)
        dump.root(20)
        found = self.above(dump, "lib/Task.next")
        assert found
        self.assertEqual([each.name for each in found.roots], ["shop/Main.CHAIN", "shop/Main.OTHER"])

    def test_roots_are_paths(self) -> None:
        """A path that begins with a root is not looked into."""
        held = Retained([Candidate(THREAD, "main", 1)], Amount(), Amount(), {})
        self.assertIsNone(PathRoots(mock.Mock(), mock.Mock()).above([held]))

    def test_asked_once(self) -> None:
        """Two paths by one step are looked up once."""
        probe = probe_of(dispatched(30))
        roots = PathRoots(probe, FieldUses(HeapObjects(probe.runs.dump)))
        path = [held_by(probe, name) for name in (TARGET, TASK, f"sun/net/httpserver/{SERVER}")]
        with mock.patch.object(path_roots, "RootSearch", wraps=RootSearch) as search:
            firsts = [roots.above(each) for each in (path, path[1:], path[2:])]
        self.assertEqual(search.call_count, 1)
        self.assertEqual([found and found.first.key for found in firsts], [each.key for each in path])


class WordsTest(unittest.TestCase):
    """How roots are said"""

    def test_words(self) -> None:
        """The first, and how many more there are."""
        first = Retained([Candidate(FIELD, "shop/A.a", 1)], Amount(), Amount(), {})
        machine = RootAbove(MACHINE_ROOT)
        cases: List[Tuple[List[RootAbove], bool, str]] = [
            ([DISPATCHER], True, 'held by thread "HTTP-Dispatcher"'),
            ([DISPATCHER], False, 'held by thread "HTTP-Dispatcher" and others'),
            ([machine, DISPATCHER], True, "held by the virtual machine and 1 more"),
            ([machine, DISPATCHER, DISPATCHER], False, "held by the virtual machine and at least 2 more"),
        ]
        for roots, are_all, words in cases:
            self.assertEqual(str(RootsAbove(first, roots, are_all)), words)


if __name__ == "__main__":
    unittest.main()
