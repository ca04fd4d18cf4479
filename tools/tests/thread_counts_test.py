"""Tests how threads are counted by their names."""

import unittest
from typing import List
from unittest import mock

from heap_tools import heap_dump
from heap_tools.candidates import THREADS, Candidates
from heap_tools.class_names import shown as shown_by_dump
from heap_tools.heap_dump import Frame, HeapDump
from heap_tools.heap_objects import HeapObjects
from heap_tools.reports import Report
from heap_tools.thread_counts import (
    FRAMES,
    LONGEST_FRAME,
    LONGEST_NAME,
    MANY_THREADS,
    ThreadCount,
    grown_thread_counts,
    many_threads_words,
    pattern_of,
    shown_name,
)
from tests.support.dump_writer import BYTE, DumpWriter
from tests.support.hostile_names import HOSTILE, ODD


def threads(names: List[str]) -> DumpWriter:
    """Returns a dump with threads of these names. Those whose names begin with `r` wait in `take`, called by `run`;
    those of `deep` are in eight methods."""
    dump = DumpWriter()
    dump.of_class(1, "java/lang/Thread", fields=["name"])
    dump.of_class(2, "java/lang/String", fields=["value", "coder"])
    dump.of_class(3, "shop/Queue")
    for number, name in enumerate(names, 1):
        at = 1000 + 10 * number
        methods = ["take", "run"] * name.startswith("r") + [f"m{depth}" for depth in range(8)] * name.startswith("deep")
        dump.thread(number, at, [(3, method) for method in methods])
        dump.instance(at, 1, at + 1)
        dump.instance(at + 1, 2, at + 2, b"\0")
        dump.values(at + 2, BYTE, name.encode())
    return dump


class ThreadCountsTest(unittest.TestCase):
    """Threads of two dumps."""

    def grown(self, before: List[str], after: List[str]) -> List[str]:
        """Returns the patterns of which there are more threads, as they are said."""
        dumps = []
        for names in (before, after):
            dumps.append(self.read(threads(names)))
        return [str(each) for each in grown_thread_counts(*dumps)]

    def read(self, dump: DumpWriter) -> HeapDump:
        """Returns what is read of a dump."""
        return HeapDump(dump.bytes())

    def test_patterns(self) -> None:
        """Numbers in names are one, however long they are."""
        for name, pattern in (("report-17", "report-*"), ("pool-2-thread-31", "pool-*-thread-*"), ("main", "main")):
            self.assertEqual(pattern_of(name), pattern)

    def test_growth(self) -> None:
        """What grew most comes first, with the stack that most have, the innermost frame first."""
        after = ["main", *(f"report-{number}" for number in range(5)), "http-1", "http-2", "http-3"]
        wanted = [
            'threads "report-*": 1, then 5; most are in shop/Queue.take, shop/Queue.run',
            'threads "http-*": 1, then 3',
        ]
        self.assertEqual(self.grown(["main", "report-7", "http-1"], after), wanted)

    def test_many_of_one_dump(self) -> None:
        """Of one dump it is said of which pattern there are very many threads."""
        names = [*(f"report-{number}" for number in range(MANY_THREADS)), *(f"http-{number}" for number in range(9))]
        said = f'{MANY_THREADS} threads "report-*", each with a stack outside the heap; most are in '
        found = many_threads_words(self.read(threads(names)))
        self.assertEqual(found, [f"{said}shop/Queue.take, shop/Queue.run"])
        self.assertEqual(many_threads_words(self.read(threads(names[1:]))), [])
        self.assertEqual(many_threads_words(self.read(threads(names[:9]))), [])

    def test_one(self) -> None:
        """What one thread is in, most are not said to be in."""
        wanted = ['threads "report-*": 0, then 1; it is in shop/Queue.take, shop/Queue.run']
        self.assertEqual(self.grown(["main"], ["main", "report-1"]), wanted)

    def test_nameless(self) -> None:
        """Threads without a name are called so."""
        self.assertEqual(self.grown(["main"], ["main"] + [""] * 5), ["threads without a name: 0, then 5"])

    def test_deep(self) -> None:
        """Of a deep stack only the innermost methods are said."""
        innermost = ", ".join(f"shop/Queue.m{depth}" for depth in range(FRAMES))
        wanted = f'threads "deep-*": 0, then 2; most are in {innermost}'
        self.assertEqual((self.grown([], ["deep-1", "deep-2"]), FRAMES), ([wanted], 5))

    def test_own_frame(self) -> None:
        """The stack is said from the first frame on that is not in the JDK, and the innermost one."""
        jdk = ["jdk/internal/misc/Unsafe.park", "java/util/concurrent/locks/LockSupport.park", "java/util/Queue.take"]
        own, call = Frame("app/Worker", "poll"), Frame("java/lang/Thread", "run")
        waiting = [Frame(*each.split(".")) for each in jdk]
        for stack, wanted in (
            ([*waiting, own, call], f"in app/Worker.poll, java/lang/Thread.run (innermost: {jdk[0]})"),
            ([own, call], "in app/Worker.poll, java/lang/Thread.run"),
            (waiting, f"in {', '.join(jdk)}"),
        ):
            self.assertEqual(str(ThreadCount("app-*", 1, 9, stack)), f'threads "app-*": 1, then 9; most are {wanted}')

    def test_hostile(self) -> None:
        """Names are in one line and are cut, numbers in them are one, and those in an escape are none."""
        self.assertEqual(pattern_of("a7\x1b[31m"), r"a*\x1b[*m")
        self.assertEqual(pattern_of("\u202e7"), r"\xe2\x80\xae*")
        for name in [*HOSTILE, *ODD, "9" * 10**6, "x" * 10**6, "\x1b" * 10**6]:
            for shown in (shown_name(name), pattern_of(name), str(ThreadCount(pattern_of(name), 1, 2, []))):
                self.assertTrue(shown.isprintable(), name[:50])
                self.assertLessEqual(len(shown), 1000)
                self.assertNotIn("\\x*", shown)
        self.assertEqual(shown_name("x" * 1234), f"{'x' * LONGEST_NAME}.. (1,234 characters)")
        self.assertEqual(shown_name("x" * LONGEST_NAME), "x" * LONGEST_NAME)
        long = ThreadCount("a", 1, 2, [Frame("a/A" * 10_000, "b")])
        self.assertLess(len(str(long)), 2 * LONGEST_FRAME)

    def test_many(self) -> None:
        """Of many threads the names are read once, though several ask, and each method once."""
        dump = self.read(threads(["main", *(f"report-{number}" for number in range(600))]))
        looked_up = mock.patch.object(HeapObjects, "places_of", autospec=True, side_effect=HeapObjects.places_of)
        with looked_up as places_of, mock.patch.object(heap_dump, "shown", wraps=shown_by_dump) as decoded:
            candidates = Candidates(dump, Report())
            for _ in range(3):
                self.assertEqual(len(candidates.threads()), 601)
                self.assertEqual([each.count for each in candidates.threads_alike()], [600])
                self.assertEqual(len(grown_thread_counts(self.read(threads(["main"])), dump)), 1)
                self.assertEqual(Candidates(dump, Report()).instances((THREADS, "report-*"), Report()), 600)
        self.assertEqual(sum(call[0][0].dump is dump for call in places_of.call_args_list), 3)
        self.assertLess(decoded.call_count, 20)

    def test_none(self) -> None:
        """With as many threads as before, nothing is said."""
        self.assertEqual(self.grown(["a", "b"], ["a", "c"]), [])
        self.assertEqual(self.grown(["a"], []), [])


if __name__ == "__main__":
    unittest.main()
