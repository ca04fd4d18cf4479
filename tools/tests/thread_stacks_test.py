"""Tests where the thread is that ran out of memory, and those whose local variables hold much."""

import unittest
from typing import List, Tuple

from heap_tools.heap_dump import HeapDump
from heap_tools.thread_stacks import threads_in, threads_that_ran_out
from tests.support.dump_writer import BYTE, DumpWriter

ERROR = (9, "<init>")
METHODS = [(5, "copyOf"), (5, "grow"), (4, "add"), (4, "serve"), (6, "run"), (5, "start")]
#: Classes by their identifiers.
CLASSES = {4: "shop/Cart", 5: "java/util/Arrays", 6: "shop/Cart$$Lambda$7+0x00c0ffee", 9: "java/lang/OutOfMemoryError"}


def dump_of(*threads: Tuple[str, List[Tuple[int, str]]]) -> DumpWriter:
    """Returns a dump with these threads, each a name and a stack, the innermost frame first."""
    dump = DumpWriter()
    dump.of_class(1, "java/lang/Thread", fields=["name"])
    dump.of_class(2, "java/lang/String", fields=["value", "coder"])
    for number, name in CLASSES.items():
        dump.of_class(number, name)
    for serial, (name, methods) in enumerate(threads, 1):
        at = 1000 + 10 * serial
        dump.thread(serial, at, methods)
        dump.instance(at, 1, at + 1)
        dump.instance(at + 1, 2, at + 2, b"\0")
        dump.values(at + 2, BYTE, name.encode("latin-1"))
    return dump


class ThreadStacksTest(unittest.TestCase):
    """Threads with stacks."""

    def read(self, dump: DumpWriter) -> HeapDump:
        """Returns the dump as it is read."""
        return HeapDump(dump.bytes())

    def test_ran_out(self) -> None:
        """The first own method and two more are said, of each thread on whose stack the error's constructor is on
        top."""
        other, own = [(5, "park"), ERROR, (4, "add")], [(5, "copyOf"), (5, "start")]
        dumps: List[Tuple[List[Tuple[str, List[Tuple[int, str]]]], List[str]]] = [
            (
                [("main", other), ("http-3", [ERROR, *METHODS])],
                ['"http-3" in shop/Cart.add, shop/Cart.serve, shop/Ca*'],
            ),
            ([("http-3", [ERROR, *METHODS[-2:]])], ['"http-3" in shop/Cart$$Lambda.run, java/util/Arrays.start']),
            ([("idle", []), ("jdk", [ERROR, *own])], ['"jdk" in java/util/Arrays.copyOf, java/util/Arrays.start']),
            ([("a", [ERROR, (4, "add")]), ("b\x1b", [ERROR])], ['"a" in shop/Cart.add', '"b\\x1b"']),
            ([("", [ERROR, (4, "add")])], ["without a name in shop/Cart.add"]),
            ([("main", METHODS), ("idle", [])], []),
        ]
        for threads, said in dumps:
            found = [str(each) for each in threads_that_ran_out(self.read(dump_of(*threads)))]
            expected = [f"thread {each}".replace("shop/Ca*", "shop/Cart$$Lambda.run") for each in said]
            self.assertEqual(found, expected)

    def test_other_errors(self) -> None:
        """Only the constructor of that error counts."""
        for method in ((9, "addSuppressed"), (4, "<init>")):
            self.assertEqual(threads_that_ran_out(self.read(dump_of(("main", [method, *METHODS])))), [])

    def test_methods(self) -> None:
        """All methods are known, and which is the first own one."""
        (found,) = threads_that_ran_out(self.read(dump_of(("main", [ERROR, *METHODS]))))
        self.assertEqual((len(found.methods), found.before_own, found.methods[2]), (6, 2, "shop/Cart.add"))

    def test_in_method(self) -> None:
        """Of the threads with a call of a method, what called that is said."""
        dump = self.read(dump_of(("one", METHODS), ("two", METHODS[2:]), ("other", METHODS[:2])))
        found = threads_in(dump, "shop/Cart.serve")
        expected = [
            f'thread "{name}" in shop/Cart.serve, shop/Cart$$Lambda.run, java/util/Arrays.start'
            for name in ("one", "two")
        ]
        self.assertEqual([str(each) for each in found], expected)
        self.assertEqual(threads_in(dump, "shop/Cart.gone"), [])


if __name__ == "__main__":
    unittest.main()
