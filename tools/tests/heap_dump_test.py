"""Reads small dumps, of which it is known what they have."""

import os
import unittest
from typing import Callable, List, Union
from unittest import mock

from heap_tools import heap_dump, hprof_format, parallel
from heap_tools.dump_file import whole_content, state_of
from heap_tools.dump_runs import DumpRuns
from heap_tools.faults import UNREADABLE, Fault
from heap_tools.heap_objects import HeapObjects
from heap_tools.heapmark import Heapmark
from heap_tools.object_places import FEWEST_SEGMENTS
from heap_tools.object_totals import totals_of
from heap_tools.referrers import MOST_OWNERS, Referrers
from heap_tools.thread_counts import grown_thread_counts, number_of_threads
from tests.support.dump_writer import BYTE, FRAME, LONG, ROOT_THREAD_OBJECT, STRING, TRACE, DumpWriter, word
from tests.support.tool_test import ToolTest, report


#: The code of the type `char`.
CHAR = 5
#: Texts, each with its coder and its array: bytes, two of them for each letter, or, with `CHAR`, letters.
TEXTS = (
    ("Gr\u00f6\u00dfe", 0, b"Gr\xf6\xdfe"),
    ("5 \u20ac", 1, b"5\0 \0\xac\x20"),
    ("5 \u20ac", CHAR, b"\0005\0 \x20\xac"),
    ("", 0, b""),
)


#: What is said of a thread that came.
GREW = 'threads "main": 0, then 1; it is in shop/Order.sell'
#: What is said of a file that became shorter.
SHRUNK = "dump: it changed while it was read"


class HprofTest(unittest.TestCase):
    """A test that reads dumps."""

    def read(self, dump: DumpWriter, nameless: bool = False) -> heap_dump.HeapDump:
        """Returns what is read of a dump."""
        return heap_dump.HeapDump(dump.bytes(), nameless)


class Service(DumpWriter):
    """A dump with two threads, whose roots are written where the test says."""

    def __init__(self, id_size: int = 8) -> None:
        super().__init__(id_size)
        self.of_class(1, "java/lang/Thread", fields=["intPriority", "name"])
        self.of_class(2, "java/lang/String", fields=["value", "coder"])
        self.of_class(3, "shop/Order", {"FIRST": 300, "NONE": 0}, fields=["next"], superclass=0)

    def objects(self, *numbers: int) -> None:
        """Writes orders, and the threads with their names."""
        for number in numbers:
            self.instance(number, 3, 0)

    def named(self, number: int, name: bytes) -> None:
        """Writes a thread object with its name."""
        self.instance(number, 1, word(5), number + 10)
        self.instance(number + 10, 2, number + 20, b"\0")
        self.values(number + 20, BYTE, name)


class ReadingTest(HprofTest):
    """Records, classes, roots and threads."""

    def roots(self, *parts: Callable[[Service], None]) -> None:
        """Writes a dump of these parts, each in a segment of its own, and tests that all of its roots are read."""
        dump = Service()
        for part in parts:
            dump.cut()
            part(dump)
        found = self.read(dump)
        roots = [(root.thread, root.frame) for root in found.roots]
        self.assertCountEqual(roots, [(1, 0), (1, None), (2, 0), (2, None)])
        self.assertEqual(str(found.frame(1, 0)), str(heap_dump.Frame("shop/Order", "sell")))
        self.assertIsNone(found.frame(1, 1))
        self.assertIsNone(found.frame(1, None))

    def test_places_of_roots(self) -> None:
        """The roots of threads come before the objects, after them, or between them."""

        def first(dump: Service) -> None:
            dump.thread(1, 200, [(3, "sell")])
            dump.local(1, 0, 300)

        def second(dump: Service) -> None:
            dump.thread(2, 201, [(3, "sell")])
            dump.local(2, 0, 301)

        def orders(dump: Service) -> None:
            dump.objects(300, 301)

        self.roots(first, second, orders, orders)
        self.roots(orders, orders, orders, first, second)
        self.roots(orders, first, orders, second, orders)
        self.roots(first, orders, orders, orders, second)

    def test_length_of_a_stack(self) -> None:
        """A stack has as many frames as its trace says, though the record has more, or as the record has."""
        for said, methods in ((1, ["sell"]), (2, ["sell", "main"]), (3, ["sell", "main"])):
            dump = Service()
            dump.thread(1, 200, [(3, "sell"), (3, "main")])
            # The record after the trace begins with eight bytes that are the identifier of a frame, too.
            names = [dump.text(name) for name in ("next", "()V", "Source.java")]
            dump.record(FRAME, dump.form.spell([STRING << 56, *names]), word(3), word(1))
            dump.record(TRACE, word(101), word(1), word(said), dump.form.spell([5100, 5101]))
            dump.text("after")
            found = self.read(dump)
            self.assertEqual([frame.method for frame in found.stack(1)], methods)
            frames = [found.frame(1, number) for number in range(4)]
            self.assertEqual([frame.method for frame in frames if frame], methods)

    def test_classes(self) -> None:
        """Classes with their fields, also if their dumps come last, and a class without a name."""
        dump = Service()
        dump.cut()
        dump.objects(300)
        dump.cut()
        dump.of_class(4, "[B")
        dump.of_class(5, None, {"MINE": 300})
        found = self.read(dump)
        named = {1: "java/lang/Thread", 2: "java/lang/String", 3: "shop/Order"}
        self.assertEqual(found.names, {**named, 4: "byte[]", 5: "?0x5"})
        fields = [(field.name, field.kind, field.is_static) for field in found.classes[3].fields]
        reference = hprof_format.OBJECT
        self.assertEqual(fields, [("FIRST", reference, True), ("NONE", reference, True), ("next", reference, False)])

    def test_two_strings(self) -> None:
        """Of two strings with one identifier the first counts, as for heapmark."""
        dump = Service()
        dump.record(STRING, dump.form.spell([dump.text("shop/Order")]), b"shop/Later")
        self.assertEqual(self.read(dump).names[3], "shop/Order")

    def test_loaded_twice(self) -> None:
        """Of two records that name one class the first counts, as for heapmark."""
        dump = Service()
        dump.loaded(3, "shop/Later")
        self.assertEqual(self.read(dump).names[3], "shop/Order")

    def test_no_traces(self) -> None:
        """Threads without traces are met in whatever segment, since nothing says how many there are."""
        dump = Service()
        for part in ([300], [301], [302]):
            dump.cut()
            dump.objects(*part)
            if part == [301]:
                dump.heap += dump.form.root(ROOT_THREAD_OBJECT, 200) + word(1) + word(0)
            dump.objects(part[0] + 10)
        self.assertEqual([root.thread for root in self.read(dump).roots], [1])

    def test_ended_threads(self) -> None:
        """Threads that have ended have no thread object: their traces and local variables make them no threads."""
        dump = Service()
        dump.thread(1, 200, [(3, "sell")])
        dump.named(200, b"main")
        dump.record(TRACE, word(102), word(2), word(1), dump.form.spell([5100]))
        dump.local(2, 0, 300)
        dump.objects(300)
        found = self.read(dump)
        self.assertEqual(number_of_threads(found), 1)
        self.assertEqual(HeapObjects(found).thread_names(), {1: "main"})
        none = Service()
        none.objects(300)
        self.assertEqual([str(each) for each in grown_thread_counts(self.read(none), found)], [GREW])

    def test_last_segment(self) -> None:
        """All walks over the objects see those in the first, the middle and the last segments, in one process and in
        several."""
        for count in (3, 4 * FEWEST_SEGMENTS):
            dump = Service()
            dump.of_class(4, "[Lshop/Order;")
            dump.of_class(6, "shop/Orders", {"ALL": 5000})
            for number in range(count):
                dump.cut()
                dump.instance(1000 + number, 3, 5000)
                dump.array(2000 + number, 4, 5000)
                dump.instance(3000 + number, 2, 4000 + number, b"\0")
                dump.values(4000 + number, BYTE, b"%d" % number)
            objects = HeapObjects(self.read(dump))
            self.assertEqual(len(objects.dump.segments), count + 1)
            every = list(range(count))
            self.assertEqual(len(objects.places_of(1000 + number for number in every)), count)
            self.assertEqual(totals_of(objects.dump, None)["shop/Order"].written.objects, count)
            self.assertEqual(len(objects.values_of(["shop/Order.next"], {5000})), count)
            referrers = Referrers(objects)
            referrers.look_up([5000])
            most = min(count, MOST_OWNERS + 1)
            self.assertEqual(len(referrers.of(5000)), 2 * most + 1)
            texts = {3000 + number: str(number) for number in every}
            self.assertEqual(objects.texts(texts), texts)

    def test_records(self) -> None:
        """The records one after the other, which are the whole dump but for its header; and the names of all fields."""
        found = self.read(Service(), nameless=True)
        ends = [hprof_format.HEADER_SIZE]
        for tag, begin, end in found.records():
            self.assertEqual((found.bytes[ends[-1]], begin), (tag, ends[-1] + hprof_format.RECORD_HEAD_SIZE))
            ends.append(end)
        self.assertEqual((ends[-1], len(ends) > 9), (found.size, True))
        self.assertLessEqual({"coder", "FIRST", "next"}, set(found.field_names.values()))

    def test_names_of_threads(self) -> None:
        """Names of threads, in one process and in several; a thread without a name has an empty one."""
        for id_size in (4, 8):
            dump = Service(id_size)
            for serial, name in ((1, b"main"), (2, b"http-\xe9")):
                dump.thread(serial, 200 + serial)
                dump.named(200 + serial, name)
            dump.thread(3, 209)
            dump.instance(209, 1, word(5), 0)
            for _ in range(4 * FEWEST_SEGMENTS):
                dump.cut()
                dump.objects(300)
            self.assertEqual(HeapObjects(self.read(dump)).thread_names(), {1: "main", 2: "http-\u00e9", 3: ""})

    def test_texts(self) -> None:
        """Strings of a byte or of two for each letter, and of letters, as up to JDK 8. Other objects have no text."""
        dump = Service()
        for at, (text, coder, content) in enumerate(TEXTS):
            dump.instance(500 + at, 2, 600 + at, bytes([coder]))
            code, letter = (CHAR, 2) if coder == CHAR else (BYTE, 1)
            dump.heap += dump.form.primitive_head(600 + at, code, len(content) // letter) + content
        dump.instance(590, 2, 0, b"\0")
        dump.objects(300)
        found = HeapObjects(self.read(dump)).texts([*range(500, 500 + len(TEXTS)), 590, 300, 599])
        wanted = {500 + at: text for at, (text, _, _) in enumerate(TEXTS)}
        self.assertEqual(found, {**wanted, 590: "", 300: ""})

    def test_fields_of_one_name(self) -> None:
        """Of two fields of one name, which class files may have, the one is meant that has the kind: the number may
        come first, and be shorter than an identifier."""
        for id_size in (4, 8):
            for number_first in (False, True):
                dump = Service(id_size)
                dump.loaded(7, "a/Shelf")
                kinds = [hprof_format.OBJECT, hprof_format.SHORT]
                values: List[Union[int, bytes]] = [300, b"\0\7"]
                if number_first:
                    kinds, values = kinds[::-1], values[::-1]
                fields = [(dump.text("a"), kind) for kind in kinds]
                dump.heap += dump.form.named_class_dump(7, (0, 0), [], fields)
                dump.objects(300)
                dump.instance(400, 7, *values)
                found = HeapObjects(self.read(dump))
                (at,) = found.places_of([400]).values()
                (value,) = found.values_of(["a/Shelf.a"])
                self.assertEqual((value.instance, found.dump.id(value.value)), (at, 300))
                self.assertEqual(found.reference(at, "a/Shelf", "a"), 300)
                self.assertEqual(found.references_of(at), {"a": 300})
                (short,) = found.values_of(["a/Shelf.a"], kind=hprof_format.SHORT)
                self.assertEqual(found.dump.number(short.value, 2), 7)
                self.assertEqual(found.place_of_value(at, "a/Shelf", "a", hprof_format.SHORT), short.value)
                self.assertEqual(found.values_of(["a/Shelf.a"], kind=hprof_format.INT), [])

    def test_count(self) -> None:
        """Objects by class, whether or not they are reachable."""
        dump = Service()
        dump.objects(300, 301)
        dump.values(400, BYTE, bytes(3))
        found = totals_of(self.read(dump), None)
        self.assertEqual([found["shop/Order"].written.objects, found["byte[]"].written.objects], [2, 1])
        self.assertNotIn("int[]", found)

    def test_lasting_classes(self) -> None:
        """Classes of the loaders that the JDK keeps are never unloaded."""
        dump = Service()
        dump.of_class(4, "java/lang/ClassLoader", {"scl": 300})
        dump.of_class(5, "shop/Shop", loader=300)
        dump.of_class(6, "plugin/Driver", loader=301)
        dump.loaded(7, "jdk/internal/loader/ClassLoaders")
        number = (dump.text("APP_LOADER"), LONG, bytes(6) + b"\1\x2d")
        dump.heap += dump.form.named_class_dump(7, (0, 0), [number], [])
        self.assertEqual(self.read(dump).lasting_classes(), [1, 2, 3, 4, 5, 7])


class RunsTest(ToolTest):
    """Dumps that a tool reads after heapmark accepted them."""

    def runs(self, dump: DumpWriter, text: str) -> DumpRuns:
        """Returns what is read of a dump after a stand-in for heapmark, a shell script."""
        dump.write("dump")
        with mock.patch.dict(os.environ, HEAPMARK=self.program(text)):
            found = DumpRuns.of(Heapmark(), "dump", "test")
        return found

    def test_nameless(self) -> None:
        """If the report has a class without a name, all segments are read for class dumps, else only the first ones."""
        dump = Service()
        dump.thread(1, 200)
        dump.objects(300)
        for number in range(3):
            dump.cut()
            dump.objects(310 + number)
            if number == 1:
                dump.of_class(5, None, {"MINE": 300})
                dump.objects(320)
        for name, wanted in (("?0x5", True), ("shop/Order", False)):
            found = self.runs(dump, f"cat << 'END'\n{report((1, 8, name))}END")
            self.assertEqual("?0x5" in found.dump.names.values(), wanted)

    def test_forgotten(self) -> None:
        """A dump whose content is forgotten is the same as before, has its time and classes, and takes no memory."""
        dumps: List[DumpWriter] = []
        for text in (b"one", b"two", b"one"):
            dumps.append(Service())
            dumps[-1].values(400, BYTE, text)
        first, other, same = (heap_dump.HeapDump(dump.bytes()) for dump in dumps)
        longer = heap_dump.HeapDump(Service().bytes())
        pairs = ((first, same), (same, first), (first, other), (first, longer))
        for each in first, other, same, longer:
            self.assertEqual([one.is_same(another) for one, another in pairs], [True, True, False, False])
            each.forget()
            self.assertEqual((each.bytes, "shop/Order" in each.names.values()), (b"", True))
            self.assertEqual([one.is_same(another) for one, another in pairs], [True, True, False, False])

    def test_changes(self) -> None:
        """A file that has another length, time of change or number than before heapmark read it has changed, whatever
        it has; so has one that is gone, or came. What was read of it stays as it was."""
        dump = Service()
        dump.write("dump")
        state = state_of("dump")
        assert state
        content = whole_content("dump", state)
        os.truncate("dump", 0)
        self.assertEqual(content, dump.bytes())
        dump.write("dump")
        state = state_of("dump")
        assert state
        for name in ("length", "changed", "number", "device"):
            other = state._replace(**{name: getattr(state, name) + 1})
            self.assertRaisesRegex(Fault, f"^{SHRUNK}$", whole_content, "dump", other)
        self.assertRaisesRegex(Fault, f"^{SHRUNK}$", whole_content, "dump", None)
        self.assertRaisesRegex(Fault, "^none: No such file or directory$", whole_content, "none", state)
        self.assertEqual([state_of("none"), state_of("a\0b")], [None, None])
        with mock.patch("os.fstat", return_value=os.stat("dump")), mock.patch("builtins.open") as opens:
            opens.return_value.__enter__.return_value.read.return_value = dump.bytes()[:-1]
            self.assertRaisesRegex(Fault, f"^{SHRUNK}$", whole_content, "dump", state)

    def test_shrinks(self) -> None:
        """A file that became shorter after heapmark accepted it, or empty, is the file's fault, wherever it ends."""
        dump = Service()
        dump.values(400, BYTE, bytes(5000))
        dump.objects(300, 301)
        size = len(dump.bytes())
        for length in (0, 10, 31, 35, 200, size - 5100, size - 3, size - 60):
            with self.assertRaises(Fault) as raised:
                self.runs(dump, f"truncate -s {length} dump\ncat << 'END'\n{report((1, 8, 'shop/Order'))}END")
            self.assertEqual((raised.exception.status, str(raised.exception)), (UNREADABLE, SHRUNK), length)

    def test_no_records(self) -> None:
        """If a file was changed in place, with the time of change that it had, it may have no records: a length is too
        large, or a type unknown. That is the file's fault, too."""
        dump = Service()
        dump.objects(300)
        dump.values(400, BYTE, b"text")
        content = dump.bytes()
        for at in (36, content.rindex(b"text") - 1):
            change = f"printf '\\377' | dd of=dump bs=1 seek={at} conv=notrunc 2> /dev/null"
            text = f"cp -p dump kept; {change}; touch -r kept dump\ncat << 'END'\n{report((1, 8, 'shop/Order'))}END"
            with self.assertRaises(Fault) as raised:
                self.runs(dump, text)
            self.assertEqual((raised.exception.status, str(raised.exception)), (UNREADABLE, SHRUNK), at)


class RootsTest(HprofTest):
    """Which number each root has among all roots."""

    def test_numbers(self) -> None:
        """Roots are numbered in the order of the file, also those of no thread, wherever they are."""
        for where in ("first", "last", "between"):
            dump = Service()
            dump.root(1)
            if where == "first":
                dump.thread(1, 300)
                dump.local(1, 0, 301)
                dump.root(2)
            dump.objects(300)
            dump.cut()
            if where == "between":
                dump.root(3)
                dump.thread(1, 300)
                dump.local(1, 0, 301)
            dump.objects(301)
            dump.cut()
            dump.objects(302)
            if where == "last":
                dump.root(3)
                dump.thread(1, 300)
                dump.local(1, 0, 301)
            found = self.read(dump)
            every = [at + 1 for at, tag in found.sub_records(found.segments) if tag in (0xFF, 0x03, 0x08)]
            numbers = [found.root_number(root.place) for root in found.roots]
            self.assertEqual(numbers, [every.index(root.place) for root in found.roots], where)
            self.assertEqual(len(numbers), 2)


class ProcessesTest(unittest.TestCase):
    """Work that is shared out."""

    def test_shared(self) -> None:
        """All parts are done, in order, and a process that fails is seen."""
        items = list(range(100))
        for least in (1, 30, 1000):
            parts = parallel.shared(lambda part: sum(part), items, least)
            self.assertEqual(sum(parts), 4950)
        self.assertEqual(len(parts), 1)
        if len(os.sched_getaffinity(0)) > 1:
            with self.assertRaises(Fault), open(os.devnull, "w") as nothing:
                kept = os.dup(2)
                os.dup2(nothing.fileno(), 2)
                try:
                    parallel.shared(lambda part: 1 // 0, items, 1)
                finally:
                    os.dup2(kept, 2)
                    os.close(kept)


if __name__ == "__main__":
    unittest.main()
