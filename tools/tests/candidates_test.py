"""Tests what counts as a holder in a dump, and what does not."""

import unittest
from typing import List

from heap_tools.candidates import FIELD, GROUP, LOADED_CLASSES, LOCAL, PENDING, STATIC, THREAD, THREADS, WEAK, Candidate
from heap_tools.candidates import Candidates, joint_name
from heap_tools.heap_dump import HeapDump
from heap_tools.reports import Amount, Report, Row
from heap_tools.what_counts import Way, Weak, side_of
from tests.support.dump_writer import BYTE, DumpWriter, word
from tests.support.marked import marked

#: The tags of roots that name a thread. Only the first names a frame.
JAVA_FRAME, NATIVE_STACK, THREAD_BLOCK, THREAD_OBJECT = 0x03, 0x04, 0x06, 0x08


class Application(DumpWriter):
    """A thread with a name, in a group that lists it, and a loader that lists its classes. A frame, a native stack and
    a block of the thread name an order each."""

    def __init__(self) -> None:
        super().__init__()
        self.of_class(1, "java/lang/ThreadGroup", fields=["threads"])
        self.of_class(2, "java/lang/ClassLoader", fields=["classes"])
        self.of_class(3, "java/lang/Thread", fields=["name", "group"])
        self.of_class(4, "java/lang/String", fields=["value", "coder"])
        self.of_class(5, "shop/Order", {"FIRST": 300, "NONE": 0}, fields=["next"])
        self.of_class(6, "java/lang/ref/Reference", fields=["referent", "discovered"])
        self.thread(1, 200, [(5, "sell")])
        self.instance(200, 3, 201, 203)
        self.instance(201, 4, 202, b"\0")
        self.values(202, BYTE, b"seller")
        self.instance(203, 1, 200)
        self.instance(204, 2, 5)
        self.instance(300, 5, 301)
        self.instance(301, 5, 0)
        self.local(1, 0, 300)
        self.heap += self.form.root(NATIVE_STACK, 301) + word(1)
        self.heap += self.form.root(THREAD_BLOCK, 301) + word(1)
        self.root(204)


class CandidatesTest(unittest.TestCase):
    """The candidates of a dump."""

    def candidates(self, dump: DumpWriter, follows_weak: bool = False) -> Candidates:
        """Returns what can hold objects in a dump with an object of each class."""
        found = HeapDump(dump.bytes())
        return Candidates(found, self.report(found), follows_weak)

    def named(self, candidates: List[Candidate]) -> List[str]:
        """Returns the names of candidates."""
        return [str(each) for each in candidates]

    def report(self, dump: HeapDump) -> Report:
        """Returns a report with an object of each class."""
        return Report([Row(name, Amount(1, 8)) for name in dump.names.values()])

    def test_fields(self) -> None:
        """All fields of reachable instances but the lists of a group's threads, of a loader's classes and of references
        that wait for their queues."""
        known = self.candidates(Application())
        fields = self.named(known.fields(self.report(known.dump)))
        self.assertNotIn(GROUP, fields)
        self.assertNotIn(LOADED_CLASSES, fields)
        self.assertNotIn(PENDING, fields)
        wanted = ["java/lang/String.value", "java/lang/Thread.group", "java/lang/Thread.name", "shop/Order.next"]
        self.assertEqual(fields, wanted)
        self.assertEqual(known.fields(Report()), [])
        followed = self.candidates(Application(), follows_weak=True)
        self.assertEqual(self.named(followed.fields(self.report(known.dump))), sorted([*wanted, WEAK]))

    def test_statics(self) -> None:
        """Static fields that are not null."""
        self.assertEqual(self.named(self.candidates(Application()).statics()), ["static shop/Order.FIRST"])

    def test_threads(self) -> None:
        """A root of a native stack counts for its thread, not for a method; a local variable for both."""
        known = self.candidates(Application())
        (local,), (thread,) = known.locals(), known.threads()
        self.assertEqual((str(local), str(thread)), ("local shop/Order.sell", 'thread "seller"'))
        self.assertEqual((len(local.places), len(thread.places)), (1, 4))
        self.assertEqual(known.all_threads().places, thread.places)
        frames = {root.kind: root.frame for root in known.dump.roots}
        self.assertEqual(frames, {JAVA_FRAME: 0, NATIVE_STACK: None, THREAD_BLOCK: None, THREAD_OBJECT: None})

    def test_threads_alike(self) -> None:
        """Several threads of one pattern are one candidate; a single one and those without a name are none."""
        for names, wanted in (
            ([b"report-1", b"report-22", b"main"], [("report-*", 2)]),
            ([b"report-1", b"main"], []),
            ([b"", b"", b"main"], []),
        ):
            dump = Application()
            for number, name in enumerate(names, 2):
                dump.thread(number, 400 + 3 * number)
                dump.instance(400 + 3 * number, 3, 401 + 3 * number, 203)
                dump.instance(401 + 3 * number, 4, 402 + 3 * number, b"\0")
                dump.values(402 + 3 * number, BYTE, name)
            found = self.candidates(dump).threads_alike()
            self.assertEqual([(each.name, each.count) for each in found], wanted)

    def test_kin(self) -> None:
        """The static fields of a class, and its fields; not what the virtual machine keeps with a class."""
        dump = Application()
        dump.of_class(50, "shop/Kind", {"ONE": 350, "ALL": 351, "<resolved_references>": 352})
        kin = self.candidates(dump).kin()
        self.assertEqual(self.named(kin[STATIC, "shop/Kind"]), ["static shop/Kind.ALL", "static shop/Kind.ONE"])
        self.assertEqual(self.named(kin[FIELD, "shop/Order"]), ["shop/Order.next"])

    def classes(self, *names: str, loader: int = 0, field: str = "ALL") -> Application:
        """Returns a dump in which each of some more classes has a static field that is not null."""
        dump = Application()
        for number, name in enumerate(names, 50):
            dump.of_class(number, name, {field: 300 + number}, loader=loader * number)
        return dump

    def test_statics_alike(self) -> None:
        """Static fields of classes of one loader whose names differ only in numbers or in what generators add are one
        candidate. A class of a kind of its own is none, nor are hidden classes, which have one name."""
        view = "shop/View$$EnhancerByCGLIB$$"
        for names, wanted in (
            ([f"{view}3f2a91c0", f"{view}facade", f"{view}3f2a91c0_2"], [(f"{view}*.ALL", 3)]),
            (["shop/$Proxy1", "shop/$Proxy22", "shop/Other1"], [("shop/$Proxy*.ALL", 2)]),
            ([f"{view}3f2a91c0", "shop/$Proxy1", "shop/View"], []),
            (["shop/Viewabc", "shop/Viewdef", "shop/View$abc", "shop/View$def"], []),
            (["shop/Bus$$Lambda$1+0x00aa", "shop/Bus$$Lambda$2+0x00ab"], []),
            (["shop/A*", "shop/A1", "shop/A2"], []),
        ):
            found = self.candidates(self.classes(*names)).statics_alike()
            self.assertEqual([(each.name, each.count) for each in found], wanted, names)
        proxies = "shop/$Proxy1", "shop/$Proxy2"
        self.assertEqual(self.candidates(self.classes(*proxies, loader=1)).statics_alike(), [])
        self.assertEqual(self.candidates(self.classes(*proxies, field="<init_lock>")).statics_alike(), [])

    def test_alike_in_other_dumps(self) -> None:
        """In other dumps classes alike are called by their pattern, however many there are."""
        known = self.candidates(self.classes("shop/$Proxy1", "shop/$Proxy2"))
        (alike,) = known.statics_alike()
        self.assertEqual((str(alike), alike.is_own), ("static shop/$Proxy*.ALL", True))
        self.assertEqual((known.instances(alike.key, Report()), known.values_of_static(alike.key)), (2, {350, 351}))
        self.assertEqual([*known.places(alike.key)], [*alike.places])
        self.assertEqual(self.named(known.few())[1:4], [*self.named(known.statics())[1:], str(alike)])
        earlier = self.candidates(self.classes("shop/$Proxy7"))
        self.assertEqual((earlier.instances(alike.key, Report()), [*earlier.places(alike.key)]), (1, ["object 50 4"]))
        self.assertFalse(self.candidates(Application()).places(alike.key))

    def test_running(self) -> None:
        """Local variables of all methods, or of those of the JDK."""
        dump = Application()
        dump.of_class(7, "java/lang/Object")
        dump.thread(2, 200, [(7, "wait")])
        dump.local(2, 0, 300)
        known = self.candidates(dump)
        self.assertEqual(self.named(known.locals()), ["local java/lang/Object.wait", "local shop/Order.sell"])
        self.assertEqual(self.named(known.calls_of_jdk()), ["local java/lang/Object.wait"])

    def test_holders(self) -> None:
        """Of static fields those that are not null hold, of fields the instances of the class and of those below it."""
        dump = Application()
        dump.of_class(7, "shop/Rush", fields=["until"], superclass=5)
        known = self.candidates(dump)
        report = Report([Row("shop/Order", Amount(3, 24)), Row("shop/Rush", Amount(4, 64))])
        for key, wanted in (
            ((STATIC, "shop/Order.FIRST"), 1),
            ((STATIC, "shop/Order.NONE"), 0),
            ((FIELD, "shop/Order.next"), 7),
            ((FIELD, "shop/Rush.until"), 4),
            ((FIELD, "shop/Order.lost"), 0),
            ((LOCAL, "shop/Order.sell"), 1),
            ((THREAD, "nobody"), 0),
            ((THREADS, ""), 1),
        ):
            self.assertEqual(known.instances(key, report), wanted, key)

    def test_collections(self) -> None:
        """A class is a collection if its name, or that of a class around it, ends like one, or by what it or a class
        around it inherits. Not all of the JDK's package is."""
        for name, superclass, wanted in (
            ("lib/IntSet", 0, True),
            ("lib/LongMap", 0, True),
            ("lib/LinkedList", 0, True),
            ("java/util/TaskQueue", 0, True),
            ("lib/Deque", 0, True),
            ("lib/IntSet$Cell", 0, True),
            ("lib/Cache$Segment", 0, True),
            ("lib/Cache$Segment$Cell", 0, True),
            ("lib/Cached$Segment", 0, False),
            ("lib/Lists", 0, False),
            ("lib/HandlerCollection", 0, False),
            ("java/util/Collections$Wrapper", 0, True),
            ("lib/Settings", 0, False),
            ("lib/Mapper", 0, False),
            ("lib/Table", 0, False),
            ("lib/Table", 40, True),
            ("java/util/concurrent/ThreadPoolExecutor", 0, False),
            ("java/util/concurrent/ThreadPoolExecutor$Worker", 0, False),
            ("java/util/Timer", 0, False),
        ):
            dump = Application()
            dump.of_class(40, "java/util/AbstractMap")
            dump.of_class(42, "lib/Cache", superclass=40)
            dump.of_class(43, "java/util/Collections")
            dump.of_class(41, name, fields=["cells"], superclass=superclass)
            known = self.candidates(dump)
            fields = {each.name: each.is_collection for each in known.fields(self.report(known.dump))}
            self.assertEqual(fields[f"{name}.cells"], wanted, (name, superclass))

    def test_inherited_collections(self) -> None:
        """What inherits from a collection of the JDK is one, whatever its name: a list, a map, or a table such as
        Hashtable, of which Properties are."""
        for above, wanted in (
            (["java/util/AbstractCollection"], True),
            (["java/util/AbstractMap"], True),
            (["java/util/Dictionary"], True),
            (["java/util/Dictionary", "java/util/Hashtable", "java/util/Properties"], True),
            (["java/lang/Object"], False),
        ):
            dump, number = Application(), 40
            for number, name in enumerate(above, 40):
                dump.of_class(number, name, superclass=number - 1 if number > 40 else 0)
            dump.of_class(60, "shop/Prices", fields=["cells"], superclass=number)
            dump.instance(9000, 60, 0)
            dump.root(9000)
            known = self.candidates(dump)
            fields = {each.name: each.is_collection for each in known.fields(self.report(known.dump))}
            self.assertEqual(fields["shop/Prices.cells"], wanted, above)

    def test_order(self) -> None:
        """What the virtual machine keeps comes last."""
        dump = Application()
        dump.of_class(7, "shop/A", {"<init_lock>": 300, "ALL": 301})
        statics = ["static shop/A.ALL", "static shop/Order.FIRST", "static shop/A.<init_lock>"]
        self.assertEqual(self.named(self.candidates(dump).statics()), statics)

    def test_joint_name(self) -> None:
        """Of many names the first ones are shown; never only one more."""
        candidates = [Candidate(STATIC, f"A.{name}", 1) for name in "edcba"]
        for count, wanted in (
            (1, "static A.e"),
            (2, "together static A.e, static A.d"),
            (4, "together static A.e, static A.d, static A.c, static A.b"),
            (5, "together static A.e, static A.d, static A.c .. and 2 more"),
        ):
            self.assertEqual(joint_name(candidates[:count]), wanted)

    def test_places(self) -> None:
        """A place is that of the reference among those of the object: after the class, in the order of the dump, first
        the fields of the class, then those of the superclass; of a class after its superclass, loader, signers and
        domain; of a root among all roots."""
        dump = Application()
        dump.of_class(7, "shop/Rush", {"LAST": 301}, fields=["int_minutes", "until"], superclass=5)
        known = self.candidates(dump)
        for key, wanted in (
            ((FIELD, "shop/Order.next"), ["class 5 1", "class 7 2"]),
            ((FIELD, "shop/Rush.until"), ["class 7 1"]),
            ((FIELD, WEAK), ["class 6 1"]),
            ((FIELD, PENDING), ["class 6 2"]),
            ((STATIC, "shop/Order.NONE"), ["object 5 5"]),
            ((STATIC, "shop/Rush.LAST"), ["object 7 4"]),
            ((LOCAL, "shop/Order.sell"), ["root 1"]),
            ((THREAD, "seller"), ["root 0", "root 1", "root 2", "root 3"]),
        ):
            self.assertEqual(known.places(key), wanted, key)
        for kind in (STATIC, FIELD, LOCAL, THREAD):
            self.assertFalse(known.places((kind, "other")))
        self.assertEqual(known.values_of_static((STATIC, "shop/Order.FIRST")), {300})

    def test_side(self) -> None:
        """The lists of a group's threads and of references that wait for their queues are cut, as weak references are
        unless they are followed. Classes that are never unloaded are roots."""
        for follows in Weak:
            dump = Application()
            dump.instance(302, 6, 0, 0)
            dump.root(302)
            side = side_of(marked(dump), Way(follows))
            self.assertEqual(side.cut, ["class 1 1", "class 6 2", *["class 6 1"] * (follows is Weak.NONE)])
            self.assertEqual(side.roots, side.runs.dump.lasting_classes())
            self.assertIn(5, side.roots)

    def test_names(self) -> None:
        """Of two LOAD CLASS records for one class, the first names it."""
        dump = Application()
        dump.loaded(5, "shop/Later")
        self.assertEqual(self.candidates(dump).dump.names[5], "shop/Order")


if __name__ == "__main__":
    unittest.main()
