"""Tests what names an object of a dump."""

import unittest
from typing import List, Sequence, Tuple
from unittest import mock

from heap_tools import hprof_format as hprof
from heap_tools.heap_dump import HeapDump
from heap_tools.heap_objects import HeapObjects
from heap_tools.naming import shown_text
from heap_tools.object_names import ObjectNames
from tests.support.dump_writer import BYTE, DumpWriter, word
from tests.support.queues import Queues
from tests.support.thread_locals import LOCAL, OTHER_LOCAL, Threads


class NamesTest(unittest.TestCase):
    """What names an object."""

    def names(self, dump: DumpWriter, *numbers: int, others: Sequence[int] = ()) -> List[List[str]]:
        """Returns the names of the objects with these identifiers, beside those with the identifiers `others`."""
        names = ObjectNames(self.read(dump.bytes().replace(b"int__", b"value")))
        places = names.objects.places_of([*numbers, *others])
        found = names.names_of([places[number] for number in numbers], [places[number] for number in others])
        return [[str(each) for each in found[places[number]]] for number in numbers]

    def read(self, content: bytes) -> HeapDump:
        """Returns what is read of a dump."""
        return HeapDump(content)

    def test_keys(self) -> None:
        """An object has the names of the keys under which maps have it: texts and numbers."""
        dump = Queues([1, 1, 1])
        dump.string(60_000, "orders.eu")
        dump.instance(60_001, 8, word(2**32 - 7))
        for node, key, value in ((61_000, 60_000, 1000), (61_001, 60_001, 1001), (61_002, 210, 1002)):
            dump.instance(node, 5, key, value)
        wanted = [
            ['its field name "queue 0"', 'the map\'s key "orders.eu"'],
            ['its field name "queue 1"', "the map's key -7"],
            ['its field name "queue 2"'],
        ]
        self.assertEqual(self.names(dump, 1000, 1001, 1002), wanted)

    def test_maps(self) -> None:
        """Each kind of map has its keys in a field of its own; a key may be a number of any size."""
        maps = "java/util/", "java/util/concurrent/"
        for name, value in (
            (f"{maps[0]}HashMap$Node", "value"),
            (f"{maps[0]}Hashtable$Entry", "value"),
            (f"{maps[0]}TreeMap$Entry", "value"),
            (f"{maps[1]}ConcurrentHashMap$Node", "val"),
            (f"{maps[1]}ConcurrentSkipListMap$Node", "val"),
        ):
            dump = self.boxes()
            dump.of_class(30, name, fields=["key", value])
            for number, key in enumerate((60_000, 60_001, 60_002, 60_003)):
                dump.instance(61_000 + number, 30, key, 300 + number)
            keys = [[f"the map's key {key}"] for key in ('"eu"', -(2**40), -3, -1)]
            self.assertEqual(self.names(dump, 300, 301, 302, 303), keys, name)
        weak = self.boxes()
        weak.of_class(30, f"{maps[0]}WeakHashMap$Entry", fields=["value"], superclass=6)
        weak.instance(61_000, 30, 300, 60_000)
        self.assertEqual(self.names(weak, 300), [['the map\'s key "eu"']])

    def test_said_once(self) -> None:
        """A text that names an object several times is said once: what has it is joined, but of owners the first one
        with it is enough."""
        dump = Queues([1, 1], names=["orders", "carts"])
        dump.string(60_000, "orders")
        for node, key, value in ((61_000, 60_000, 1000), (61_001, 60_000, 1000), (61_002, 20_000, 1001)):
            dump.instance(node, 5, key, value)
        wanted = [['its field name and the map\'s key "orders"'], ['its field name "carts"', 'the map\'s key "orders"']]
        self.assertEqual([self.names(dump, 1000), self.names(dump, 1001)], [wanted[:1], wanted[1:]])
        owned = Queues([])
        owned.of_class(20, "shop/Atom")
        owned.of_class(21, "shop/Shelf", {"FIRST": 310}, fields=["atom", "name", "label"])
        owned.of_class(22, "shop/Hall", {"ONLY": 320}, fields=["atom", "name"])
        owned.instance(300, 20)
        owned.instance(310, 21, 300, 60_000, 0)
        owned.instance(320, 22, 300, 60_001)
        owned.string(60_000, "eu")
        owned.string(60_001, "eu")
        self.assertEqual(self.names(owned, 300), [['of shop/Hall, its field name "eu"']])

    def test_likeliest_owner(self) -> None:
        """Of owners that are equally near those come first whose text is called like a name."""
        dump = Queues([])
        dump.of_class(20, "shop/Atom")
        dump.of_class(21, "shop/Atrium", {"FIRST": 310}, fields=["atom", "kind"])
        dump.of_class(22, "shop/Hall", {"ONLY": 320}, fields=["atom", "name"])
        dump.instance(300, 20)
        dump.instance(310, 21, 300, 60_000)
        dump.instance(320, 22, 300, 60_001)
        dump.string(60_000, "glass")
        dump.string(60_001, "big")
        owners = ['of shop/Hall, its field name "big"', 'of shop/Atrium, its field kind "glass"']
        self.assertEqual(self.names(dump, 300), [owners])

    def boxes(self) -> Queues:
        """Returns a dump with four objects without names, a text and three boxed numbers."""
        dump = Queues([])
        dump.of_class(20, "shop/Atom", fields=["state"])
        for number, (name, code) in enumerate((("Long", hprof.LONG), ("Short", hprof.SHORT), ("Byte", hprof.BYTE)), 40):
            dump.loaded(number, f"java/lang/{name}")
            dump.heap += dump.form.named_class_dump(number, (0, 0), [], [(dump.text("value"), code)])
        for number in range(300, 304):
            dump.instance(number, 20, 0)
        dump.string(60_000, "eu")
        for number, value in enumerate((b"\xff\xff\xff\0\0\0\0\0", b"\xff\xfd", b"\xff")):
            dump.instance(60_001 + number, 40 + number, value)
        return dump

    def test_thread_local(self) -> None:
        """The value and the entry of a thread-local have the name of the static field that names the thread-local."""
        dump = Queues([1])
        dump.instance(62_000, 7, 1000, 210)
        local = "the thread-local static shop/Queues.LOCAL"
        self.assertEqual(self.names(dump, 1000, 62_000), [['its field name "queue 0"', local], [local]])
        dump.instance(62_001, 7, 0, 210)
        self.assertEqual(self.names(dump, 62_000, others=[62_001]), [[local]])

    def test_thread(self) -> None:
        """What a thread has by a thread-local has the name of the thread, too, after texts of its own: the value and
        the entry, by a static field or not, and of a subclass of threads."""
        dump = Threads([1])
        dump.of_class(20, "shop/Buffer")
        dump.of_class(33, "shop/Worker", superclass=30)
        for number in range(300, 303):
            dump.instance(number, 20)
        dump.having(1, "refunds", [(300, LOCAL), (301, OTHER_LOCAL)])
        dump.having(2, 'a"b' + "x" * 60, [(1000, LOCAL)], [(302, LOCAL)], of=33)
        local = "the thread-local static shop/Queues.LOCAL of thread"
        cut = f'"a\\x22b{"x" * 55}.."'
        wanted = [[f'{local} "refunds"'], ['a thread-local of thread "refunds"'], [f"{local} {cut}"]]
        self.assertEqual(self.names(dump, 300, 301, 302), wanted)
        self.assertEqual(self.names(dump, 400_112, 400_113, 400_222), wanted)
        self.assertEqual(self.names(dump, 1000), [['its field name "queue 0"', f"{local} {cut}"]])

    def test_thread_of_none(self) -> None:
        """A thread names nothing if it has no name, or that of another one, if another one has the object, too, or it
        several by thread-locals without names, or if no thread that is a root has an entry of it."""
        dump = Threads()
        dump.of_class(20, "shop/Buffer")
        for number in range(300, 308):
            dump.instance(number, 20)
        dump.having(1, "", [(300, LOCAL)])
        for serial, name in ((2, "pool"), (3, "pool"), (4, "refunds"), (5, "orders")):
            dump.having(serial, name, [(299 + serial, LOCAL)] if name == "pool" else [(303, LOCAL)])
        dump.having(6, "carts", [(304, OTHER_LOCAL), (305, 212), (307, LOCAL)])
        dump.instance(212, 9)
        dump.instance(62_000, 7, 306, LOCAL)
        dump.instance(62_001, 7, 307, LOCAL)
        dump.instance(400_700, 30, 400_701, 400_710, 0)
        dump.thread(7, 400_700)
        dump.instance(400_710, 31, 400_711)
        dump.values(400_711, BYTE, bytes(80))
        local = ["the thread-local static shop/Queues.LOCAL"]
        self.assertEqual(self.names(dump, *range(300, 308)), [local, local, local, local, [], [], local, local])
        self.assertEqual(self.names(dump, 301, 302), [local, local])
        self.assertEqual(self.names(dump, 304), [['a thread-local of thread "carts"']])

    def test_threads_are_not_read(self) -> None:
        """Threads are looked up only if an entry or a value of a thread-local is to be named."""
        dump = Threads([1])
        dump.having(1, "refunds", [(0, LOCAL)])
        with mock.patch.object(HeapObjects, "thread_names", side_effect=AssertionError):
            self.assertEqual(self.names(dump, 1000), [['its field name "queue 0"']])
            with self.assertRaises(AssertionError):
                self.names(dump, 400_112)

    def test_hidden(self) -> None:
        """Of a name without its text, that of a thread stays: what a thread has, what leads from it, and itself; but
        not a text of a field that is only called so, and none that is that of a field, too."""
        dump = Threads(sizes=[1])
        dump.of_class(33, "shop/Worker", fields=["name"], superclass=30)
        dump.having(1, "queue 0", [(1000, LOCAL)])
        dump.having(2, "refunds", [(0, LOCAL)])
        dump.instance(311, 33, 60_001, 60_000, 0, 0)
        dump.string(60_000, "orders")
        dump.string(60_001, "secret")
        named = ObjectNames(self.read(dump.bytes()))
        places = named.objects.places_of([1000, 400_212, 400_210, 400_200, 311])
        local = "the thread-local static shop/Queues.LOCAL of thread"
        wanted = [
            [f"its field name and {local}"],
            [f'{local} "refunds"'],
            ['of java/lang/Thread, its field name "refunds"'],
            ['its field name "refunds"'],
            ["its field name"],
        ]
        found = [named.names_of([places[number]])[places[number]] for number in (1000, 400_212, 400_210, 400_200, 311)]
        self.assertEqual([[str(each.hidden()) for each in names] for names in found], wanted)

    def test_owners(self) -> None:
        """An object without a name has that of the nearest object that leads to it, unless others have it, too."""
        dump = Queues([])
        dump.of_class(20, "shop/Atom", fields=["state"])
        dump.of_class(21, "shop/Var", fields=["root", "symbol", "space", "thread"])
        dump.of_class(22, "shop/Symbol", fields=["name"])
        dump.of_class(23, "java/lang/Thread", fields=["name"])
        dump.of_class(24, "shop/Box", fields=["atom"])
        dump.of_class(25, "[Lshop/Box;")
        dump.of_class(26, "shop/Shelf", {"BOXES": 340}, fields=["boxes", "labelName"])
        for number, text in enumerate(("sessions", "carts", "shop", "main")):
            dump.string(60_000 + number, text)
            dump.instance(320 + number, 23 if text == "main" else 22, 60_000 + number)
        for number in range(2):
            dump.instance(300 + number, 20, 0)
            dump.instance(310 + number, 21, 300 + number, 320 + number, 322, 323 if number else 0)
        dump.instance(302, 20, 0)
        dump.instance(330, 24, 302)
        dump.array(340, 25, 0, 330)
        dump.instance(341, 26, 340, 60_002)
        symbols = [[f'of shop/Var, its field symbol.name "{name}"'] for name in ("sessions", "carts")]
        self.assertEqual(self.names(dump, 300, others=[301]), symbols[:1])
        self.assertEqual(self.names(dump, 301, others=[300]), symbols[1:])
        shelf = 'of shop/Shelf, its field labelName "shop"'
        self.assertEqual(self.names(dump, 302, others=[301]), [[shelf, "static shop/Shelf.BOXES"]])

    def test_shared(self) -> None:
        """What up to twelve owners have is named by them; what more have is shared, and has no name."""
        for count, wanted in ((12, ['of shop/Shelf, its field label "eu"']), (13, [])):
            dump = Queues([])
            dump.of_class(20, "shop/Atom")
            dump.of_class(21, "shop/Shelf", fields=["atom", "label"])
            dump.instance(300, 20)
            dump.string(60_000, "eu")
            for number in range(count):
                dump.instance(310 + number, 21, 300, 60_000)
            self.assertEqual(self.names(dump, 300), [wanted], count)

    def test_points_back(self) -> None:
        """Elements that point back to what holds them do not name it, few or many, and neither do they leave it without
        a name: they are in its list, in the nodes of its map, or in a chain."""
        for count in (1, 3, 12, 13, 50):
            for chained in (False, True):
                dump = self.tenants(count, chained)
                self.assertEqual(self.names(dump, 300), [['the map\'s key "tenant-317"']], (count, chained))
                self.assertEqual(self.names(dump, 310), [['the map\'s key "tenant-317"']], (count, chained))

    def tenants(self, count: int, chained: bool) -> Queues:
        """Returns a dump with a tenant, 300, in a map, who has an inbox, 310, a list of messages: each has an id, the
        tenant, and if `chained`, the message before it. A local variable leads to the first."""
        dump = Queues([])
        dump.of_class(20, "shop/Tenant", fields=["inbox"])
        dump.of_class(21, "shop/Inbox", fields=["messages"])
        dump.of_class(22, "[Lshop/Message;")
        dump.of_class(23, "shop/Message", fields=["id", "tenant", "last"])
        dump.of_class(24, "[Ljava/util/HashMap$Node;")
        dump.of_class(25, "shop/Shop", {"TENANTS": 330})
        dump.instance(300, 20, 310)
        dump.instance(310, 21, 311)
        dump.array(311, 22, *range(400, 400 + count))
        for number in range(400, 400 + count):
            dump.instance(number, 23, 60_000 + number, 300, number - 1 if chained and number > 400 else 0)
            dump.string(60_000 + number, f"message {number}")
        dump.string(60_000, "tenant-317")
        dump.instance(320, 5, 60_000, 300)
        dump.array(330, 24, 320)
        return dump

    def test_node_that_inherits(self) -> None:
        """The nodes of a map that inherits from one of the JDK's have keys, too."""
        dump = Queues([])
        dump.of_class(20, "java/util/LinkedHashMap$Entry", fields=["before", "after"], superclass=5)
        dump.of_class(21, "shop/Tenant", fields=["inbox"])
        dump.of_class(22, "shop/Inbox")
        dump.of_class(23, "shop/Tenants", {"FIRST": 320})
        for number, text in enumerate(("eu", "us")):
            dump.string(60_000 + number, text)
            dump.instance(300 + number, 22)
            dump.instance(310 + number, 21, 300 + number)
        dump.instance(320, 20, 0, 321, 60_000, 310)
        dump.instance(321, 20, 320, 0, 60_001, 311)
        wanted = [['the map\'s key "eu"'], ['the map\'s key "us"']]
        self.assertEqual(self.names(dump, 310, 311), wanted)
        self.assertEqual(self.names(dump, 300, 301), wanted)

    def test_parent(self) -> None:
        """What leads to an object names it, also if the object leads there, too: a registry is no element."""
        dump = Queues([])
        dump.of_class(20, "shop/Tenant", fields=["registry", "messages"])
        dump.of_class(21, "shop/Registry", {"ONE": 310}, fields=["tenant", "name"])
        dump.of_class(22, "shop/Message", fields=["id", "tenant"])
        dump.instance(300, 20, 310, 320)
        dump.instance(310, 21, 300, 60_000)
        dump.instance(320, 22, 60_001, 300)
        dump.string(60_000, "eu")
        dump.string(60_001, "message")
        self.assertEqual(self.names(dump, 300), [['its field registry.name "eu"']])

    def test_several(self) -> None:
        """If the likeliest text of an object is that of others, too, the next one names it."""
        dump = Queues([])
        dump.of_class(20, "shop/Session", fields=["url", "host", "name", "id"])
        for number, text in enumerate(("session", "eu", "us", "7", "8", "/a", "/b")):
            dump.string(60_000 + number, text)
        dump.instance(300, 20, 60_005, 60_001, 60_000, 60_003)
        dump.instance(301, 20, 60_006, 60_002, 60_000, 60_003)
        dump.instance(302, 20, 60_006, 60_002, 60_000, 60_004)
        wanted = [['its field url "/a"', 'its field host "eu"'], [], ['its field id "8"']]
        self.assertEqual(self.names(dump, 300, 301, 302), wanted)

    def test_alike(self) -> None:
        """A text that several of the objects have, or one of the others, names none of them."""
        dump = Queues([1, 1, 1, 1], names=["Etc/UTC", "Etc/UTC", "Etc/GMT", "Etc/CET"])
        self.assertEqual(self.names(dump, 1000, 1001, 1002), [[], [], ['its field name "Etc/GMT"']])
        self.assertEqual(self.names(dump, 1000, 1003, others=[1001]), [[], ['its field name "Etc/CET"']])

    def test_parts(self) -> None:
        """An object without a name has that of what it is made of, then those of its owners. A constant, a thread and
        the first node of a map name nothing that has them, and neither does what others have, too."""
        dump = Queues([])
        dump.of_class(20, "java/lang/Enum", fields=["name"])
        dump.of_class(21, "shop/Priority", superclass=20)
        dump.of_class(22, "java/lang/Thread", fields=["name"])
        dump.of_class(23, "shop/Shelf", fields=["label", "first"])
        fields = ["priority", "thread", "first", "shop", "reader"]
        dump.of_class(24, "shop/Stream", fields=fields)
        dump.of_class(25, "shop/Reader", fields=["name", "stream"])
        for number, text in enumerate(("HIGH", "main", "page-1", "shop", "warehouse", "hall 7"), 60_000):
            dump.string(number, text)
        dump.instance(310, 21, 60_000)
        dump.instance(311, 22, 60_001)
        dump.instance(312, 5, 60_002, 0)
        dump.instance(313, 25, 60_003, 0)
        dump.instance(314, 25, 60_004, 300)
        dump.instance(300, 24, 310, 311, 312, 313, 314)
        dump.instance(301, 24, 310, 311, 312, 313, 0)
        dump.instance(315, 23, 60_005, 300)
        dump.root(315)
        wanted = ['its field reader.name "warehouse"', 'of shop/Shelf, its field label "hall 7"']
        self.assertEqual(self.names(dump, 300, others=[301]), [wanted])
        self.assertEqual(self.names(dump, 301, others=[300]), [[]])

    def test_labels(self) -> None:
        """An object that nothing else names has the texts in small arrays of its own, and in those of its parts, but
        not of another object of its class. Texts that others have, too, and those in a longer array name nothing."""
        cases: List[Tuple[int, List[str]]] = [(16, ['its field meta.array "printer"']), (17, [])]
        for length, wanted in cases:
            dump = Queues([])
            dump.of_class(20, "shop/Map", fields=["array"])
            dump.of_class(21, "shop/Agent", fields=["meta", "next", "labels"])
            dump.of_class(22, "[Ljava/lang/Object;")
            for number, text in enumerate(("clerk", "printer", "clerk-7", "GET", "eu"), 60_000):
                dump.string(number, text)
            for number, labels in enumerate(((60_000, 60_001), (60_000, 60_002))):
                dump.instance(300 + number, 21, 310 + number, 301 if number == 0 else 0, 330 + number)
                dump.instance(310 + number, 20, 320 + number)
                dump.array(320 + number, 22, *labels, *[0] * (length - 2))
                dump.array(330 + number, 22, 60_003, 0 if number == 0 else 60_004)
            dump.root(300, 301)
            self.assertEqual(self.names(dump, 300, others=[301]), [wanted])
            others = ['its field meta.array "clerk-7"'][: len(wanted)]
            self.assertEqual(self.names(dump, 301, others=[300]), [[*others, 'its field labels "eu"']])
            dump.instance(340, 5, 60_001, 301)
            self.assertEqual(self.names(dump, 301, others=[300]), [['the map\'s key "printer"']])

    def test_nearer(self) -> None:
        """A name is that of the object which it is nearest to: what leads to it also by a list of all is none of
        theirs."""
        dump = Queues([])
        dump.of_class(20, "shop/Work")
        dump.of_class(21, "shop/Lane", {"FIRST": 310, "SECOND": 311}, fields=["work", "kind"])
        dump.of_class(22, "shop/Cleaner", fields=["work", "next"])
        for number, kind in ((0, "pdf"), (1, "mail")):
            dump.string(60_000 + number, kind)
            dump.instance(300 + number, 20)
            dump.instance(310 + number, 21, 320 + number, 60_000 + number)
            dump.instance(320 + number, 22, 300 + number, 321 - number)
        wanted = [[f'of shop/Lane, its field kind "{kind}"'] for kind in ("pdf", "mail")]
        self.assertEqual(self.names(dump, 300, 301), wanted)

    def test_neighbour(self) -> None:
        """The name of a neighbour, an object of the same class, names no object that it leads to, be it by one of the
        class or not, and neither does the stack where an object was made, what an object is as a text, nor a random
        number that is not called as a name; what an owner is made of does."""
        dump = Queues([])
        dump.of_class(20, "shop/Atom")
        dump.of_class(21, "shop/Link", {"FIRST": 310}, fields=["atom", "next", "name"])
        dump.of_class(22, "shop/Pooled", {"ONE": 320}, fields=["creationStackTrace"])
        dump.of_class(23, "shop/Traced", {"ONE": 321}, fields=["where"])
        dump.of_class(24, "shop/Cached", {"ONE": 322}, fields=["guid"])
        dump.of_class(25, "shop/Known", {"ONE": 323}, fields=["id"])
        dump.of_class(26, "shop/Pool", {"ONE": 324}, fields=["name", "type"])
        dump.string(60_005, "shop.Pool$Of@5451c3a8")
        dump.instance(324, 26, 60_005, 60_000)
        dump.string(60_000, "eu")
        dump.string(60_001, "at shop.Pool.make")
        dump.string(60_002, "made\n at shop.Pool.make")
        dump.string(60_003, "vm/127.0.0.1-8bdaf832-c041-40FF-8322-a9817f4aeead")
        dump.string(60_004, "8bdaf832-c041-40ff-8322-a9817f4aeead")
        dump.instance(300, 20)
        dump.instance(310, 21, 300, 311, 0)
        dump.instance(311, 21, 0, 0, 60_000)
        dump.instance(320, 22, 60_001)
        dump.instance(321, 23, 60_002)
        dump.instance(322, 24, 60_003)
        dump.instance(323, 25, 60_004)
        statics = ("Link.FIRST", "Pooled.ONE", "Traced.ONE", "Cached.ONE", "Pool.ONE")
        names = [[f"static shop/{name}"] for name in statics]
        random = ['its field id "8bdaf832-c041-40ff-8322-a9817f4aeead"']
        self.assertEqual(self.names(dump, 300, 320, 321, 322, 324, 323), [*names, random])
        chain = Queues([])
        chain.of_class(20, "shop/Reader", fields=["name"])
        chain.of_class(21, "shop/Stream", {"FIRST": 310}, fields=["next", "reader", "name"])
        for number, (name, reader) in enumerate(((60_000, 0), (0, 320), (0, 0))):
            chain.instance(310 + number, 21, 311 + number if number < 2 else 0, reader, name)
        chain.instance(320, 20, 60_001)
        chain.string(60_000, "eu")
        chain.string(60_001, "us")
        self.assertEqual(self.names(chain, 311, 312), [['its field reader.name "us"'], []])

    def test_many_point(self) -> None:
        """Many of one class that lead to an object from elsewhere do not leave it without the name that it has in a
        map."""
        dump = self.tenants(3, False)
        dump.of_class(26, "shop/Order", fields=["tenant"])
        dump.of_class(27, "[Lshop/Order;")
        dump.of_class(28, "shop/Orders", {"ALL": 700})
        dump.array(700, 27, *range(710, 740))
        for number in range(710, 740):
            dump.instance(number, 26, 300)
        self.assertEqual(self.names(dump, 310), [['the map\'s key "tenant-317"']])

    def test_far(self) -> None:
        """The key of what has an object in a proxy names it, six references up; what is further up does not, and
        neither does what leads to a thread."""
        for wrappers, wanted in ((3, ['the map\'s key "eu"']), (4, [])):
            dump = Queues([])
            dump.of_class(20, "shop/Inbox")
            dump.of_class(21, "java/util/HashMap$Entry", {"FIRST": 330})
            for number in range(2):
                dump.instance(300 + number, 20)
                for step in range(wrappers + 2):
                    if number == 0:
                        dump.of_class(40 + step, f"shop/Wrapper{step}", fields=["target"])
                    below = 310 + 100 * number + step - 1 if step else 300 + number
                    dump.instance(310 + 100 * number + step, 40 + step, below)
                dump.string(60_000 + number, ("eu", "us")[number])
                dump.instance(330 + number, 5, 60_000 + number, 310 + 100 * number + wrappers + 1)
            self.assertEqual(self.names(dump, 300, others=[301]), [wanted])
        dump = Threads()
        dump.of_class(20, "shop/Inbox")
        dump.of_class(21, "shop/Worker", fields=["inbox"], superclass=30)
        dump.of_class(22, "shop/Group", {"FIRST": 340}, fields=["name", "worker"])
        dump.of_class(23, "shop/Desk", {"INBOX": 301})
        dump.string(60_000, "group")
        dump.instance(300, 20)
        dump.instance(301, 20)
        dump.instance(320, 21, 300, 0, 0, 0)
        dump.instance(340, 22, 60_000, 320)
        self.assertEqual(self.names(dump, 300, 301), [["the field shop/Worker.inbox"], ["static shop/Desk.INBOX"]])

    def scopes(self, others: int) -> Queues:
        """Returns a dump with two arrays of a script, 300 and 301. The first is in two variables: `visits`, of a scope
        to which `others` functions refer that nothing holds for certain, and `log`, of one that a static field has."""
        dump = Queues([])
        dump.of_class(20, "script/Array", fields=["scope"])
        dump.of_class(21, "script/Slot", fields=["name", "value"])
        dump.of_class(22, "[Lscript/Slot;")
        dump.of_class(23, "script/Scope", {"TOP": 341}, fields=["slots"])
        dump.of_class(24, "script/Function", fields=["scope", "caller"])
        for number, (name, value) in enumerate((("visits", 300), ("log", 300), ("carts", 301)), 310):
            dump.string(60_000 + number, name)
            dump.instance(number, 21, 60_000 + number, value)
        dump.array(330, 22, 310)
        dump.array(331, 22, 311)
        dump.array(332, 22, 312)
        for number in range(3):
            dump.instance(340 + number, 23, 330 + number)
        dump.instance(300, 20, 340)
        dump.instance(301, 20, 342)
        for number in range(others):
            caller = 1001 + number if number < others - 1 else 1000
            dump.instance(1000 + number, 24, 340 if number % 2 else 0, caller)
        return dump

    def test_scopes(self) -> None:
        """If one of the owners by a field is known to be held elsewhere, another one, of which that is not known, names
        the object, too."""
        wanted = ['of script/Slot, its field name "log"', 'of script/Slot, its field name "visits"']
        self.assertEqual(self.names(self.scopes(900), 300, others=[301]), [wanted])

    def test_within(self) -> None:
        """What is in an object does not take its name: both are in a variable, but one by way of the other."""
        dump = Queues([])
        dump.of_class(20, "script/Object", fields=["table"])
        dump.of_class(21, "script/Slot", fields=["name", "value"])
        dump.of_class(22, "script/Scope", {"TOP": 340}, fields=["slot"])
        dump.of_class(23, "script/Table", fields=["slot"])
        for number, (name, value) in enumerate((("visits", 300), ("17", 301)), 310):
            dump.string(60_000 + number, name)
            dump.instance(number, 21, 60_000 + number, value)
        dump.instance(340, 22, 310)
        dump.instance(300, 20, 320)
        dump.instance(301, 20, 0)
        dump.instance(320, 23, 311)
        self.assertEqual(self.names(dump, 300, others=[301]), [['of script/Slot, its field name "visits"']])

    def test_field_above(self) -> None:
        """The field that leads to an object is its name if it has no other: the field of the program nearest to it that
        leads to nothing else, and the fields below that. A field by which several are led to is none."""
        dump = Queues([])
        dump.of_class(20, "shop/Watches", fields=["table"])
        dump.of_class(21, "shop/Tree", {"ONE": 330}, fields=["dataWatches", "childWatches"])
        dump.of_class(22, "java/util/HashMap")
        dump.of_class(23, "shop/OtherTree", fields=["dataWatches"], superclass=21)
        for number in range(2):
            dump.instance(300 + number, 20, 310 + number)
            dump.instance(310 + number, 22)
        dump.instance(330, 21, 300, 301)
        wanted = [["the field shop/Tree.dataWatches"], ["the field shop/Tree.childWatches"]]
        self.assertEqual(self.names(dump, 300, 301), wanted)
        wanted = [[f"{each[0]}.table"] for each in wanted]
        self.assertEqual(self.names(dump, 310, 311), wanted)
        for number in range(20):
            dump.instance(400 + number, 21, 300 if number == 19 else 0, 0)
        self.assertEqual(self.names(dump, 310, 311), wanted)
        dump.instance(440, 23, 0, 310, 0)
        self.assertEqual(self.names(dump, 310, 311), [[], wanted[1]])

    def test_owner_once(self) -> None:
        """An owner names an object once: by its text, not by that of a part, too, and not if it is named as a part."""
        dump = Queues([])
        dump.of_class(20, "shop/Tenant", fields=["registry"])
        dump.of_class(21, "shop/Registry", {"ONE": 310, "OTHER": 310}, fields=["id", "name", "owner", "tenant"])
        dump.of_class(22, "shop/Owner", fields=["name"])
        dump.of_class(23, "shop/Inbox", {"FIRST": 301, "LAST": 301})
        for number, text in enumerate(("7", "registry", "ms north")):
            dump.string(60_000 + number, text)
        dump.instance(300, 20, 310)
        dump.instance(301, 23)
        dump.instance(310, 21, 60_000, 60_001, 320, 300)
        dump.instance(320, 22, 60_002)
        self.assertEqual(self.names(dump, 300), [['its field registry.id "7"']])
        self.assertEqual(self.names(dump, 320), [['its field name "ms north"']])
        self.assertEqual(self.names(dump, 301), [["static shop/Inbox.FIRST"]])
        dump.of_class(24, "shop/Desk", fields=["registry", "inbox"])
        dump.of_class(25, "shop/Tray")
        dump.instance(302, 25)
        dump.instance(330, 24, 310, 302)
        self.assertEqual(self.names(dump, 302), [['of shop/Desk, its field registry.id "7"']])

    def test_attributes(self) -> None:
        """A text of an owner whose field is not called like a name is one only if no other one of its class has it:
        else it is an attribute, such as a state. So is the key that more than twelve maps have."""
        for count, is_name in ((1, True), (2, False)):
            dump = Queues([])
            dump.of_class(20, "shop/Inbox")
            dump.of_class(21, "shop/Tenant", fields=["state", "inbox", "id"])
            dump.string(60_000, "LATE")
            for number in range(count):
                dump.instance(300 + number, 20)
                dump.instance(310 + number, 21, 60_000, 300 + number if number == 0 else 0, 0)
            wanted = ['of shop/Tenant, its field state "LATE"'] if is_name else ["the field shop/Tenant.inbox"]
            self.assertEqual(self.names(dump, 300), [wanted])
        for count, is_name in ((12, True), (13, False)):
            dump = Queues([])
            dump.of_class(20, "shop/Session", fields=["basket"])
            dump.of_class(21, "shop/Basket")
            dump.string(60_000, "session")
            for number in range(count):
                dump.instance(300 + number, 21)
                dump.instance(320 + number, 20, 300 + number)
                dump.instance(340 + number, 5, 60_000, 320 + number)
            self.assertEqual(self.names(dump, 300), [['the map\'s key "session"'] if is_name else []], count)

    def test_owned_by_thread(self) -> None:
        """What an object has that a thread has by a thread-local is named by both, and if several threads of one name
        have such objects, by the thread-local."""
        for names, wanted in ((("orders", "carts"), ' of thread "orders"'), (("pool", "pool"), "")):
            dump = Threads()
            dump.of_class(20, "shop/Context", fields=["list"])
            dump.of_class(21, "java/util/ArrayList")
            for number, name in enumerate(names):
                dump.having(1 + number, name, [(310 + number, LOCAL)])
                dump.instance(310 + number, 20, 300 + number)
                dump.instance(300 + number, 21)
            local = f"the thread-local static shop/Queues.LOCAL{wanted}"
            self.assertEqual(self.names(dump, 300, others=[301]), [[local]])

    def test_one_text(self) -> None:
        """The only text of an object names it, whatever its field is called; of several, the likely ones, at most
        two."""
        dump = Queues([])
        dump.of_class(20, "shop/Order", fields=["code", "next"])
        dump.of_class(21, "shop/Customer", fields=["code", "id", "note"])
        dump.of_class(22, "shop/Other", fields=["code", "note"])
        dump.of_class(23, "shop/Person", fields=["id", "name"])
        dump.of_class(24, "shop/Route", fields=["scheme", "host"])
        dump.string(60_000, "a")
        dump.string(60_001, "b")
        dump.instance(300, 20, 60_000, 301)
        dump.instance(301, 21, 60_000, 60_001, 60_000)
        dump.instance(302, 22, 60_000, 60_001)
        dump.instance(303, 23, 60_000, 60_001)
        dump.instance(304, 24, 60_000, 60_001)
        names = ['its field name "b"', 'its field id "a"']
        wanted = [['its field code "a"'], ['its field id "b"'], [], names, ['its field host "b"']]
        self.assertEqual(self.names(dump, 300, 301, 302, 303, 304), wanted)

    def test_shown(self) -> None:
        """Texts are shown in one line, at most 60 characters long."""
        self.assertEqual(shown_text('a"b\n'), r'"a\x22b\x0a"')
        self.assertEqual(shown_text("x" * 60), f'"{"x" * 60}"')
        self.assertEqual(shown_text("x" * 61), f'"{"x" * 58}.."')


if __name__ == "__main__":
    unittest.main()
