"""Tests what one object holds by several of its fields, below a field that leads to no container."""

import unittest
from typing import List, Sequence

from heap_tools.fields_of_object import PartsOfObjects, leads_to_container, object_with_most, parts_of_objects
from heap_tools.heap_objects import HeapObjects
from heap_tools.leak_answer import answer_of
from heap_tools.leak_options import Bounds
from heap_tools.candidates import FEW
from heap_tools.object_parts import FieldUses
from tests.support.dump_writer import BYTE, DumpWriter, word
from tests.support.marked import growth_of, held_by, probe_of


POOL, LIST = (f"static shop/Service.{name}" for name in ("POOL", "LIST"))
TOGETHER = "together shop/Part.parts, shop/Client.hosts"


class Clients(DumpWriter):
    """Clients of `hosts[n]` hosts. A client has them in a list of its own, and in that which it inherits from `Part`,
    as a host does; `names` are those of both classes. A host has 100 bytes. Of the static fields, `POOL` leads to the
    pool, which has the first client and the last one in its fields, or, if `is_listed`, `LIST` to the list of all."""

    def __init__(
        self,
        hosts: Sequence[int],
        id_size: int = 8,
        is_listed: bool = False,
        names: Sequence[str] = ("shop/Part", "shop/Client"),
    ) -> None:
        super().__init__(id_size)
        every = range(1000, 1000 + len(hosts))
        self.of_class(1, "shop/Service", {"POOL": 0 if is_listed else 100, "LIST": 101 * is_listed}, fields=[])
        self.of_class(2, names[0], fields=["parts"])
        self.of_class(3, names[1], fields=["hosts"], superclass=2)
        self.of_class(4, "shop/Host", fields=["content"], superclass=2)
        self.of_class(5, "java/util/ArrayList", fields=["size", "elementData"])
        self.of_class(6, "[Ljava/lang/Object;")
        self.of_class(7, "shop/Pool", fields=["first", "second"])
        self.instance(100, 7, *((every[0], every[-1]) if hosts else (0, 0)))
        self.list(101, every)
        for client, count in zip(every, hosts):
            of_client = range(10_000 * (client - 999), 10_000 * (client - 999) + count)
            self.instance(client, 3, client + 2_000_000, client + 3_000_000)
            self.list(client + 2_000_000, of_client)
            self.list(client + 3_000_000, of_client)
            for host in of_client:
                self.instance(host, 4, host + 4_000_000, host + 6_000_000)
                self.values(host + 4_000_000, BYTE, bytes(100))
                self.list(host + 6_000_000, ())
        self.root(1)

    def list(self, number: int, elements: Sequence[int]) -> None:
        """Writes a list."""
        self.instance(number, 5, word(len(elements)), number + 10_000_000)
        self.array(number + 10_000_000, 6, *elements)


def several_stores(count: int, number_of: int) -> DumpWriter:
    """Returns a dump of a list of so many stores, each of which has so many packs in two arrays, by a field of its own
    and one that it inherits."""
    dump = DumpWriter(time=60_000 * count)
    dump.of_class(1, "shop/Service", {"LIST": 99})
    dump.of_class(2, "shop/Base", fields=["listed"])
    dump.of_class(3, "shop/Store", fields=["stored"], superclass=2)
    dump.of_class(4, "[Lshop/Pack;")
    dump.of_class(5, "shop/Pack", fields=["content"])
    dump.array(99, 4, *range(100, 100 + number_of))
    for store in range(number_of):
        packs = range(10_000 * (store + 1), 10_000 * (store + 1) + count)
        dump.instance(100 + store, 3, 500 + store, 600 + store)
        for number in (500 + store, 600 + store):
            dump.array(number, 4, *packs)
        for pack in packs:
            dump.instance(pack, 5, pack + 5_000)
            dump.values(pack + 5_000, BYTE, bytes(100))
    dump.root(1)
    return dump


def stores(count: int, is_shared: bool) -> DumpWriter:
    """Returns a dump of a store with so many packs in two lists, by a field of its own and one that it inherits, or in
    one list, to which both lead."""
    dump = DumpWriter(time=60_000 * count)
    dump.of_class(1, "shop/Service", {"POOL": 100})
    dump.of_class(2, "shop/Base", fields=["listed"])
    dump.of_class(3, "shop/Store", fields=["stored"], superclass=2)
    dump.of_class(4, "[Lshop/Pack;")
    dump.of_class(5, "shop/Pack", fields=["content"])
    packs = range(1000, 1000 + count)
    dump.instance(100, 3, 101, 101 if is_shared else 102)
    dump.of_class(6, "java/util/ArrayList", fields=["size", "elementData"])
    for number in (101, 102):
        dump.instance(number, 6, word(count), number + 100)
        dump.array(number + 100, 4, *packs)
    for pack in packs:
        dump.instance(pack, 5, pack + 10_000)
        dump.values(pack + 10_000, BYTE, bytes(100))
    dump.root(1)
    return dump


def database(count: int) -> DumpWriter:
    """Returns a dump of a database to which two static fields lead. It has so many temporary tables, which its store
    and its session have both, and in three other fields so many small things of one kind each."""
    dump = DumpWriter(time=60_000 * count)
    dump.of_class(1, "shop/Closing", {"CLOSED": 100})
    dump.of_class(2, "shop/Engine", {"DATABASES": 101})
    dump.of_class(3, "shop/Database", fields=["store", "session", "maps", "logs", "pages"])
    dump.of_class(4, "shop/Store", fields=["tables"])
    dump.of_class(5, "shop/Session", fields=["temporary"])
    dump.of_class(6, "[Ljava/lang/Object;")
    tables, *others = (range(start, start + count) for start in (10_000, 20_000, 30_000, 40_000))
    dump.array(100, 6, 110)
    dump.array(101, 6, 110)
    dump.instance(110, 3, 111, 112, 115, 116, 117)
    dump.instance(111, 4, 113)
    dump.instance(112, 5, 114)
    for number, elements in zip(range(113, 118), [tables, tables, *others]):
        dump.array(number, 6, *elements)
        for each in elements if number > 113 else ():
            dump.values(each, BYTE, bytes(200 if elements is tables else 8))
    for number in (1, 2):
        dump.root(number)
    return dump


class BelowTest(unittest.TestCase):
    """What is found below the answer."""

    def paths(self, before: DumpWriter, after: DumpWriter) -> List[str]:
        """Returns the paths of the lines about what grew."""
        answer = answer_of(growth_of(before, after), Bounds(shows_all=True, top=8))
        return [line.path() for line in answer.lines]

    def test_one_object(self) -> None:
        """The fields of the one client are the answer, though one of them is that of all hosts, too."""
        for id_size in (4, 8):
            paths = self.paths(Clients([70], id_size), Clients([300], id_size))
            self.assertEqual(paths[:2], [f"{POOL} > {TOGETHER}", POOL])

    def test_two_lists(self) -> None:
        """Two lists with the same parts, of one object, by fields of two classes, are the answer; what two fields lead
        to themselves is not."""
        for is_shared, wanted in ((False, f"{POOL} > together shop/Base.listed, shop/Store.stored"), (True, POOL)):
            paths = self.paths(stores(70, is_shared), stores(300, is_shared))
            self.assertEqual(paths[0], wanted)

    def test_each_of_some(self) -> None:
        """Two lists of each of some objects are the answer; of many objects the container of these is."""
        both = "static shop/Service.LIST > together shop/Base.listed, shop/Store.stored"
        for number_of, wanted in ((3, both), (FEW + 1, "static shop/Service.LIST")):
            paths = self.paths(several_stores(7, number_of), several_stores(30, number_of))
            self.assertEqual(paths[0], wanted)

    def test_several_objects(self) -> None:
        """The fields of several clients are found, too, but do not say where it piles up."""
        paths = self.paths(*(Clients([count] * 3, is_listed=True) for count in (30, 90)))
        self.assertEqual((paths[0], [it for it in paths if it.endswith(f" > {TOGETHER}")]), (LIST, paths[2:3]))

    def test_many_ways(self) -> None:
        """If several classes lead to the client, so that no few hold the hosts, its fields are the answer, too; but not
        if something holds most."""
        for ways, wanted in ((4, TOGETHER), (0, f"{POOL} > {TOGETHER}")):
            dumps = [Clients([count]) for count in (70, 300)]
            for dump in dumps:
                for number, letter in enumerate("ABCD"[:ways], 20):
                    dump.of_class(number, f"shop/Way{letter}", {"CLIENT": 1000})
                    dump.root(number)
            self.assertEqual(self.paths(*dumps)[0], wanted)

    def test_below_several(self) -> None:
        """Below two static fields that lead to one object the fields are the answer that hold most of it together."""
        above = "together static shop/Closing.CLOSED, static shop/Engine.DATABASES"
        growth = growth_of(database(70), database(300))
        line = answer_of(growth, Bounds()).lines[0]
        self.assertEqual(line.path(), f"{above} > together shop/Session.temporary, shop/Store.tables")

    def test_too_little_below(self) -> None:
        """Fields below a line that gained enough only together, but less in all since what they held alone shrank, are
        no line."""
        both = []
        for is_later in (False, True):
            dump = DumpWriter(time=60_000 * (1 + is_later))
            dump.of_class(1, "[Ljava/lang/Object;")
            dump.of_class(2, "shop/Store", {"ONLY": 100}, fields=["first", "second", "third"])
            own, shared = range(1000, 1000 + (20, 80)[not is_later]), range(2000, 2000 + 40 * is_later)
            dump.instance(100, 2, 101, 102, 103)
            dump.array(101, 1, *own, *shared)
            dump.array(102, 1, *shared)
            dump.values(103, BYTE, bytes(90_000 * is_later))
            for each in (*own, *shared):
                dump.values(each, BYTE, bytes(1000))
            dump.root(2)
            both.append(dump)
        self.assertEqual(self.paths(*both), ["static shop/Store.ONLY > shop/Store.third", "static shop/Store.ONLY"])

    def test_collection(self) -> None:
        """The fields of a collection are not tried: that it holds what is in it says nothing."""
        paths = self.paths(*(Clients([count], names=("shop/PartList", "shop/ClientMap")) for count in (70, 300)))
        self.assertEqual((paths[0], [it for it in paths if "together" in it]), (POOL, []))

    def test_below_container(self) -> None:
        """Below a list of many clients nothing is asked for."""
        paths = self.paths(*(Clients([count] * (FEW + 1), is_listed=True) for count in (1, 9)))
        self.assertEqual((paths[0], [it for it in paths if "together" in it]), (LIST, []))

    def test_container(self) -> None:
        """What leads to more than a few elements or objects is a container of many things, as are several of which one
        does."""
        for count, is_large in (FEW, False), (FEW + 1, True):
            found = self.containers(Clients([1] * count, is_listed=True), "Service.LIST", "Host.content")
            self.assertEqual(found, [is_large] * 3)
        self.assertEqual(self.containers(Clients([1, 1]), "Service.POOL", "Pool.first"), [False] * 3)
        self.assertEqual(self.containers(Clients([FEW + 1]), "Service.POOL", "Client.hosts"), [False, True, True])

    def containers(self, dump: DumpWriter, *names: str) -> List[bool]:
        """Tests of fields and of all of them together whether they lead to containers."""
        probe = probe_of(dump)
        every = [held_by(probe, f"shop/{name}") for name in names]
        every.append(probe.retained([each for held in every for each in held.candidates]))
        return [leads_to_container(probe, held, FieldUses(HeapObjects(probe.runs.dump))) for held in every]


class PartTest(unittest.TestCase):
    """parts_of_objects"""

    def part(self, before: DumpWriter, after: DumpWriter) -> float:
        """Returns the part of what clients gained by both fields that one of them has."""
        return self.parts(before, after).of_one

    def parts(self, before: DumpWriter, after: DumpWriter) -> PartsOfObjects:
        """Returns the parts of what clients gained by both fields."""
        probe = growth_of(before, after)
        both = [each for name in ("Client.hosts", "Part.parts") for each in held_by(probe, f"shop/{name}").candidates]
        return parts_of_objects(probe, probe.retained(both))

    def test_part(self) -> None:
        """It is all of it if there is one client, which may have come; of several it is what the largest has more than
        any had."""
        self.assertEqual(self.part(Clients([70]), Clients([300])), 1.0)
        self.assertEqual(self.part(Clients([]), Clients([300])), 1.0)
        self.assertEqual(self.part(Clients([70, 1]), Clients([300, 1])), 1.0)
        self.assertEqual(self.part(Clients([70, 70]), Clients([185, 185])), 0.5)
        self.assertEqual(self.part(Clients([70, 1]), Clients([1, 300])), 1.0)
        self.assertEqual(self.part(Clients([0] * FEW), Clients([9] * (FEW + 1))), 0.0)
        self.assertEqual(self.part(Clients([300]), Clients([70])), 0.0)

    def test_of_each(self) -> None:
        """What all have that have both fields, each by its own: nothing of what two hold together."""
        for before, after, wanted in (
            (Clients([70] * 3), Clients([300] * 3), 1.0),
            (Clients([70]), Clients([300] * 3), 1.0),
            (Clients([0] * FEW), Clients([9] * (FEW + 1)), 0.0),
            (Clients([300] * 3), Clients([70] * 3), 0.0),
        ):
            self.assertEqual(self.parts(before, after).of_each, wanted)

    def test_object(self) -> None:
        """The object that has most by both fields, among how many, and its share; none if too many have them."""
        for counts, of in (([300], 1), ([100, 300], 2), ([9] * (FEW + 1), 0)):
            probe = probe_of(Clients(counts, is_listed=True))
            fields = [it for name in ("Client.hosts", "Part.parts") for it in held_by(probe, f"shop/{name}").candidates]
            found = object_with_most(probe, probe.retained(fields))
            self.assertEqual(found.of if found else 0, of)
            if found:
                share = 100 * 300 / sum(counts)
                self.assertEqual((found.class_name, round(found.percent / share, 1)), ("shop/Client", 1.0))


if __name__ == "__main__":
    unittest.main()
