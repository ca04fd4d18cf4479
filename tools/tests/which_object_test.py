"""Tests which objects of many are said to hold most of what a field holds, or to have gained most of what it gained."""

import fnmatch
import json
import pathlib
import random
import unittest
from typing import Dict, List, Optional, Sequence, Tuple

from heap_tools.candidates import FEW
from heap_tools.heap_objects import HeapObjects
from heap_tools.map_entries import LONGEST_CHAIN
from heap_tools.object_parts import FieldUses
from heap_tools.object_shares import OF_ONE
from heap_tools.probe import Probe
from heap_tools.reports import Amount
from heap_tools.which_object import (
    OF_ALL,
    HoldingObject,
    PartsOfField,
    hidden,
    object_leading_to,
    objects_with_most,
    sentence,
    tell_apart,
)
from tests.support.dump_writer import BYTE, OBJECT, DumpWriter, word
from tests.support.marked import RETAINED, growth_of, held_by, probe_of
from tests.support.queues import Chains, Folders, Queues
from tests.support.random_heaps import random_pair
from tests.support.thread_locals import Threads, buffers
from tests.support.tool_test import ToolTest

CONTENT = "shop/Queue.content"


def said(field: str, found: Sequence[HoldingObject]) -> str:
    """Returns what is said of the objects, empty if there are none."""
    return sentence(field, found) if found else ""


def with_class(dump: Queues, number: int, of_class: int) -> Queues:
    """Gives the queue `number` the class `of_class`, and returns the dump."""
    head = b"\x21" + dump.form.spell([number]) + bytes(4)
    dump.heap = dump.heap.replace(head + dump.form.spell([4]), head + dump.form.spell([of_class]))
    return dump


def with_others(dump: Threads, count: int, size: int) -> Threads:
    """Writes `count` more buffers of `size` bytes, which a static field has, and returns the dump."""
    dump.of_class(21, "[Lshop/Buffer;")
    dump.of_class(22, "shop/Buffers", {"ALL": 5000})
    dump.array(5000, 21, *range(5100, 5100 + count))
    for number in range(count):
        dump.instance(5100 + number, 20, 5300 + number)
        dump.values(5300 + number, BYTE, bytes(size))
    dump.root(22)
    return dump


class HoldsTest(unittest.TestCase):
    """A search in one dump."""

    def holding(self, dump: DumpWriter, field: str = CONTENT) -> List[HoldingObject]:
        """Returns the objects that hold most of what the field holds."""
        probe = probe_of(dump)
        return objects_with_most(probe, held_by(probe, field))

    def test_one(self) -> None:
        """One of many is found by its size, and is named by its text."""
        for id_size in (4, 8):
            dump = Queues([5] * 300 + [90_000] + [5] * 200, id_size)
            (found,) = self.holding(dump)
            self.assertEqual((found.class_name, found.named_by), ("shop/Queue", 'its field name "queue 300"'))
            self.assertEqual((found.amount, round(found.percent), found.of), ((1, 90_000), 97, 501))

    def test_few(self) -> None:
        """Several that hold much are found, the heaviest first."""
        found = self.holding(Queues([3] * 20 + [1000, 3, 9000, 3, 7000]))
        self.assertEqual([each.amount.bytes for each in found], [9000, 7000])
        names = ['its field name "queue 22"', 'its field name "queue 24"']
        self.assertEqual([each.named_by for each in found], names)

    def test_sharing(self) -> None:
        """What two hold only together names neither of them."""
        found = self.holding(Queues([60, 9_000, 4_000, 0, 10], sharing=[2, 3]))
        self.assertEqual([each.amount.bytes for each in found], [9_000])
        self.assertEqual(self.holding(Queues([60, 900, 9_000, 0, 10], sharing=[2, 3])), [])

    def test_most(self) -> None:
        """Those that are named hold at least half of what all do."""
        for size, wanted in ((6_000, []), (7_100, [7_100])):
            found = self.holding(Queues([100] * 35 + [size] + [100] * 35))
            self.assertEqual([each.amount.bytes for each in found], wanted)

    def test_spread(self) -> None:
        """Where many hold a little each, none is named."""
        self.assertEqual(self.holding(Queues([100] * 64)), [])

    def test_one_run(self) -> None:
        """What each of many holds is one run, and exact: of the field's objects in the heap or in the class asked."""
        sizes = [100 + number for number in range(400)]
        probe = probe_of(Queues(sizes))
        held, runs = held_by(probe, CONTENT), RETAINED.runs
        parts = PartsOfField(probe, held)
        self.assertEqual([parts.shares.amount(each).bytes for each in parts.parts.values[::40]], sizes[::40])
        self.assertEqual([each.amount.bytes for each in parts.shares.heaviest(Amount(1, 400 * 5))], sizes[:-33:-1])
        self.assertAlmostEqual(parts.shares.most(Amount(1, 998)), 50)
        self.assertEqual(RETAINED.runs, runs + 1)

    def test_others(self) -> None:
        """The names of an object are compared with those of others, though these hold nothing."""
        dump = Queues([90, 0, 0])
        dump.of_class(20, "shop/Channel", {"ALL": 730}, fields=["name", "buffer"])
        dump.of_class(21, "shop/Buffer", fields=["entry"])
        dump.of_class(22, "[Lshop/Channel;")
        dump.array(730, 22, 700, 701)
        for number, entry in enumerate((720, 721)):
            dump.instance(700 + number, 20, 20_000, 710 + number)
            dump.instance(710 + number, 21, entry)
            dump.values(720 + number, BYTE, bytes(5_000 - 4_999 * number))
        dump.root(20)
        (found,) = self.holding(dump, "shop/Buffer.entry")
        self.assertEqual((found.class_name, found.names), ("shop/Buffer", []))

    def test_no_question(self) -> None:
        """One instance is no question, and neither are several fields, a local variable or a thread."""
        probe = probe_of(Queues([100]))
        self.assertEqual(objects_with_most(probe, held_by(probe, CONTENT)), [])
        dump = Queues([100, 9_000])
        dump.thread(1, 1000, [(1, "run")])
        dump.local(1, 0, 1001)
        probe = probe_of(dump)
        both = [held_by(probe, name).candidates[0] for name in (CONTENT, "shop/Queue.name")]
        for group in (both, probe.candidates.locals(), probe.candidates.threads()):
            self.assertEqual(objects_with_most(probe, probe.retained(group)), [])

    def test_one_value(self) -> None:
        """If only one of several instances has a value in the field, it is named, by what the others do not have."""
        dump = Queues([7] * 5)
        dump.of_class(20, "shop/Channel", {"ALL": 600}, fields=["name", "host", "unsent"])
        dump.of_class(21, "[Lshop/Channel;")
        dump.array(600, 21, *range(601, 606))
        dump.string(620, "localhost")
        for number in range(601, 606):
            dump.string(number + 10, f"channel {number}")
            dump.instance(number, 20, number + 10, 620, 630 if number == 603 else 0)
        dump.values(630, BYTE, bytes(5_000))
        dump.root(20)
        probe = probe_of(dump)
        held = held_by(probe, "shop/Channel.unsent")
        words = said("shop/Channel.unsent", objects_with_most(probe, held))
        wanted = '1 of 5 shop/Channel.unsent holds most: shop/Channel (its field name "channel 603"): 100%'
        self.assertEqual(words, wanted)

    def test_elements(self) -> None:
        """Of a list that one static field or one instance has, the elements are looked at: also of a list's array."""
        wanted = 'holds most: shop/Queue (its field name "queue 2"): 9*%'
        sizes = [7, 8, 9_000, 6, 7, 9]
        for id_size in (4, 8):
            in_list = Queues(sizes, id_size, every=500)
            in_list.of_class(20, "java/util/ArrayList", fields=["elementData", "other"])
            in_list.of_class(21, "shop/Shop", fields=["queues"])
            in_list.instance(500, 21, 501)
            in_list.instance(501, 20, 200, 210)
            for dump, field in ((in_list, "shop/Shop.queues"), (Queues(sizes, id_size), "shop/Queues.ALL")):
                words = said(field, self.holding(dump, field))
                self.assertTrue(fnmatch.fnmatchcase(words, f"1 of 6 elements of {field} {wanted}"), words)

    def test_held_elsewhere(self) -> None:
        """Of a list whose elements something else leads to, too, it is asked only what they hold together."""
        dump = Queues([5] * 300 + [90_000] + [5] * 200)
        dump.of_class(20, "shop/Other", {"ALL": 700})
        dump.array(700, 2, *range(1000, 1501))
        dump.root(20)
        probe = probe_of(dump)
        held = held_by(probe, "shop/Queues.ALL")
        runs = RETAINED.runs
        self.assertEqual(objects_with_most(probe, held._replace(amount=Amount(1, 90_000))), [])
        self.assertEqual(RETAINED.runs, runs + 1)

    def test_map(self) -> None:
        """The elements of a map are what it has under its keys, wherever in a chain and whatever else leads to the
        entries; those of a set are its keys."""
        names = ["java/util/HashMap$Node", "java/util/concurrent/ConcurrentHashMap$Node"]
        for name, linked in (*((each, False) for each in names), (names[0], True)):
            for heavy in range(5):
                dump = Chains([9_000 if number == heavy else 7 for number in range(5)], name, linked)
                words = said("shop/Shop.rooms", self.holding(dump, "shop/Shop.rooms"))
                named = f'byte[] (the map\'s key "room {heavy}"): 9'
                self.assertIn(f"1 of 5 elements of shop/Shop.rooms holds most: {named}", words, (name, linked))
        in_set = Chains([5, 6, 9_000, 8, 7], names[0], is_set=True)
        words = said("shop/Shop.rooms", self.holding(in_set, "shop/Shop.rooms"))
        self.assertIn('1 of 5 elements of shop/Shop.rooms holds most: shop/Room (its field name "room 2"): 9', words)

    def test_long_chain(self) -> None:
        """If a chain is long, its first entry stands for all of it."""
        for count, of in ((LONGEST_CHAIN, LONGEST_CHAIN + 1), (LONGEST_CHAIN + 1, 2)):
            dump = Chains([5] * (count - 1) + [9_000], "java/util/HashMap$Node", chains=1, alone=1)
            (found,) = self.holding(dump, "shop/Shop.rooms")
            self.assertEqual(found.of, of)

    def test_tell_apart(self) -> None:
        """Equal parts that no name tells apart say nothing, though others hold little; with names they do."""
        cases: List[Tuple[List[int], List[Optional[str]], bool]]
        cases = [
            ([5_000] * 4, [None] * 4, False),
            ([5_000] * 4 + [9], [None] * 5, False),
            ([5_000] * 4 + [9], [*"abcde"], True),
            ([21_000, 8_000, 8_000, 9], [None] * 4, True),
            ([19_000, 10_000, 10_000, 9], [None] * 4, False),
            ([5_000] * 4, [*"abcd"], True),
        ]
        for sizes, names, wanted in cases:
            found = self.holding(Queues(sizes, names=names))
            self.assertEqual(tell_apart(found), wanted, sizes)
            self.assertGreater(len(found), 2)
        self.assertFalse(tell_apart([]))

    def test_among(self) -> None:
        """It is said if not all instances that a line counts have a value, or if more have one than are reachable."""
        one = HoldingObject("shop/Queue", [], Amount(1, 9), 90.0)
        for of, instances, is_element, wanted in (
            (8, 8, False, "1 of 8 shop/Queue.list holds most: shop/Queue: 90%"),
            (8, 16, False, "1 of 8 shop/Queue.list with a value holds most: shop/Queue: 90%"),
            (9, 8, False, "1 of 9 shop/Queue.list in the dump, reachable or not, holds most: shop/Queue: 90%"),
            (8, 16, True, "1 of 8 elements of shop/Queue.list holds most: shop/Queue: 90%"),
        ):
            found = one._replace(of=of, instances=instances, is_element=is_element)
            self.assertEqual(sentence("shop/Queue.list", [found]), wanted)
        for content, is_reachable, wanted_of in ((0, True, (3, 4)), (40_000, False, (4, 3)), (40_000, True, (4, 4))):
            dump = Queues([9_000, 5, 6])
            dump.instance(9_000, 4, word(0), 0, content)
            dump.root(*[9_000] * is_reachable)
            (found,) = self.holding(dump)
            self.assertEqual((found.of, found.instances), wanted_of)

    def test_equal_elements(self) -> None:
        """Of a list of equal elements none is named."""
        self.assertEqual(self.holding(Queues([50] * 300), "shop/Queues.ALL"), [])

    def test_fields_of_one_name(self) -> None:
        """A number that is called as the field is left as it is: its bytes are not those of a reference."""
        for id_size in (4, 8):
            dump = DumpWriter(id_size)
            dump.loaded(1, "a/A")
            fields = [(dump.text("a"), BYTE), (dump.text("a"), OBJECT)]
            dump.heap += dump.form.named_class_dump(1, (0, 0), [], fields)
            dump.of_class(2, "[La/A;")
            dump.of_class(3, "a/B", {"ALL": 200})
            dump.array(200, 2, 300, 301, 302)
            for number, size in ((300, 7), (301, 9_000), (302, 8)):
                dump.instance(number, 1, b"\7", number + 100)
                dump.values(number + 100, BYTE, bytes(size))
            dump.root(3)
            probe = probe_of(dump)
            held = held_by(probe, "a/A.a")
            values = FieldUses(HeapObjects(probe.runs.dump)).of(held.candidates[0]).values
            self.assertEqual([probe.runs.dump.id(each.value) for each in values], [400, 401, 402])
            (found,) = objects_with_most(probe, held)
            self.assertEqual(found.amount.bytes, 9_000)

    def test_nested(self) -> None:
        """Of objects that lead to one another by the same field the one is named that holds most by itself: a folder in
        a folder, but no node of a chain, though its first node holds all of it."""
        for id_size in (4, 8):
            (found,) = self.holding(Folders([1, 2, 3, 4], [0, 0, 0, 9_000, 20], id_size), "disk/Folder.folders")
            self.assertEqual((found.named_by, found.percent > 97), ('its field name "folder 3"', True))
            chain = Folders(list(range(1, 40)), [50] * 40, id_size)
            self.assertEqual(self.holding(chain, "disk/Folder.folders"), [])

    def test_threads_alike(self) -> None:
        """If no object holds much, but threads have most of them by one thread-local, its static field names all of
        these; in bytes, in words and one by one. Of objects that hold little it does not, and neither does it if no
        static field has the thread-local."""
        field, local = "shop/Buffer.content", "the thread-local static shop/Queues.LOCAL"
        found = self.holding(buffers([900, 910, 920, 930, 940, 950]), field)
        self.assertEqual([each.amount.bytes for each in found], [950, 940, 930, 920, 910, 900])
        self.assertEqual({each.named_by for each in found}, {local})
        self.assertTrue(tell_apart(found))
        words = f"6 of 6 {field} hold most: 6 shop/Buffer ({local}): 100%"
        self.assertEqual(said(field, found), words)
        self.assertEqual(said(field, hidden(found, False)), words.replace(" static shop/Queues.LOCAL", ""))
        for others, wanted in ((40, 6), (60, 0)):
            dump = with_others(buffers([900] * 6), others, 100)
            self.assertEqual(len(self.holding(dump, field)), wanted)

    def test_leading(self) -> None:
        """The one of several objects that leads straight to an object is named, with all that it holds; it is no
        question if several do, none, or if there is only one."""
        dump = Queues([7, 9_000, 8], sharing=[0, 2])
        probe = probe_of(dump)
        held = held_by(probe, CONTENT)
        places = HeapObjects(probe.runs.dump).places_of([200, 30_000, 30_001])
        found = object_leading_to(probe, held, places[30_001])
        assert found
        self.assertEqual(str(found), 'shop/Queue (its field name "queue 1"): 100%')
        self.assertEqual((found.amount, found.of), (Amount(1, 9_000), 3))
        for number in (200, 30_000):
            self.assertIsNone(object_leading_to(probe, held, places[number]))
        only = probe_of(Queues([9_000]))
        at = HeapObjects(only.runs.dump).places_of([30_000])[30_000]
        self.assertIsNone(object_leading_to(only, held_by(only, CONTENT), at))


class GrewTest(unittest.TestCase):
    """Which objects gained most of what a field gained between two dumps."""

    def grown(self, before: DumpWriter, after: DumpWriter, field: str = CONTENT) -> List[HoldingObject]:
        """Returns the objects that gained most of what the field gained."""
        probe = growth_of(before, after)
        return objects_with_most(probe, held_by(probe, field))

    def expect(self, before: DumpWriter, after: DumpWriter, wanted: str, field: str = CONTENT) -> None:
        """Compares what is said of the objects that grew with a pattern."""
        words = said(field, self.grown(before, after, field))
        self.assertTrue(fnmatch.fnmatchcase(words, wanted), f"{words!r} is not {wanted!r}")

    def test_gained(self) -> None:
        """Of several the one that grew, not those that hold more; its name shows which it was before, wherever."""
        wanted = '1 of 4 shop/Queue.content gained most: shop/Queue (its field name "queue 1"): 100%'
        before, after = [9000, 100, 8000, 10], [9000, 3100, 8000, 10]
        for first in (1000, 1001, 1003, 3000):
            for id_size in (4, 8):
                self.expect(Queues(before, id_size), Queues(after, id_size, first=first), wanted)

    def test_holds(self) -> None:
        """What is larger now than all were before has grown: the earlier dump is not asked."""
        probe = growth_of(Queues([90, 100, 80, 10]), Queues([90, 9000, 80, 10]))
        held = held_by(probe, CONTENT)
        probe.earlier.retained(held.candidates)
        known = probe.earlier.runs.heapmark.runs
        words = said(CONTENT, objects_with_most(probe, held))
        self.assertEqual(words, '1 of 4 shop/Queue.content holds most: shop/Queue (its field name "queue 1"): 98%')
        self.assertEqual(probe.earlier.runs.heapmark.runs, known)

    def test_spread(self) -> None:
        """If many gained a little each, none is named, though one holds most."""
        self.assertEqual(self.grown(Queues([9000] + [100] * 40), Queues([9000] + [200] * 40)), [])

    def test_new_name(self) -> None:
        """What has another name than before, such as a cache that is named by its eldest key, has not gained all that
        it holds: it is not known to have grown."""
        for name in ("page-1", None):
            before = Queues([9000, 9300, 10], names=[name, "a", "b"])
            for later in ("page-2", None):
                for first in (1000, 2000):
                    after = Queues([9100, 9300, 10], names=[later, "a", "b"], first=first)
                    self.assertEqual(self.grown(before, after), [], (name, later))

    def test_came(self) -> None:
        """An object that came among many, none of which held as much before, gained what it holds: that is said of what
        all hold now."""
        for name in ("new", None):
            named = f' (its field name "{name}")' if name else ""
            after = Queues([200] * 50 + [5000], names=[f"queue {number}" for number in range(50)] + [name], first=2000)
            self.expect(Queues([200] * 50), after, f"1 of 51 shop/Queue.content holds: shop/Queue{named}: 33%")

    def test_small_before(self) -> None:
        """What an object held before counts, also if that was less than a fifth of what was gained."""
        names = ["left", "right", "old"]
        before, after = Queues([150, 150, 900], names=names), Queues([900, 600, 900], names=names, first=3000)
        by_name = {each.named_by[-6:-1].strip('"'): each for each in self.grown(before, after)}
        shares = sorted((each.percent, each.has_gained) for each in by_name.values())
        self.assertEqual(shares, [(37.5, True), (62.5, True)])

    def test_shrunk(self) -> None:
        """If others shrank, those that grew gained more than the field did: then it is said what they hold."""
        names = ["a", "b", "c"]
        found = self.grown(Queues([100, 100, 2000], names=names), Queues([1600, 1500, 100], names=names))
        self.assertEqual([(each.has_gained, each.percent) for each in found], [(False, 50.0), (False, 46.875)])

    def test_two_of_a_name(self) -> None:
        """A name that two objects have, in either dump, does not show which one it was, and neither does an identifier,
        since objects move."""
        names = ["a", "b", "b"], ["a", "b", "c"]
        for before, after in (names, names[::-1]):
            for first in (1000, 3000):
                known, later = Queues([9000, 100, 10], names=before), Queues([9000, 4000, 10], names=after, first=first)
                self.assertEqual([each.has_gained for each in self.grown(known, later)], [])

    def test_owner(self) -> None:
        """An object without a name is the same one if its class and the name of its owner are, wherever it is."""
        for first, owner, of_class, wanted in (
            (1000, "eu", 4, [True]),
            (1001, "eu", 4, [True]),
            (1000, "us", 4, []),
            (1000, "eu", 21, []),
        ):
            before = self.owned([9000, 100, 10], 1000, "eu", 4)
            after = self.owned([9000, 4000, 10], first, owner, of_class)
            found = [each.has_gained for each in self.grown(before, after)]
            self.assertEqual(found, wanted, (first, owner, of_class))

    def owned(self, sizes: Sequence[int], first: int, owner: str, of_class: int) -> Queues:
        """Returns queues without names, of which the second, of the class `of_class`, is that of a shop with a name.
        The class 21 inherits from that of queues."""
        dump = Queues(sizes, names=[None] * len(sizes), first=first)
        dump.of_class(20, "shop/Shop", fields=["name", "queue"])
        dump.of_class(21, "shop/LateQueue", superclass=4)
        dump.instance(500, 20, 501, first + 1)
        dump.string(501, owner)
        dump.root(500)
        return with_class(dump, first + 1, of_class)

    def test_many_owners(self) -> None:
        """Of many objects without names it is the same one only if its identifier is the same, too."""
        for first, wanted in (1000, [True]), (3000, []):
            others = [10] * (FEW + 1)
            before, after = self.owned([9000, 100, *others], 1000, "eu", 4), self.owned(
                [9000, 4000, *others], first, "eu", 4
            )
            self.assertEqual([each.has_gained for each in self.grown(before, after)], wanted, first)

    def test_numbers(self) -> None:
        """An element without a name is the same one if it is of the same class, and its number in a list of as many
        elements is the same."""
        before, field = [9000, 100, 10], "shop/Queues.ALL"
        for sizes, of_class, wanted in (
            ([9000, 4000, 10], 4, [True]),
            ([9000, 4000, 10], 21, []),
            ([9000, 4000, 10, 10], 4, []),
        ):
            after = Queues(sizes, names=[None] * len(sizes), first=3000)
            after.of_class(21, "shop/LateQueue", superclass=4)
            found = self.grown(Queues(before, names=[None] * 3), with_class(after, 3001, of_class), field)
            self.assertEqual([each.has_gained for each in found], wanted, (sizes, of_class))

    def test_class(self) -> None:
        """An object with a name that one of another class had before is not that one."""
        for of_class, wanted in ((4, [True]), (21, [])):
            after = Queues([9000, 4000, 10])
            after.of_class(21, "shop/LateQueue", superclass=4)
            found = self.grown(Queues([9000, 100, 10]), with_class(after, 1001, of_class))
            self.assertEqual([each.has_gained for each in found], wanted, of_class)

    def test_elements(self) -> None:
        """Elements of a list that grew are measured in both dumps, too."""
        wanted = '1 of 3 elements of {0} gained most: shop/Queue (its field name "queue 1"): 100%'
        field = "shop/Queues.ALL"
        self.expect(Queues([5000, 100, 7]), Queues([5000, 3100, 7], first=3000), wanted.format(field), field)

    def test_threads_alike(self) -> None:
        """Objects that threads have by one thread-local gained most together, if what these held before does not leave
        it open."""
        field, local = "shop/Buffer.content", "the thread-local static shop/Queues.LOCAL"
        before, after = buffers([100] * 5), buffers([1100] * 6)
        self.expect(before, after, f"6 of 6 {field} hold most: 6 shop/Buffer ({local}): 100%", field)
        dumps = [with_others(buffers([1000] * 6), 40, size) for size in (10, 110)]
        self.assertEqual(said(field, self.grown(dumps[0], dumps[1], field)), "")

    def test_no_growth(self) -> None:
        """Of a field that gained nothing no object grew."""
        self.assertEqual(self.grown(Queues([100, 200, 900]), Queues([900, 100, 200])), [])

    def test_hidden(self) -> None:
        """Without values no text of the dump is among the names, only what has it."""
        found = self.grown(Queues([90, 100, 80, 10]), Queues([90, 9000, 80, 10]))
        self.assertEqual([each.named_by for each in hidden(found, False)], ["its field name"])
        self.assertEqual(hidden(found, True), found)


def shown_as(kind: str, name: str) -> Optional[str]:
    """Returns the name that a queue of a kind has in a dump: none if it is nameless, that of others if it is a twin."""
    return {"nameless": None, "twin": "twin"}.get(kind, name)


class RandomTest(unittest.TestCase):
    """Pairs of dumps that are made at random."""

    def test_named(self) -> None:
        """What is said of queues that grew, shrank, came, went and moved is so: each gained a fifth or more of what all
        gained, a gain that is said is the true one, and shares are of no more than there is. A queue that can be told
        apart and gained most is found."""
        count = 0
        for seed in range(150):
            chance = random.Random(seed)
            before, after = queue_sizes(chance), queue_sizes(chance)
            kinds = {name: chance.choice(["", "", "nameless", "twin"]) for name in sorted({*before, *after})}
            writers = []
            for sizes in (before, after):
                names = [shown_as(kinds[name], name) for name in sizes]
                first = chance.choice([1000, 1001, 2000])
                writers.append(Queues(list(sizes.values()), names=names, first=first))
            probe = growth_of(writers[0], writers[1])
            held = held_by(probe, CONTENT)
            gain = probe.gain(held.candidates).bytes
            found = objects_with_most(probe, held)
            percent = {name: 100 * (size - before.get(name, 0)) / max(1, gain) for name, size in after.items()}
            by_size = {size: name for name, size in after.items()}
            with self.subTest(seed=seed):
                self.assertLessEqual(sum(each.percent for each in found), 100.001)
                for each in found:
                    name = by_size[each.amount.bytes]
                    self.assertTrue(percent[name] >= OF_ONE or kinds[name] == "twin", name)
                    self.assertTrue(percent[name] >= each.of_gain - 0.001 or kinds[name] == "twin", name)
                    if each.has_gained:
                        called = shown_as(kinds[name], name)
                        (was,) = (size for other, size in before.items() if shown_as(kinds[other], other) == called)
                        self.assertAlmostEqual(each.percent, 100 * (each.amount.bytes - was) / gain)
                        self.assertNotEqual(kinds[name], "nameless")
                    else:
                        self.assertAlmostEqual(each.percent, 100 * each.amount.bytes / held.amount.bytes)
                told = {name for name in after if name in before and not kinds[name] and percent[name] > OF_ALL}
                if gain > 0:
                    self.assertLessEqual(told, {by_size[each.amount.bytes] for each in found})
                count += bool(found)
        self.assertGreater(count, 40)

    def test_disjoint(self) -> None:
        """Objects of random heaps that are named hold what is said, and nothing that another of them holds."""
        count = 0
        for seed in range(25):
            probe = growth_of(*random_pair(seed))
            for field in [*probe.candidates.statics(), *probe.candidates.fields(probe.base)]:
                held = probe.retained([field])
                if held.amount.bytes <= 0:
                    continue
                for asked in (Probe(probe.side, None, probe.unit), probe):
                    found = objects_with_most(asked, held)
                    with self.subTest(seed=seed, field=str(field)):
                        self.assertLessEqual(sum(each.percent for each in found), 100.001)
                        self.assertLessEqual(sum(each.amount.bytes for each in found), held.amount.bytes)
                    count += len(found) > 1
        self.assertGreater(count, 4)


def queue_sizes(chance: random.Random) -> Dict[str, int]:
    """Returns the sizes of some of ten queues, by their names, no two of them alike, some of them large."""
    names = chance.sample([f"queue {number}" for number in range(10)], chance.randrange(2, 10))
    return {
        name: chance.choice([20, 20, 20, 500, 2000]) + 10 * number + chance.randrange(10)
        for number, name in enumerate(names)
    }


class LeaksTest(ToolTest):
    """What leaks prints of objects."""

    tool = "leaks"

    def test_printed(self) -> None:
        """The line says which line is meant, and with --no-values no text of the dump."""
        Queues([9000, 100, 8000, 10]).write("before")
        Queues([9000, 3100, 8000, 10]).write("after")
        line = "leaks: line *: 1 of 4 shop/Queue.content gained most: shop/Queue (its field name"
        runs: List[Tuple[List[str], str]] = [([], f'{line} "queue 1"): 100%'), (["--no-values"], f"{line}): 100%")]
        for words, wanted in runs:
            said = self.ran("before", "after", *words).said
            self.assertTrue(any(fnmatch.fnmatchcase(each, wanted) for each in said.splitlines()), said)

    def test_thread(self) -> None:
        """What a thread has by a thread-local is named by the thread, wherever it was before, also with --no-values: in
        messages, in the document and on the page."""
        buffers([9000, 100, 8000, 10]).write("before")
        buffers([9000, 3100, 8000, 10], first=3000).write("after")
        local = "the thread-local static shop/Queues.LOCAL of thread"
        line = f'1 of 4 shop/Buffer.content gained most: shop/Buffer ({local} "worker 1"): 100%\n'
        runs: List[List[str]] = [[], ["--no-values"]]
        for words in runs:
            ended = self.ran("--html", "page.html", "--json", "before", "after", *words)
            self.assertIn(line, ended.said)
            (found,) = json.loads(ended.out)["lines"][0]["objects"]["objects"]
            self.assertEqual(found["names"], [{"how": local, "text": '"worker 1"'}])
            self.assertIn("worker 1", pathlib.Path("page.html").read_text(encoding="utf-8"))


if __name__ == "__main__":
    unittest.main()
