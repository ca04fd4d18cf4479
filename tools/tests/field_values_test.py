"""Tests which instances are found to have a value in a field, and how many of them are looked at."""

import random
import unittest
from typing import Dict, List, Tuple
from unittest import mock

from heap_tools.field_values import FieldValues, values_by_field
from heap_tools.heap_dump import HeapDump
from heap_tools.heap_objects import HeapObjects
from heap_tools.object_places import FEWEST_SEGMENTS
from tests.support.dump_writer import DumpWriter
from tests.support.laid_out_heap import read

#: The classes of instances, with their fields: a mail is a message.
MESSAGE, MAIL, CHAT = 1, 2, 3
NAMES = ["shop/Message.text", "shop/Mail.cc", "shop/Chat.room"]


def dump_of(instances: List[Tuple[int, List[int]]], id_size: int = 8, in_a_segment: int = 10) -> HeapDump:
    """Returns a dump of instances, each given by its class and its references. Their identifiers begin with 1000."""
    dump = DumpWriter(id_size)
    dump.of_class(MESSAGE, "shop/Message", fields=["text"])
    dump.of_class(MAIL, "shop/Mail", fields=["cc"], superclass=MESSAGE)
    dump.of_class(CHAT, "shop/Chat", fields=["room"])
    for number, (of_class, values) in enumerate(instances):
        if number % in_a_segment == 0:
            dump.cut()
        dump.instance(1000 + number, of_class, *values)
    return read(dump)


def values(dump: HeapDump, names: List[str], most: int, most_null: int) -> Dict[str, FieldValues]:
    """Returns what instances have in fields."""
    return values_by_field(HeapObjects(dump), names, most, most_null)


class ValuesTest(unittest.TestCase):
    """values_by_field"""

    def test_values(self) -> None:
        """Of random instances the first values of each field are found, inherited fields too, and the first instances
        without one: in one process and in several."""
        for seed in range(12):
            chance = random.Random(seed)
            instances = [
                (of, [chance.choice([0, 7, 8]) for _ in range(2 if of == MAIL else 1)])
                for of in chance.choices([MESSAGE, MAIL, CHAT], k=300)
            ]
            dump = dump_of(instances, chance.choice([4, 8]), chance.choice([100, 300 // (3 * FEWEST_SEGMENTS) + 1]))
            with_text = [(1000 + number, each[-1]) for number, (of, each) in enumerate(instances) if of != CHAT]
            with_cc = [(1000 + number, each[0]) for number, (of, each) in enumerate(instances) if of == MAIL]
            with_room = [(1000 + number, each[0]) for number, (of, each) in enumerate(instances) if of == CHAT]
            for most in (1000, 20):
                found = values(dump, [*NAMES, "shop/Chat.missing"], most, 3)
                for name, wanted in zip(NAMES, (with_text, with_cc, with_room)):
                    pairs = [(dump.id(each.instance + 1), dump.id(each.value)) for each in found[name].values]
                    self.assertEqual(pairs, [each for each in wanted if each[1]][:most])
                    self.assertEqual((found[name].count, len(found[name].targets) > 1), (len(pairs), True))
                    if most == 1000:
                        nulls = [dump.id(at + 1) for at in found[name].nulls]
                        self.assertEqual(nulls, [key for key, value in wanted if not value][:3])
                self.assertEqual(found["shop/Chat.missing"].count, 0)

    def test_targets(self) -> None:
        """Whether all instances have one identifier in a field is known of all, also if there are more values."""
        for last, wanted in ((7, {7}), (8, {7, 8}), (0, {0, 7})):
            dump = dump_of([(CHAT, [7])] * 50 + [(CHAT, [last])])
            self.assertEqual(values(dump, NAMES[2:], 5, 3)[NAMES[2]].targets, wanted)

    def test_cost(self) -> None:
        """Once there are more values of a field, no more of it are read."""
        chats, mails = [(CHAT, [7 + number % 2]) for number in range(200)], [(MAIL, [7, number]) for number in range(9)]
        added = FieldValues.add
        for instances, names, calls in (
            (chats, NAMES[2:], 5),
            (chats + mails, NAMES[2:], 5),
            (chats + mails, NAMES[1:], 5 + 9),
            (mails + chats, NAMES, 6 + 9 + 5),
        ):
            with mock.patch.object(FieldValues, "add", autospec=True, side_effect=added) as add:
                values(dump_of(instances), names, 5, 3)
            self.assertEqual(add.call_count, calls, names)


if __name__ == "__main__":
    unittest.main()
