"""Pairs of small dumps of programs made at random, with parts that grow, shrink, come, go or stay."""

import random
from typing import List, Tuple

from tests.support.dump_writer import BYTE, DumpWriter

#: The classes of links between a root and a list: each has two fields.
LINKS = ("app/Store", "app/Cache", "app/Page", "lib/Pool", "java/Map", "java/Node")
ITEMS = ("app/Order", "app/User", "lib/Entry")
METHODS = ("serve", "poll", "main")
#: The identifiers of classes, and the first ones of threads and of other objects.
OBJECTS, ARRAY, THREAD, TEXT, LINK, ITEM, STATICS, METHOD = 1, 2, 3, 4, 10, 20, 30, 40
FIRST_THREAD, FIRST_OBJECT = 100, 1000


class Part:
    """A part of a program: how many items its list has before and after, and how the list is held."""

    def __init__(self, chance: random.Random, number: int) -> None:
        self.number = number
        steady = chance.randrange(2, 40)
        self.counts = chance.choice(
            [(steady, steady), (chance.randrange(20), chance.randrange(20, 60)), (steady, 0), (0, steady)]
        )
        self.statics = chance.sample(range(6), chance.choice([0, 1, 1, 1, 2]))
        self.threads = chance.sample(range(2), chance.choice([0, 0, 1, 2]))
        self.in_field = chance.random() < 0.5
        self.frame = chance.randrange(2)
        self.links = [(chance.randrange(len(LINKS)), chance.randrange(2)) for _ in range(chance.randrange(4))]
        self.copies = chance.choice([1, 1, 1, 2, 5])
        self.item, self.size = chance.randrange(len(ITEMS)), chance.randrange(1, 40)
        #: Parts that an item of this one leads to.
        self.others = [chance.randrange(8) for _ in range(chance.choice([0, 0, 0, 1, 2]))]


class RandomHeap(DumpWriter):
    """The dump of `parts`, `after` their change or before it."""

    def __init__(self, parts: List[Part], after: bool) -> None:
        super().__init__(time=1000 + after)
        self.after, self.next = after, FIRST_OBJECT
        self.statics = {f"s{number}": 0 for number in range(6)}
        self.fields: "dict[int, List[int]]" = {0: [0, 0], 1: [0, 0]}
        self.of_class(OBJECTS, "java/lang/Object")
        self.of_class(ARRAY, "[Ljava/lang/Object;")
        self.of_class(TEXT, "java/lang/String", fields=["value", "coder"])
        for number, name in enumerate(LINKS):
            self.of_class(LINK + number, name, fields=["left", "right"])
        for number, name in enumerate(ITEMS):
            self.of_class(ITEM + number, name, fields=["data", "other"])
        for number, name in enumerate(METHODS):
            self.of_class(METHOD + number, f"app/Call{number}")
        lists = [self._list(part) for part in parts]
        for part, (_, items) in zip(parts, lists):
            for number, item in enumerate(items):
                others = [lists[each][0] for each in part.others[number : number + 1] if each < len(lists)]
                self.values(item + 1, BYTE, bytes(part.size))
                self.instance(item, ITEM + part.item, item + 1, *(others or [0]))
        self._write_roots(parts, [self._linked(part, top) for part, (top, _) in zip(parts, lists)])

    def new(self) -> int:
        """Returns an identifier that no object has yet."""
        self.next += 2
        return self.next

    def _list(self, part: Part) -> Tuple[int, List[int]]:
        """Writes the arrays of a part. Returns the first and its items, which are not written yet."""
        items = [self.new() for _ in range(part.counts[self.after])]
        array = self.new()
        self.array(array, ARRAY, *items)
        return array, items

    def _linked(self, part: Part, top: int) -> int:
        """Writes the links that lead to the list of a part. Returns the first."""
        for number, field in part.links:
            links = [self.new() for _ in range(part.copies)]
            for link in links:
                self.instance(link, LINK + number, *((0, top) if field else (top, 0)))
            top = links[0]
            if part.copies > 1:
                top = self.new()
                self.array(top, ARRAY, *links)
        return top

    def _write_roots(self, parts: List[Part], tops: List[int]) -> None:
        """Writes static fields, threads and their local variables, which lead to the parts."""
        held: "dict[tuple[int, int], List[int]]" = {}
        for part, top in zip(parts, tops):
            for static in part.statics:
                held.setdefault((2, static), []).append(top)
            for thread in part.threads:
                held.setdefault((part.in_field, thread), []).append(top)
        for static in range(6):
            self.statics[f"s{static}"] = self._all_of(held.get((2, static), []))
        names = sorted(self.statics)
        self.of_class(STATICS, "app/Main", {name: self.statics[name] for name in names[:3]})
        self.of_class(STATICS + 1, "java/System", {name: self.statics[name] for name in names[3:]})
        self.of_class(THREAD, "java/lang/Thread", fields=["name", "target"])
        for thread in range(2):
            self.thread(1 + thread, FIRST_THREAD + thread, [(METHOD, METHODS[0]), (METHOD + 1 + thread, METHODS[1])])
            text, value = self.new(), self.new()
            self.values(value, BYTE, b"worker-%d" % thread)
            self.instance(text, TEXT, value, b"\0")
            self.instance(FIRST_THREAD + thread, THREAD, text, self._all_of(held.get((1, thread), [])))
        for part, top in zip(parts, tops):
            for thread in part.threads:
                if not part.in_field:
                    self.local(1 + thread, part.frame, top)
        self.root(STATICS, STATICS + 1)

    def _all_of(self, tops: List[int]) -> int:
        """Returns the only one of `tops`, or an array with all of them."""
        if len(tops) < 2:
            return tops[0] if tops else 0
        array = self.new()
        self.array(array, ARRAY, *tops)
        return array


def random_pair(seed: int) -> Tuple[DumpWriter, DumpWriter]:
    """Returns the dumps of a program, before and after. The same seed makes the same pair."""
    chance = random.Random(seed)
    parts = [Part(chance, number) for number in range(chance.randrange(3, 9))]
    return RandomHeap(parts, False), RandomHeap(parts, True)
