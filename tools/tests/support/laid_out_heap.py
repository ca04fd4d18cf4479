"""Heap dumps whose identifiers are the addresses of objects in a heap with a known layout."""

import random
from typing import Callable, Dict, List, Sequence, Union

from heap_tools.field_placing import Fields, OwnFields
from heap_tools.heap_dump import HeapDump
from heap_tools.heap_layout import Layout
from tests.support.dump_writer import BYTE, INT, LONG, VALUE_SIZE, DumpWriter

#: The address of the first object, and of the first class object.
FIRST, FIRST_CLASS = 1 << 20, 1 << 28
#: How many sub-records a segment has.
IN_A_SEGMENT = 500
#: The usual layout of a virtual machine.
COMPRESSED = Layout(8, 12, 4, 16)


class LaidOutHeap:
    """Objects one after the other, in a heap with the layout `layout`."""

    def __init__(self, layout: Layout, id_size: int = 8, minutes: int = 0) -> None:
        self.layout, self.dump, self.at = layout, DumpWriter(id_size, 60_000 * minutes), FIRST
        self.classes: Dict[int, Fields] = {}
        self._writers: List[Callable[[], None]] = []

    def of_class(
        self,
        name: str,
        references: int = 0,
        ints: int = 0,
        superclass: int = 0,
        statics: Sequence[str] = (),
        loader: int = 0,
        number: int = 0,
        has_byte: bool = False,
        has_long: bool = False,
    ) -> int:
        """Writes a class with these fields besides those of its superclass, and returns its identifier. Its object is
        outside of the heap, unless `number` says where."""
        number = number or FIRST_CLASS + 4096 * len(self.classes)
        own = OwnFields(references, int(has_long), ints, 0, int(has_byte))
        self.classes[number] = self.classes.get(superclass, Fields()).plus(own)
        fields = [f"field{at}" for at in range(references)] + [f"int{at}" for at in range(ints)]
        fields += ["pid"] * has_long + ["coder"] * has_byte
        self.dump.of_class(number, name, {each: 0 for each in statics}, fields, superclass, loader)
        return number

    def place(self, size: int) -> int:
        """Takes `size` bytes, which need not be aligned, and returns where they begin."""
        begin, self.at = self.at, self.at + self.layout.aligned(size)
        return begin

    def instance(self, of_class: int, added: int = 0, references: Sequence[int] = ()) -> int:
        """Puts an instance in the heap, with `added` bytes that the dump does not show. Those of its references after
        `references` are null. Returns its identifier."""
        fields = self.classes[of_class]
        number = self.place(self.layout.instance(fields) + added)
        values: List[Union[int, bytes]] = [*references, *[0] * (fields.references - len(references))]
        values.append(bytes(fields.other))
        self._writers.append(lambda: self.dump.instance(number, of_class, *values))
        return number

    def values(self, kind: int, length: int) -> int:
        """Puts an array of numbers in the heap."""
        number = self.place(self.layout.array(kind, length))
        self._writers.append(lambda: self.dump.values(number, kind, bytes(VALUE_SIZE[kind] * length)))
        return number

    def array(self, of_class: int, length: int, elements: Sequence[int] = ()) -> int:
        """Puts an array of references in the heap. Those after `elements` are null."""
        number, every = self.place(self.layout.array(2, length)), [*elements, *[0] * (length - len(elements))]
        self._writers.append(lambda: self.dump.array(number, of_class, *every))
        return number

    def mixed(self, count: int, hole: int = 0) -> None:
        """Puts `count` instances of each of four classes and as many arrays in the heap. After every ninth object are
        `hole` bytes without an object."""
        entries = [(1, 1), (3, 0), (2, 3), (0, 1)]
        classes = [self.of_class(f"shop/Entry{at}", *fields) for at, fields in enumerate(entries)]
        table = self.of_class("[Lshop/Entry;")
        for number in range(count):
            for at, each in enumerate(classes):
                self.instance(each)
                self.values((BYTE, INT, LONG)[at % 3], (number + at) % 7)
                self.array(table, (number + at) % 5)
                if hole and (4 * number + at) % 3 == 0:
                    self.place(hole)

    def uneven(self, parts: int = 12) -> List[int]:
        """Puts arrays of bytes in the heap that are all as long, 24 bytes, but have other paddings where a small sample
        is taken: each part of the file begins with 50 of 1 byte and as many orders, and ends with 400 of 8 bytes.
        Returns the identifiers of all."""
        found: List[int] = []
        order = self.of_class("shop/Order", 2)
        for _ in range(parts):
            for _ in range(50):
                found += [self.instance(order), self.values(BYTE, 1)]
            found += [self.values(BYTE, 8) for _ in range(IN_A_SEGMENT - 100)]
        return found

    def written(self, shuffled: bool = False) -> DumpWriter:
        """Returns the dump, its objects in the order of their addresses or in no order."""
        writers = list(self._writers)
        if shuffled:
            random.Random(1).shuffle(writers)
        for number, write in enumerate(writers):
            if number % IN_A_SEGMENT == 0:
                self.dump.cut()
            write()
        return self.dump

    def read(self, shuffled: bool = False) -> HeapDump:
        """Writes the dump and reads it."""
        return read(self.written(shuffled))


def odd_arrays(count: int, minutes: int = 0) -> LaidOutHeap:
    """Returns a heap in which `shop/Cache.field0` leads to `count` arrays of bytes, of 0 to 40 each, beside some
    objects of other lengths."""
    it = LaidOutHeap(COMPRESSED, minutes=minutes)
    it.mixed(200)
    cache, table = it.of_class("shop/Cache", 1), it.of_class("[Ljava/lang/Object;")
    arrays = [it.values(BYTE, length) for length in odd_lengths(count)]
    it.dump.root(it.instance(cache, references=[it.array(table, count, arrays)]))
    return it


def odd_lengths(count: int) -> List[int]:
    """Returns the lengths of these arrays: most have the remainder 1 by 8, so that they have 7 bytes of padding."""
    return [number % 41 if number % 3 == 0 else 8 * (number % 5) + 1 for number in range(count)]


def bytes_of_odd_arrays(count: int) -> int:
    """Returns what `shop/Cache.field0` holds in the heap."""
    every = [16 + length for length in odd_lengths(count)] + [16 + 4 * count]
    return sum(8 * ((size + 7) // 8) for size in every)


def read(dump: DumpWriter) -> HeapDump:
    """Writes a dump and reads it."""
    return HeapDump(dump.bytes())
