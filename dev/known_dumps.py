"""Large heap dumps whose report is known from how they are made, for tools/check.

Nothing here walks over references: what writes objects says which of them are reachable, and counts them.
"""

from __future__ import annotations

import os
import struct
from collections.abc import Iterator

from tests.support import dump_writer

#: The most bytes and the most objects that a dump may have.
MOST_BYTES = 1 << 30
MOST_OBJECTS = 1 << 24
#: The objects of a dump of `write_mixed`, its class dumps among them.
MIXED_OBJECTS = 2_000_000
#: The most bytes of a segment, and the number of pieces that each kind of object is cut into.
SEGMENT_SIZE, PIECES = 1 << 20, 16
#: The number of identifiers on a page of the index.
PAGE = 64


class Mixed:
    """A heap of two million objects: a list, a tree, leaves in arrays, buffers of the leaves, and a list of garbage.

    Objects are numbered by kind. In the file the kinds come in turns, a piece of each.
    """

    CHAIN, TREE, ARRAYS, ELEMENTS, BUFFERS, BUFFER = 400_000, 600_000, 2_000, 300, 200_000, 10
    LEAVES = ARRAYS * ELEMENTS
    NAMES = "java/lang/Object check/Node check/Branch check/Leaf [Lcheck/Leaf; check/Registry check/Garbage".split()
    ROOT, NODE, BRANCH, LEAF, LEAVES_CLASS, REGISTRY, GARBAGE_CLASS = range(7)

    def __init__(self, form: dump_writer.Format) -> None:
        self.form, self.expected = form, dump_writer.Expected()
        counts = [len(self.NAMES), self.CHAIN, self.TREE, self.LEAVES, self.ARRAYS, self.BUFFERS]
        self.first = [sum(counts[:at]) for at in range(len(counts) + 1)]
        self.garbage = MIXED_OBJECTS - self.first[-1]
        _, self.chain_at, self.tree_at, self.leaves_at, self.arrays_at, self.buffers_at, self.garbage_at = self.first

    def unresolved(self, references: list[int]) -> list[int]:
        """Counts those of `references` that name no object, and returns all."""
        self.expected.unresolved += sum(reference % 8 == 4 for reference in references)
        return references

    def classes(self) -> bytes:
        """Returns the class dumps; only instances of garbage refer to the last class."""
        form, width = self.form, self.form.width
        root, node = form.id(self.ROOT), form.id(self.NODE)
        kept = form.spell([form.id(self.arrays_at)]) + struct.pack(">I", 7)
        statics = [(dump_writer.OBJECT, kept[:width]), (dump_writer.INT, kept[width:])]
        dumps = [
            form.class_dump(self.ROOT),
            form.class_dump(self.NODE, root, fields=[dump_writer.OBJECT, dump_writer.INT]),
            form.class_dump(self.BRANCH, node, fields=[dump_writer.OBJECT]),
            form.class_dump(self.LEAF, root, fields=[dump_writer.OBJECT, dump_writer.LONG]),
            form.class_dump(self.LEAVES_CLASS, root),
            form.class_dump(self.REGISTRY, root, statics=statics),
            form.class_dump(self.GARBAGE_CLASS, root, fields=[dump_writer.OBJECT, dump_writer.OBJECT]),
        ]
        self.expected.add("<class>", len(dumps) - 1, 0)
        self.expected.rows["<class>"][1] += len(kept)
        self.expected.add("<class>", 1, 0, reachable=False)
        return b"".join(dumps)

    def roots(self) -> bytes:
        """Returns the roots: list, tree, each array but the first, `Registry`, and three that name no object."""
        form, arrays = self.form, range(self.arrays_at + 1, self.arrays_at + self.ARRAYS)
        named = map(form.id, [self.chain_at, self.tree_at, *arrays])
        identifiers = self.unresolved([*named, *map(form.missing, range(3))])
        frames = [form.root(dump_writer.ROOT_JAVA_FRAME, identifier) + bytes(8) for identifier in identifiers]
        return form.root(dump_writer.ROOT_STICKY_CLASS, form.id(self.REGISTRY)) + b"".join(frames)

    def chain(self) -> dump_writer.Block:
        """Returns the list: each node refers to the next one, the last to nothing."""
        after = [*map(self.form.id, range(self.chain_at + 1, self.chain_at + self.CHAIN)), 0]
        size = self.form.width + 4
        self.expected.add("check/Node", self.CHAIN, size)
        return self.form.instances(self.chain_at, self.CHAIN, self.NODE, [after], size)

    def tree(self) -> dump_writer.Block:
        """Returns the tree: branch n refers to the branches 2n + 1 and 2n + 2. Where such a branch does not exist, n
        has null, or in every fifth case an identifier that names no object."""
        form, end = self.form, self.TREE

        def child(number: int) -> int:
            if number < end:
                return form.id(self.tree_at + number)
            return 0 if number % 5 else form.missing(number)

        sides = [self.unresolved([child(2 * number + side) for number in range(end)]) for side in (1, 2)]
        size = 2 * form.width + 4
        self.expected.add("check/Branch", end, size)
        return form.instances(self.tree_at, end, self.BRANCH, sides, size)

    def leaves(self) -> dump_writer.Block:
        """Returns the leaves. The first ones have a buffer each; every seventh of the others names no object."""
        form, count = self.form, self.LEAVES
        buffers = [form.id(self.buffers_at + number) for number in range(self.BUFFERS)]
        others = [0 if number % 7 else form.missing(number) for number in range(self.BUFFERS, count)]
        size = form.width + 8
        self.expected.add("check/Leaf", count, size)
        return form.instances(self.leaves_at, count, self.LEAF, [self.unresolved(buffers + others)], size)

    def arrays(self) -> dump_writer.Block:
        """Returns the arrays: each leaf is an element of one."""
        form, length = self.form, self.ELEMENTS
        elements = form.spell(map(form.id, range(self.leaves_at, self.leaves_at + self.LEAVES)))
        size = length * form.width
        numbers = range(self.arrays_at, self.arrays_at + self.ARRAYS)
        heads = [form.object_array_head(number, self.LEAVES_CLASS, length) for number in numbers]
        dumps = b"".join(head + elements[at * size : (at + 1) * size] for at, head in enumerate(heads))
        self.expected.add("[Lcheck/Leaf;", self.ARRAYS, size)
        return dump_writer.Block(dumps, len(heads[0]) + size)

    def buffers(self) -> dump_writer.Block:
        """Returns the arrays of bytes."""
        self.expected.add("byte[]", self.BUFFERS, self.BUFFER)
        return self.form.primitive_arrays(self.buffers_at, self.BUFFERS, dump_writer.BYTE, self.BUFFER)

    def garbage_list(self) -> dump_writer.Block:
        """Returns the unreachable list. Each object refers to the next one and to a node; the last names no object."""
        form, count, size = self.form, self.garbage, 2 * self.form.width
        after = [*map(form.id, range(self.garbage_at + 1, self.garbage_at + count)), form.missing(0)]
        nodes = [form.id(self.chain_at + number) for number in range(count)]
        self.expected.add("check/Garbage", count, size, reachable=False)
        return form.instances(self.garbage_at, count, self.GARBAGE_CLASS, [self.unresolved(after), nodes], size)

    def blocks(self) -> Iterator[bytes]:
        """Yields the dumps of all objects but classes: a piece of each kind in turn, in parts of a segment's size."""
        kinds = [self.chain(), self.tree(), self.leaves(), self.arrays(), self.buffers(), self.garbage_list()]
        pieces = [[*kind.cut(-(-len(kind.dumps) // PIECES))] for kind in kinds]
        for turn in range(max(map(len, pieces))):
            for kind, of_kind in zip(kinds, pieces):
                if turn < len(of_kind):
                    yield from dump_writer.Block(of_kind[turn], kind.size).cut(SEGMENT_SIZE)


def write_mixed(path: str, width: int, scattered: bool, segments: bool) -> bytes:
    """Writes a dump of two million objects, in one heap dump or in `segments`, and returns its report."""
    form = dump_writer.Format(width, scattered)
    mixed = Mixed(form)
    first = mixed.classes() + mixed.roots()
    blocks = [first, *mixed.blocks()]
    with open(path, "wb") as file:
        file.write(form.header())
        file.write(form.record(dump_writer.STRING, form.spell([1]), b"field"))
        for number, name in enumerate(Mixed.NAMES):
            file.write(form.loaded(number + 2, number, name))
        if segments:
            file.writelines(form.record(dump_writer.SEGMENT, block) for block in blocks)
            file.write(form.record(dump_writer.END))
        else:
            file.write(form.record(dump_writer.HEAP_DUMP, *blocks))
    return mixed.expected.report()


class Rooted:
    """A heap of a class, an array of that class which is a root, and `count` objects that are its elements."""

    NAME = "[Ljava/lang/Object;"
    CLASS, ARRAY, FIRST = range(3)

    def __init__(self, width: int, count: int) -> None:
        self.form, self.count, self.expected = dump_writer.Format(width), count, dump_writer.Expected()
        self.expected.add("<class>", 1, 0)
        self.expected.add(self.NAME, 1, count * width)

    def beginning(self) -> bytes:
        """Returns what precedes the record of the heap dump."""
        return self.form.header() + self.form.loaded(2, self.CLASS, self.NAME)

    def record(self, length: int) -> bytes:
        """Returns the tag of the heap dump, its time and its length."""
        return struct.pack(">BII", dump_writer.HEAP_DUMP, 0, length)

    def top(self) -> bytes:
        """Returns the first sub-records, up to the elements of the array."""
        root = self.form.root(dump_writer.ROOT_UNKNOWN, self.form.id(self.ARRAY))
        return self.form.class_dump(self.CLASS) + root + self.form.object_array_head(self.ARRAY, self.CLASS, self.count)

    def elements(self, first: int, count: int) -> bytes:
        """Returns the identifiers of `count` elements."""
        return self.form.spell(map(self.form.id, range(self.FIRST + first, self.FIRST + first + count)))

    def head(self, element: int, code: int, length: int) -> bytes:
        """Returns the dump of an element that is an array of the type `code`, up to its own elements."""
        self.expected.add(f"{dump_writer.TYPE_NAME[code]}[]", 1, length * dump_writer.VALUE_SIZE[code])
        return self.form.primitive_head(self.form.id(self.FIRST + element), code, length)


def write_largest(path: str, size: int = MOST_BYTES) -> bytes:
    """Writes a dump of `size` bytes, all but a few of them zeroes of two arrays, and returns its report."""
    heap, count = Rooted(8, 3), size // 16
    beginning, top = heap.beginning(), heap.top() + heap.elements(0, 3)
    top += heap.head(0, dump_writer.LONG, count)
    middle = heap.head(1, dump_writer.INT, 5) + bytes(20)
    last = heap.form.primitive_head(0, dump_writer.BYTE, 0)
    record = size - len(beginning) - len(heap.record(0))
    with open(path, "wb") as file:
        file.write(beginning + heap.record(record) + top)
        file.seek(8 * count, os.SEEK_CUR)
        file.write(middle + heap.head(2, dump_writer.BYTE, record - len(top) - 8 * count - len(middle) - len(last)))
        file.truncate(size)
    return heap.expected.report()


def write_most_objects(path: str, scattered: bool = False) -> bytes:
    """Writes a dump of as many objects as one may have, nearly all of them empty arrays, and returns its report. If
    `scattered`, each array is on another page of the index than the one before it."""
    heap, most = Rooted(4, MOST_OBJECTS - Rooted.FIRST), 1 << 20
    top, size = heap.top(), len(heap.form.primitive_head(0, dump_writer.BYTE, 0))
    heap.expected.add("byte[]", heap.count, 0)
    parts = [(first, min(most, heap.count - first)) for first in range(0, heap.count, most)]
    with open(path, "wb") as file:
        file.write(heap.beginning() + heap.record(len(top) + heap.count * (heap.form.width + size)) + top)
        file.writelines(heap.elements(*part) for part in parts)
        apart = PAGE if scattered else 1
        for first, count in [(it, len(range(it, heap.count, PAGE))) for it in range(PAGE)] if scattered else parts:
            file.write(heap.form.primitive_arrays(heap.FIRST + first, count, dump_writer.BYTE, 0, apart).dumps)
    return heap.expected.report()


def add_an_object(path: str) -> int:
    """Adds an empty array to a dump of `write_most_objects`, and returns its place."""
    heap = Rooted(4, MOST_OBJECTS - Rooted.FIRST)
    at = len(heap.beginning())
    more = heap.head(heap.count, dump_writer.BYTE, 0)
    with open(path, "r+b") as file:
        place = file.seek(0, os.SEEK_END)
        file.write(more)
        file.seek(at)
        file.write(heap.record(place + len(more) - at - len(heap.record(0))))
    return place
