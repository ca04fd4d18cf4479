"""How a virtual machine lays objects out in its heap, found from a sample of objects and their neighbours.

A dump has no sizes, but it has addresses: identifiers are that. Where two objects are neighbours, the difference is the
size of the first. So the numbers of a layout are those with which most neighbours agree. What a dump lacks between two
objects makes the difference larger, never smaller.
"""

from collections import Counter
from itertools import product
from typing import Counter as Counts
from typing import Container, Dict, Iterable, Iterator, NamedTuple, Tuple

from heap_tools import hprof_format as hprof
from heap_tools.field_placing import WORD, Fields, Placing, aligned, end_of
from heap_tools.heap_sample import Sample

#: The fewest instances, and the fewest arrays, whose neighbours agree on a layout; the least share of both that does;
#: and the least of either, since many objects of one kind may have a hole after them: garbage that the dump omits.
FEWEST_NEIGHBOURS, AGREEMENT, MAJORITY = 300, 0.8, 0.5
#: The largest share of objects that may be nearer to the next than they are long: objects do not overlap.
OVERLAPPING = 0.01
#: The class of the stacks of virtual threads that wait: the stack is in it, and the dump does not say how long it is.
STACK = "jdk/internal/vm/StackChunk"
#: What is said of the placing of fields, if it is not that of today's virtual machines.
APART = {
    Placing.FILLED: "",
    Placing.REFERENCES_LAST: ", fields begin after those of superclasses",
    Placing.REFERENCES_FIRST: ", fields begin after those of superclasses, references first",
    Placing.LAST_WITH_GAPS: ", fields begin after those of superclasses, with gaps",
    Placing.FIRST_WITH_GAPS: ", fields begin after those of superclasses, references first, with gaps",
}
#: The headers of instances and of arrays that virtual machines have, by the bytes of an identifier. That of an instance
#: is one word (compact headers, or 32 bits), a word and a compressed class, or two words; an array has its length after
#: that, and up to JDK 22 its elements begin at a multiple of 8. The most usual come first: they are taken if as many
#: agree.
HEADERS = {4: [(8, 12)], 8: [(12, 16), (8, 12), (16, 20), (16, 24)]}
REFERENCES = {4: (4,), 8: (4, 8)}
#: The header of an instance with an identifier of 8 bytes that only virtual machines have which fill what is empty.
COMPACT = 8


class UnknownLayout(Exception):
    """The layout cannot be found. The text is why."""


class Layout(NamedTuple):
    """The bytes of which each size is a multiple, those before the fields of an instance, those of a reference, and
    those before the elements of an array; and how fields are placed."""

    alignment: int
    header: int
    reference: int
    array_header: int
    placing: Placing = Placing.FILLED

    def aligned(self, size: int) -> int:
        """Returns what an object of `size` bytes takes in the heap."""
        return aligned(size, self.alignment)

    def value(self, kind: int) -> int:
        """Returns the bytes of a value of the type with the code `kind`."""
        return self.reference if kind == hprof.OBJECT else hprof.PRIMITIVE_SIZES[kind]

    def instance(self, fields: Fields) -> int:
        """Returns the bytes of an instance with these fields, before it is aligned."""
        return end_of(fields, self.header, self.reference, self.placing)

    def array(self, kind: int, length: int) -> int:
        """Returns what an array of `length` elements takes in the heap."""
        element = self.value(kind)
        begin = aligned(self.array_header, WORD) if element == WORD else self.array_header
        return self.aligned(begin + element * length)

    def words(self) -> str:
        """Says what the layout is."""
        compressed = " (compressed)" if self.reference == 4 and self.header != 8 else ""
        return (
            f"header {self.header} bytes, of an array {self.array_header}, references {self.reference}{compressed}, "
            f"sizes are multiples of {self.alignment}{APART[self.placing]}"
        )


class _Votes(NamedTuple):
    """How many objects have the size that a layout says, of how many, and how many are smaller."""

    agree: int
    overlap: int
    total: int


def layout_of(sample: Sample, fields: Dict[int, Fields], id_size: int, stacks: Container[int] = ()) -> Layout:
    """Finds the layout with which most neighbours agree. The classes `stacks` do not count. Raises `UnknownLayout` if
    too few objects have a neighbour, or if these do not agree."""
    instances: Counts[Tuple[Fields, int]] = Counter()
    arrays: Counts[Tuple[int, int, int]] = Counter()
    for (class_id, kind, length, gap), count in sample.neighbours.items():
        if kind == 0 and class_id not in stacks:
            instances[fields.get(class_id, Fields()), gap] += count
        elif kind > 0:
            arrays[kind, length, gap] += count
    found = [
        (
            one,
            _votes((one.aligned(one.instance(of)), gap, n) for (of, gap), n in instances.items()),
            _votes((one.array(kind, length), gap, n) for (kind, length, gap), n in arrays.items()),
        )
        for one in _layouts(sample.bits & -sample.bits, id_size)
    ]
    best = max(found, key=lambda it: it[1].agree + it[2].agree)
    _require_agreement(*best[1:])
    return best[0]


def _layouts(alignment: int, id_size: int) -> Iterator[Layout]:
    """Yields the layouts that a heap may have, the most usual first."""
    for placing, (header, array_header), reference in product(Placing, HEADERS[id_size], REFERENCES[id_size]):
        if placing is Placing.FILLED or id_size == 4 or header != COMPACT:
            yield Layout(alignment, header, reference, array_header, placing)


def _votes(sizes: Iterable[Tuple[int, int, int]]) -> _Votes:
    """Returns the votes, given sizes by a layout, the distances to the next, and how many objects have both."""
    agree = overlap = total = 0
    for size, gap, count in sizes:
        agree += count * (size == gap)
        overlap += count * (size > gap)
        total += count
    return _Votes(agree, overlap, total)


def _require_agreement(*votes: _Votes) -> None:
    """Raises `UnknownLayout` unless enough instances and enough arrays agree."""
    total = sum(each.total for each in votes)
    if min(each.total for each in votes) < FEWEST_NEIGHBOURS:
        raise UnknownLayout("too few objects have a neighbour")
    if (
        sum(each.agree for each in votes) < AGREEMENT * total
        or sum(each.overlap for each in votes) > OVERLAPPING * total
    ):
        raise UnknownLayout("too few neighbours agree")
    if any(each.agree < max(FEWEST_NEIGHBOURS, MAJORITY * each.total) for each in votes):
        raise UnknownLayout("too few neighbours agree")
