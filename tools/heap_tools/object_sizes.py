"""What the objects of a dump take in the heap, and what those of a report do."""

from collections import Counter, defaultdict
from typing import Counter as Counts
from typing import Dict, Iterable, Iterator, List, Mapping, NamedTuple, Set, Tuple

from heap_tools import hprof_format as hprof
from heap_tools.added_fields import added_fields, class_object_size
from heap_tools.class_names import CLASSES, PRIMITIVES
from heap_tools.field_placing import Fields, fields_by_class
from heap_tools.heap_dump import HeapDump
from heap_tools.heap_layout import STACK, Layout, layout_of
from heap_tools.heap_sample import CLASS_OBJECT, Sample, sample_of
from heap_tools.held_table import DIVISOR, RowPart, RowParts, by_row
from heap_tools.reports import Amount, Report, Row
from heap_tools.size_doubts import doubts

#: The codes of the elements' types by the names of arrays of primitive values.
ARRAY_KINDS = {f"{PRIMITIVES[letter]}[]": kind for kind, letter in hprof.LETTERS.items()}


#: How many arrays have each length, by their class and the type of their elements.
Lengths = Dict[Tuple[int, int], Counts[int]]


class Linear(NamedTuple):
    """What the objects of a row take: so much for each object, and so much for each byte of the row."""

    an_object: float
    a_byte: float

    def of(self, amount: Amount, alignment: int) -> Amount:
        """Returns the amount in heap bytes, a multiple of `alignment`."""
        taken = self.an_object * amount.objects + self.a_byte * amount.bytes
        return Amount(amount.objects, round(taken / alignment) * alignment)


#: What objects take of which nothing is known: as much as in the dump.
AS_WRITTEN = Linear(0, 1)


class Unsure(NamedTuple):
    """Of how many classes it is not sure what their objects take, and by how many bytes these may be off together."""

    classes: int
    bytes: int


class RowSizes(NamedTuple):
    """What the objects of each row of a report take in a heap with a layout, and what those take of which a report has
    no rows: the unreachable ones. Arrays of a report take a mean padding, those of a table what they do: `arrays` has
    the parts of rows of which that is known. `doubts`: by how many bytes an object of a row may be off, without the
    rows of which it is sure."""

    layout: Layout
    rows: Dict[str, Linear]
    arrays: Dict[RowPart, Linear]
    others: Linear
    doubts: Mapping[str, int] = {}

    def of(self, name: str, amount: Amount) -> Amount:
        """Returns what the objects of a row take: as much as they do in the report, if the dump has no such class."""
        return self.rows[name].of(amount, self.layout.alignment) if name in self.rows else amount

    def linear(self, part: RowPart) -> Linear:
        """Returns what the objects of a part of a row take, before that is a multiple of the alignment."""
        return self.arrays[part] if part in self.arrays else self.rows.get(part.name, AS_WRITTEN)

    def taken(self, parts: RowParts) -> Dict[str, Amount]:
        """Returns what the objects of a table take, by row: those of which no padding is known as in a report."""
        others = by_row({part: amount for part, amount in parts.items() if part not in self.arrays})
        found = {name: self.of(name, amount) for name, amount in others.items()}
        exact = self._exact(parts)
        return {**found, **{name: amount.plus(found.get(name, Amount())) for name, amount in exact.items()}}

    def _exact(self, parts: RowParts) -> Dict[str, Amount]:
        """Returns what those arrays take of which the padding is known, by row."""
        known, alignment = self.arrays, self.layout.alignment
        return by_row({part: known[part].of(amount, alignment) for part, amount in parts.items() if part in known})

    def padded_as(self, parts: RowParts) -> "RowSizes":
        """Returns the same, with the mean padding of the arrays of a table in place of that of a sample: so a report
        with the same arrays has what they take."""
        written = by_row({part: amount for part, amount in parts.items() if part in self.arrays})
        rows = dict(self.rows)
        for name, taken in self._exact(parts).items():
            a_byte = rows[name].a_byte
            rows[name] = Linear((taken.bytes - a_byte * written[name].bytes) / max(1, taken.objects), a_byte)
        return self._replace(rows=rows)

    def report(self, report: Report) -> Report:
        """Returns a report in heap bytes."""
        rows = [Row(name, self.of(name, amount)) for name, amount in report.rows]
        reachable = Amount(report.reachable.objects, sum(each.amount.bytes for each in rows))
        unreachable = self.others.of(report.unreachable, self.layout.alignment)
        return Report(rows, reachable, unreachable, report.unresolved, True)

    def like(self, other: "RowSizes") -> "RowSizes":
        """Returns what objects of a heap with the same layout take, in rows that `other` has, too, as much as by it: so
        a row that is the same in two dumps takes as much in both, though their samples differ."""
        if self.layout != other.layout:
            return self
        rows, arrays = {**self.rows, **other.rows}, {**self.arrays, **other.arrays}
        return other._replace(rows=rows, arrays=arrays, doubts={**self.doubts, **other.doubts})

    def unsure(self, rows: Iterable[Row]) -> Unsure:
        """Returns of how many of these rows it is not sure what they take."""
        off = [amount.objects * self.doubts[name] for name, amount in rows if name in self.doubts]
        return Unsure(len(off), sum(off))


class ObjectSizes:
    """What each object of `dump` takes in the heap, by the layout that a sample of the objects shows. Raises
    `UnknownLayout` if it shows none. `is_rough`: only the layout is as that of the whole sample."""

    def __init__(self, dump: HeapDump, is_rough: bool = False) -> None:
        sample = sample_of(dump, is_rough)
        self.dump, self.fields, self.is_ascending = dump, fields_by_class(dump), sample.is_ascending
        self.stacks = {class_id for class_id, name in dump.names.items() if name == STACK}
        self.layout = layout_of(sample, self.fields, dump.id_size, self.stacks)
        self.added = added_fields(dump, sample, self.fields, self.layout, self.stacks)
        statics = {each: self._statics(each) for each in dump.classes}
        of_class = next((each for each, name in dump.names.items() if name == "java/lang/Class"), 0)
        self.class_object = class_object_size(sample, statics, self.layout, self._plain(of_class))
        rows = {**self._rows_of_instances(sample), **self._rows_of_arrays(lengths_in(sample))}
        rows[CLASSES] = self._row_of_classes()
        unsure = doubts(sample, self.fields, self.layout, self.stacks, self.instance)
        of_rows = {dump.names[class_id]: off for class_id, off in sorted(unsure.items(), key=lambda it: it[1])}
        self.rows = RowSizes(self.layout, rows, self._arrays(), self._mean_of(sample), of_rows)

    def _plain(self, class_id: int) -> int:
        return self.layout.instance(self.fields.get(class_id, Fields())) + self.added.get(class_id, 0)

    def _statics(self, class_id: int) -> int:
        """Returns the bytes of the static fields in a class object. Names with a `<` are those of what the dump shows
        as static fields, but the virtual machine keeps elsewhere."""
        fields = self.dump.classes[class_id].fields
        return sum(self.layout.value(each.kind) for each in fields if each.is_static and not each.name.startswith("<"))

    def instance(self, class_id: int) -> int:
        """Returns what an instance of a class takes."""
        return self.layout.aligned(self._plain(class_id))

    def of_class_object(self, class_id: int) -> int:
        """Returns what a class object takes: the fields of `java/lang/Class`, and the static fields of the class."""
        return self.layout.aligned(self.class_object + self._statics(class_id))

    # Rows of a report

    def _mean_of(self, sample: Sample) -> Linear:
        """Returns what an object takes besides its values, in the mean of the sample, and what a byte of values
        does."""
        objects = written = values = taken = 0
        for (class_id, kind, length, _), count in sample.neighbours.items():
            if kind == CLASS_OBJECT or class_id in self.stacks:
                continue
            objects += count
            if kind:
                written += count * length * self.dump.value_sizes[kind]
                values += count * length * self.layout.value(kind)
                taken += count * self.layout.array(kind, length)
            else:
                written += count * length
                values += count * (self.layout.instance(self.fields.get(class_id, Fields())) - self.layout.header)
                taken += count * self.instance(class_id)
        return Linear((taken - values) / max(1, objects), values / max(1, written))

    def _rows_of_instances(self, sample: Sample) -> Dict[str, Linear]:
        """Returns what rows of instances take. Classes of one name are one row: if their objects have two sizes, the
        bytes of the row say how many there are of each."""
        sizes: Dict[str, Set[Tuple[int, int]]] = defaultdict(set)
        for class_id, name in self.dump.names.items():
            fields = self.fields[class_id]
            sizes[name].add((fields.references * self.dump.id_size + fields.other, self.instance(class_id)))
        rows = {name: _line(sorted(pairs)) for name, pairs in sizes.items()}
        stacks = Counter(
            {it.gap: n for it, n in sample.neighbours.items() if it.kind == 0 and it.class_id in self.stacks}
        )
        if stacks:
            rows[STACK] = Linear(sum(gap * n for gap, n in stacks.items()) / sum(stacks.values()), 0)
        return rows

    def of_all(self, shapes: Counts[Tuple[int, int, int]]) -> RowSizes:
        """Returns what rows take, given how many objects the whole dump has of each class, type of elements and length:
        then the mean padding is not that of a sample."""
        lengths: Lengths = defaultdict(Counter)
        for (class_id, kind, length), count in shapes.items():
            lengths[class_id, kind][length] += count
        return self.rows._replace(rows={**self.rows.rows, **self._rows_of_arrays(lengths)})

    def _rows_of_arrays(self, lengths: Lengths) -> Dict[str, Linear]:
        """Returns what rows of arrays take: the elements, and of each array the header and the mean padding of arrays
        of these lengths."""
        rows: Dict[str, Linear] = {}
        for name, class_id, kind in self._array_rows():
            seen = lengths.get((class_id, kind)) or Counter(range(self.layout.alignment))
            more = sum(n * self._beside_elements(kind, length) for length, n in seen.items())
            rows[name] = Linear(more / sum(seen.values()), self._a_byte(kind))
        return rows

    def _array_rows(self) -> Iterator[Tuple[str, int, int]]:
        """Yields the name of each row of arrays, the class, 0 if it has none, and the code of the elements' type."""
        yield from ((name, 0, kind) for name, kind in ARRAY_KINDS.items())
        yield from ((name, each, hprof.OBJECT) for each, name in self.dump.names.items() if name.startswith("["))

    def _a_byte(self, kind: int) -> float:
        """Returns what a byte of an array in the dump takes in the heap."""
        return self.layout.value(kind) / self.dump.value_sizes[kind]

    def _beside_elements(self, kind: int, length: int) -> int:
        """Returns what an array takes besides its elements: header and padding."""
        return self.layout.array(kind, length) - self.layout.value(kind) * length

    def _arrays(self) -> Dict[RowPart, Linear]:
        """Returns what parts of rows of arrays take. Lengths of which the bytes in the dump have the same remainder by
        `DIVISOR` have the same padding, if that many bytes of the dump are a multiple of the alignment in the heap."""
        found: Dict[RowPart, Linear] = {}
        for name, _, kind in self._array_rows():
            size, a_byte = self.dump.value_sizes[kind], self._a_byte(kind)
            if DIVISOR * a_byte % self.layout.alignment == 0:
                for length in range(DIVISOR // size):
                    found[RowPart(name, length * size)] = Linear(self._beside_elements(kind, length), a_byte)
        return found

    def _row_of_classes(self) -> Linear:
        """Returns what class objects take: static fields as in the mean of the dump's classes."""
        sizes = [(written_statics(self.dump, each), self.of_class_object(each)) for each in self.dump.classes]
        written, taken = (sum(column) for column in zip(*sizes))
        a_byte = min(1, (taken - self.class_object * len(sizes)) / max(1, written))
        return Linear((taken - a_byte * written) / len(sizes), a_byte)


def written_statics(dump: HeapDump, class_id: int) -> int:
    """Returns the bytes of the static fields of a class in the dump."""
    return sum(dump.value_sizes[each.kind] for each in dump.classes[class_id].fields if each.is_static)


def _line(pairs: List[Tuple[int, int]]) -> Linear:
    """Returns what objects take, of sizes in the dump and in the heap. Of more than two sizes, the objects are taken as
    of the smallest and the largest."""
    (least, smallest), (most, largest) = pairs[0], pairs[-1]
    if least == most:
        return Linear(sum(size for _, size in pairs) / len(pairs), 0)
    a_byte = (largest - smallest) / (most - least)
    return Linear(smallest - a_byte * least, a_byte)


def lengths_in(sample: Sample) -> Lengths:
    """Returns the lengths of the arrays in a sample."""
    found: Lengths = defaultdict(Counter)
    for each, count in sample.neighbours.items():
        if each.kind > 0:
            found[each.class_id, each.kind][each.length] += count
    return found
