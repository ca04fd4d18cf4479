"""Writes heap dumps for tests: `DumpWriter` small ones, `Format` the parts of large ones. `Expected` is a report."""

import builtins
import pathlib
import struct
import sys
from array import array
from collections import defaultdict
from typing import Dict, Iterable, Iterator, List, Optional, Sequence, Tuple, Union

#: The identifier of object 0, and the factor of the permutation of 2^21 numbers that scatters identifiers.
FIRST_ID, FACTOR = 1 << 20, 1_234_567
#: Tags and type codes of the format. They are not taken from `heap_tools.hprof`, which is tested with them.
STRING, LOAD_CLASS, FRAME, TRACE, HEAP_DUMP, SEGMENT, END = 0x01, 0x02, 0x04, 0x05, 0x0C, 0x1C, 0x2C
ROOT_UNKNOWN, ROOT_JAVA_FRAME, ROOT_STICKY_CLASS, ROOT_THREAD_OBJECT = 0xFF, 0x03, 0x05, 0x08
CLASS, INSTANCE, OBJECT_ARRAY, PRIMITIVE_ARRAY = 0x20, 0x21, 0x22, 0x23
OBJECT, BYTE, INT, LONG = 2, 8, 10, 11
VALUE_SIZE = {BYTE: 1, INT: 4, LONG: 8}
TYPE_NAME = {BYTE: "byte", INT: "int", LONG: "long"}


class Expected:
    """The rows and totals of the report of a dump."""

    def __init__(self) -> None:
        self.rows: Dict[str, List[int]] = defaultdict(lambda: [0, 0])
        self.unreachable = [0, 0]
        self.unresolved = 0

    def add(self, name: str, count: int, size: int, reachable: bool = True) -> None:
        """Adds `count` objects of `size` bytes each to the row `name`, or to what is unreachable."""
        row = self.rows[name] if reachable else self.unreachable
        row[0] += count
        row[1] += count * size

    def report(self) -> bytes:
        """Returns the report as heapmark prints it."""
        rows = sorted(self.rows.items(), key=lambda row: (-row[1][1], -row[1][0], row[0].encode()))
        reachable = [sum(row[at] for _, row in rows) for at in (0, 1)]
        rows += [("(reachable)", reachable), ("(unreachable)", self.unreachable)]
        rows += [("(unresolved)", [self.unresolved, 0])]
        return "".join(row(count, size, name) for name, (count, size) in rows).encode()


def row(count: int, size: int, name: str) -> str:
    """Returns a row of a report."""
    return f"{count:10}  {size:14}  {name}\n"


class Format:
    """The spelling of a dump with identifiers of `width` bytes. Object `n` has identifier `id(n)`."""

    def __init__(self, width: int, scattered: bool = False) -> None:
        self.width, self.scattered = width, scattered
        self.array_code = next(code for code in "ILQ" if array(code).itemsize == width)

    def id(self, number: int) -> int:
        """Returns the identifier of object `number`: rising, or in no order if `scattered`."""
        return FIRST_ID + 8 * (number * FACTOR % (1 << 21) if self.scattered else number)

    def missing(self, number: int) -> int:
        """Returns an identifier that no object has."""
        return FIRST_ID + 8 * number + 4

    def spell(self, identifiers: Iterable[int]) -> bytes:
        """Returns the bytes of a series of identifiers."""
        series: "array[int]" = array(self.array_code, identifiers)
        if sys.byteorder == "little":
            series.byteswap()
        return series.tobytes()

    def header(self, time: int = 0) -> bytes:
        """Returns the header of a file that was written at `time`."""
        return b"JAVA PROFILE 1.0.2\0" + struct.pack(">IQ", self.width, time)

    def record(self, tag: int, *parts: bytes) -> bytes:
        """Returns a record with a body of these parts."""
        return struct.pack(">BII", tag, 0, sum(map(len, parts))) + b"".join(parts)

    def loaded(self, serial: int, number: int, name: str) -> bytes:
        """Returns the records that give class `number` its name. `serial` also is the identifier of the string."""
        text = self.record(STRING, self.spell([serial]), name.encode())
        loaded = struct.pack(">I", serial) + self.spell([self.id(number)]) + bytes(4) + self.spell([serial])
        return text + self.record(LOAD_CLASS, loaded)

    def root(self, tag: int, identifier: int) -> bytes:
        """Returns a root, up to the identifier of its object."""
        return struct.pack(">B", tag) + self.spell([identifier])

    def class_dump(
        self, number: int, parent: int = 0, statics: Sequence[Tuple[int, bytes]] = (), fields: Sequence[int] = ()
    ) -> bytes:
        """Returns the dump of class `number`. `parent` is an identifier, a static field a type code and a value."""
        named = [(1, code, value) for code, value in statics]
        return self.named_class_dump(self.id(number), (parent, 0), named, [(1, code) for code in fields])

    def named_class_dump(
        self,
        identifier: int,
        parents: Tuple[int, int],
        statics: Sequence[Tuple[int, int, bytes]],
        fields: Sequence[Tuple[int, int]],
    ) -> bytes:
        """Returns the dump of a class. `parents` are the identifiers of its superclass and its loader. `statics` has of
        each static field the identifier of its name, a type code and a value, `fields` of each field the former two."""
        head = struct.pack(">B", CLASS) + self.spell([identifier]) + bytes(4) + self.spell([*parents, 0, 0, 0, 0])
        static = [self.spell([name]) + struct.pack(">B", code) + value for name, code, value in statics]
        own = [self.spell([name]) + struct.pack(">B", code) for name, code in fields]
        counted = [struct.pack(">H", len(entries)) + b"".join(entries) for entries in (static, own)]
        return head + bytes(4 + 2) + b"".join(counted)

    def instances(
        self, first: int, count: int, class_number: int, references: Sequence[Sequence[int]], size: int
    ) -> "Block":
        """Returns the dumps of `count` instances with `size` bytes of values. The values of an instance begin with one
        reference of each series in `references`."""
        head = struct.pack(">B", INSTANCE) + bytes(self.width + 4) + self.spell([self.id(class_number)])
        template = head + struct.pack(">I", size) + bytes(size)
        columns = [(1, self.spell(map(self.id, range(first, first + count))))]
        columns += [(len(template) - size + at * self.width, self.spell(it)) for at, it in enumerate(references)]
        return Block(columned(template, count, columns), len(template))

    def primitive_arrays(self, first: int, count: int, code: int, length: int, apart: int = 1) -> "Block":
        """Returns the dumps of `count` arrays of `length` elements of the type `code`, all 0. Their numbers are `apart`
        from one another."""
        template = self.primitive_head(0, code, length) + bytes(length * VALUE_SIZE[code])
        column = self.spell(map(self.id, range(first, first + count * apart, apart)))
        return Block(columned(template, count, [(1, column)]), len(template))

    def primitive_head(self, identifier: int, code: int, length: int) -> bytes:
        """Returns the dump of an array without its elements."""
        return struct.pack(">B", PRIMITIVE_ARRAY) + self.spell([identifier]) + struct.pack(">IIB", 0, length, code)

    def object_array_head(self, number: int, class_number: int, length: int) -> bytes:
        """Returns the dump of array `number` without its elements."""
        head = struct.pack(">B", OBJECT_ARRAY) + self.spell([self.id(number)]) + struct.pack(">II", 0, length)
        return head + self.spell([self.id(class_number)])


class Block:
    """Sub-records of one size, one after the other."""

    def __init__(self, dumps: bytes, size: int) -> None:
        self.dumps, self.size = dumps, size

    def cut(self, most: int) -> Iterator[bytes]:
        """Yields the block in parts of whole sub-records with at most `most` bytes, or with one sub-record."""
        step = max(1, most // self.size) * self.size
        for at in range(0, len(self.dumps), step):
            yield bytes(self.dumps[at : at + step])


def columned(template: bytes, count: int, columns: Iterable[Tuple[int, bytes]]) -> bytearray:
    """Returns `template` repeated `count` times, with the entries of each column at its offset."""
    block = bytearray(template) * count
    for offset, column in columns:
        width = len(column) // count
        for byte in range(width):
            block[offset + byte :: len(template)] = column[byte::width]
    return block


class DumpWriter:
    """A small dump that is being written. The caller chooses the identifiers: those of classes are below 100."""

    def __init__(self, id_size: int = 8, time: int = 0) -> None:
        self.form, self.time, self.records, self.heap = Format(id_size), time, b"", b""
        self._texts: Dict[Union[str, bytes], int] = {}
        self._segments: List[bytes] = []

    def write(self, path: Union[str, pathlib.Path]) -> None:
        """Writes the file `path`."""
        pathlib.Path(path).write_bytes(self.bytes())

    def bytes(self) -> builtins.bytes:
        """Returns the whole dump: one record of the heap, or the segments that were cut."""
        if not self._segments:
            return self.form.header(self.time) + self.records + self.form.record(HEAP_DUMP, self.heap)
        segments = [self.form.record(SEGMENT, heap) for heap in [*self._segments, self.heap]]
        return self.form.header(self.time) + self.records + b"".join(segments) + self.form.record(END)

    def cut(self) -> None:
        """Begins a new segment."""
        self._segments.append(self.heap)
        self.heap = b""

    def record(self, tag: int, *parts: builtins.bytes) -> None:
        """Writes a record."""
        self.records += self.form.record(tag, *parts)

    def text(self, name: Union[str, builtins.bytes]) -> int:
        """Returns the identifier of a string, which is written when it is first asked for."""
        if name not in self._texts:
            self._texts[name] = 1000 + len(self._texts)
            spelt = name if isinstance(name, bytes) else name.encode()
            self.record(STRING, self.form.spell([self._texts[name]]), spelt)
        return self._texts[name]

    def loaded(self, number: int, name: Union[str, builtins.bytes]) -> None:
        """Writes that a class was loaded. Its serial number is its identifier."""
        self.record(LOAD_CLASS, word(number), self.form.spell([number]), word(0), self.form.spell([self.text(name)]))

    def of_class(
        self,
        number: int,
        name: Union[str, builtins.bytes, None],
        statics: Optional[Dict[str, int]] = None,
        fields: Sequence[str] = (),
        superclass: int = 0,
        loader: int = 0,
    ) -> None:
        """Writes a class. Its fields are of type object, except `coder`, `size`, `pid`, `startTime`, those whose names
        begin with `int`, and those that are followed by their type, as in `count int`."""
        if name is not None:
            self.loaded(number, name)
        static = [(self.text(one), OBJECT, self.form.spell([value])) for one, value in (statics or {}).items()]
        own = [(self.text(one.partition(" ")[0]), kind_of(one)) for one in fields]
        self.heap += self.form.named_class_dump(number, (superclass, loader), static, own)

    def instance(self, number: int, of_class: int, *values: Union[int, builtins.bytes]) -> None:
        """Writes an instance. Its values are references, or the bytes of numbers."""
        spelt = b"".join(value if isinstance(value, bytes) else self.form.spell([value]) for value in values)
        self.heap += struct.pack(">B", INSTANCE) + self.form.spell([number]) + word(0) + self.form.spell([of_class])
        self.heap += word(len(spelt)) + spelt

    def array(self, number: int, of_class: int, *elements: int) -> None:
        """Writes an array of references."""
        head = struct.pack(">B", OBJECT_ARRAY) + self.form.spell([number]) + word(0) + word(len(elements))
        self.heap += head + self.form.spell([of_class, *elements])

    def values(self, number: int, code: int, content: builtins.bytes) -> None:
        """Writes an array of numbers with these bytes."""
        self.heap += self.form.primitive_head(number, code, len(content) // VALUE_SIZE[code]) + content

    def root(self, *numbers: int) -> None:
        """Writes roots of unknown kind."""
        self.heap += b"".join(self.form.root(ROOT_UNKNOWN, number) for number in numbers)

    def thread(self, serial: int, number: int, methods: Sequence[Tuple[int, str]] = ()) -> None:
        """Writes a thread with the identifier `number`, whose stack has these methods, each a class and a name."""
        frames: List[int] = []
        for of_class, method in methods:
            frames.append(5000 + 100 * serial + len(frames))
            names = self.form.spell([frames[-1], self.text(method), self.text("()V"), self.text("Source.java")])
            self.record(FRAME, names, word(of_class), word(1))
        self.record(TRACE, word(100 + serial), word(serial), word(len(frames)), self.form.spell(frames))
        self.heap += self.form.root(ROOT_THREAD_OBJECT, number) + word(serial) + word(100 + serial)

    def local(self, serial: int, frame: int, *numbers: int) -> None:
        """Writes that these objects are local variables of a thread's frame."""
        for number in numbers:
            self.heap += self.form.root(ROOT_JAVA_FRAME, number) + word(serial) + word(frame)


def word(number: int) -> bytes:
    """Returns `number` in four bytes."""
    return struct.pack(">I", number)


def kind_of(field: str) -> int:
    """Returns the type's code of a field by its name, or by the beginning of that."""
    types = {name: code for code, name in TYPE_NAME.items()}
    if " " in field:
        return types[field.partition(" ")[2]]
    known = {"coder": BYTE, "size": INT, "pid": LONG, "startTime": LONG}
    return INT if field.startswith("int") else known.get(field, OBJECT)
