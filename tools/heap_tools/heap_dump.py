"""Reads the records of a heap dump: strings, classes with their fields, threads, frames and the roots of threads.

heapmark has accepted the dump, so its form is not tested here. Records that heapmark does not read, those of frames and
traces, are.
"""

import struct
from bisect import bisect_left
from collections import deque
from typing import Deque, Dict, Iterable, Iterator, List, NamedTuple, Optional, Set, Tuple

from heap_tools import hprof_format as hprof
from heap_tools.class_names import of_dump, shown
from heap_tools.faults import UNREADABLE, Fault

#: The static fields that hold the loaders of the JDK and of the class path.
LASTING_LOADERS = frozenset(
    f"{owner}.{field}"
    for owner, fields in (
        ("java/lang/ClassLoader", ["scl"]),
        ("jdk/internal/loader/ClassLoaders", ["BOOT_LOADER", "PLATFORM_LOADER", "APP_LOADER"]),
    )
    for field in fields
)

#: Where a part of the file begins and ends.
Span = Tuple[int, int]


class UnknownTag(Fault):
    """A sub-record of the dump `path` has a tag that this version of the tools does not know."""

    def __init__(self, path: str, tag: int, at: int) -> None:
        what = f"the sub-record at {at} has the tag 0x{tag:02x}, which these tools do not know"
        super().__init__(UNREADABLE, f"{path}: {what}")


class Field(NamedTuple):
    """A field of a class dump: its name, its type's code, whether it is static, and where in the file its type's code
    is."""

    name: str
    kind: int
    is_static: bool
    place: int


class Class(NamedTuple):
    """A class dump: its superclass, its loader, 0 if that is the virtual machine's own, its fields, and how many of its
    constants are identifiers."""

    superclass: int
    loader: int
    fields: List[Field]
    constants: int = 0


class Root(NamedTuple):
    """A root of a thread: its kind, where in the file its identifier is, the thread's serial number, and the number of
    the frame, or None if it is in none."""

    kind: int
    place: int
    thread: int
    frame: Optional[int]


class Frame(NamedTuple):
    """A method in a stack trace: its class and its name."""

    class_name: str
    method: str


class HeapDump:
    """The records of a dump, the whole content of a file. `nameless`: it has classes that no LOAD CLASS names, so that
    all segments are read. `path`: what messages call the dump. `field_names` are the names of fields by the identifiers
    of their strings. Raises `UnknownTag` for a sub-record that is not known."""

    def __init__(self, content: bytes, nameless: bool = False, path: str = "") -> None:
        self.path, self.bytes, self.size = path, content, len(content)
        self._digest: Optional[int] = None
        self.id_size = self.number(hprof.ID_SIZE_AT, 4)
        self.time = self.number(hprof.TIME_AT, 8)
        self.unpack_id = struct.Struct(">Q" if self.id_size == 8 else ">I").unpack_from
        self.value_sizes: Dict[int, int] = {hprof.OBJECT: self.id_size, **hprof.PRIMITIVE_SIZES}
        self._texts: Dict[int, Span] = {}
        self._loaded: Dict[int, int] = {}
        self._serials: Dict[int, int] = {}
        self._frames: Dict[int, Tuple[int, int]] = {}
        self._traces: Dict[int, Tuple[int, int]] = {}
        self._methods: Dict[Tuple[int, int], Frame] = {}
        self.segments: List[Span] = []
        self.classes: Dict[int, Class] = {}
        self.roots: List[Root] = []
        #: Where the identifiers of all roots are that were read, in the order of the file. No others are before or
        #: between them.
        self.root_places: List[int] = []
        self.field_names: Dict[int, str] = {}
        self._read_records()
        self._read_heap(nameless)
        self.names = {class_id: self._class_name(class_id) for class_id in self.classes}

    def forget(self) -> None:
        """Gives the memory of the content back. Classes, threads and their stacks are still known."""
        self._digest = self._digest_of_content()
        self.bytes = b""

    def is_same(self, other: "HeapDump") -> bool:
        """Tests whether two dumps have the same content, also if it was forgotten."""
        if (self.size, self.time) != (other.size, other.time):
            return False
        return self._digest_of_content() == other._digest_of_content()

    def _digest_of_content(self) -> int:
        """Returns the hash of the content, 64 bits with a key of this process. The module hashlib would load a library,
        and prints a traceback if memory is too short for that."""
        return hash(self.bytes) if self._digest is None else self._digest

    def number(self, at: int, size: int, signed: bool = False) -> int:
        """Reads the number in the `size` bytes at the offset `at`."""
        return int.from_bytes(self.bytes[at : at + size], "big", signed=signed)

    def id(self, at: int) -> int:
        """Reads the identifier at the offset `at`."""
        identifier: int = self.unpack_id(self.bytes, at)[0]
        return identifier

    def text(self, text_id: int) -> str:
        """Returns a string of the dump as a report spells it."""
        return shown(self.bytes[slice(*self._texts.get(text_id, (0, 0)))])

    def _class_name(self, class_id: int) -> str:
        text_id = self._loaded.get(class_id)
        return of_dump(self.bytes[slice(*self._texts[text_id])]) if text_id in self._texts else f"?0x{class_id:x}"

    # Records

    def records(self) -> Iterator[Tuple[int, int, int]]:
        """Yields the tag of each record, where its body begins and where it ends. Raises `ValueError` if the last one
        does not end where the content does: then this is not what heapmark accepted."""
        at, data, count = hprof.HEADER_SIZE, self.bytes, hprof.COUNT.unpack_from
        while at + hprof.RECORD_HEAD_SIZE <= self.size:
            tag, body = data[at], at + hprof.RECORD_HEAD_SIZE
            at = body + count(data, body - 4)[0]
            if at > self.size:
                break
            yield tag, body, at
        if at != self.size:
            raise ValueError(f"a record ends at {at}, and the content at {self.size}")

    def _read_records(self) -> None:
        """Keeps where strings and heap records are, how classes are called, and frames and traces."""
        size, texts, data, id_at = self.id_size, self._texts, self.bytes, self.unpack_id
        for tag, body, at in self.records():
            if tag == hprof.STRING:
                texts.setdefault(id_at(data, body)[0], (body + size, at))
            elif tag == hprof.LOAD_CLASS:
                class_id = self.id(body + 4)
                self._loaded.setdefault(class_id, self.id(body + 8 + size))
                self._serials[self.number(body, 4)] = class_id
            elif tag == hprof.FRAME and at - body >= 4 * size + 8:
                self._frames[self.id(body)] = self.id(body + size), self.number(body + 4 * size, 4)
            elif tag == hprof.TRACE and at - body >= 12:
                count = min(self.number(body + 8, 4), (at - body - 12) // size)
                self._traces[self.number(body + 4, 4)] = body + 12, count
            elif tag in (hprof.HEAP_DUMP, hprof.SEGMENT):
                self.segments.append((body, at))

    def frame(self, thread: int, number: Optional[int]) -> Optional[Frame]:
        """Returns a frame of a thread, the innermost at 0, or None if the dump does not have it."""
        begin, count = self._traces.get(thread, (0, 0))
        if number is None or number >= count:
            return None
        text_id, serial = method = self._frames.get(self.id(begin + number * self.id_size), (0, 0))
        if text_id not in self._texts or serial not in self._serials:
            return None
        if method not in self._methods:
            self._methods[method] = Frame(self._class_name(self._serials[serial]), self.text(text_id))
        return self._methods[method]

    def stack(self, thread: int) -> List[Frame]:
        """Returns the frames of a thread that the dump has, the innermost first."""
        _, count = self._traces.get(thread, (0, 0))
        frames = (self.frame(thread, number) for number in range(count))
        return [each for each in frames if each]

    # Classes and roots

    def _read_heap(self, nameless: bool) -> None:
        """Reads class dumps and the roots of threads. Virtual machines write the dumps of all loaded classes first, and
        the roots of all threads that have a trace right after them or last. So this reads the first segments up to an
        object, then the last ones down to an object, and the others only if it has not met all classes and threads, or
        cannot know that."""
        classes, threads = set(self._loaded), set(self._traces) - {0}
        rest: Deque[Span] = deque(self.segments)
        knows_all = bool(not nameless and threads)
        ends_with_object = begins_with_object = False
        while rest and not (knows_all and not classes and ends_with_object):
            _, ends_with_object = self._read_segment(rest.popleft(), classes, threads)
        while rest and (threads or not begins_with_object or self._has_roots(rest)):
            begins_with_object, _ = self._read_segment(rest.pop(), classes, threads)
        self.root_places.sort()

    def _has_roots(self, segments: Iterable[Span]) -> bool:
        """Tests whether segments that were not read may have roots, by what they begin with: virtual machines write
        those of threads, of native code and of system classes in one go."""
        return any(self.bytes[begin] not in hprof.OBJECTS for begin, end in segments if begin < end)

    def root_number(self, place: int) -> int:
        """Returns the number of the root whose identifier is at `place`, among all roots of the dump."""
        return bisect_left(self.root_places, place)

    def _read_segment(self, segment: Span, classes: Set[int], threads: Set[int]) -> Tuple[bool, bool]:
        """Reads the class dumps and roots in a segment, and takes them from the `classes` and `threads` to be met.
        Returns whether it begins with an object, and whether it ends with one."""
        first = last = 0
        for at, tag in self.sub_records([segment]):
            if tag == hprof.CLASS_DUMP:
                classes.discard(self.id(at + 1))
            elif tag not in hprof.OBJECTS:
                self._note_root(at, tag, threads)
            first, last = first or tag, tag
        return first in hprof.OBJECTS, last in hprof.OBJECTS

    def sub_records(self, segments: Iterable[Span]) -> Iterator[Tuple[int, int]]:
        """Yields the place and the tag of each sub-record of `segments`. Reads class dumps on the way."""
        data, size, sizes, count = self.bytes, self.id_size, self.value_sizes, hprof.COUNT.unpack_from
        instance, array, primitive, class_dump = (
            hprof.INSTANCE,
            hprof.OBJECT_ARRAY,
            hprof.PRIMITIVE_ARRAY,
            hprof.CLASS_DUMP,
        )
        root_sizes = {**hprof.ROOT_SIZES, hprof.JNI_GLOBAL: size}
        head = 9 + 2 * size
        for at, end in segments:
            while at < end:
                begin, tag = at, data[at]
                if tag == instance:
                    at += head + count(data, at + head - 4)[0]
                elif tag == primitive:
                    at += 10 + size + count(data, at + 5 + size)[0] * sizes[data[at + 9 + size]]
                elif tag == array:
                    at += head + count(data, at + 5 + size)[0] * size
                elif tag == class_dump:
                    at = self._read_class(at)
                elif tag in root_sizes:
                    at += 1 + size + root_sizes[tag]
                else:
                    raise UnknownTag(self.path, tag, at)
                yield begin, tag

    def _note_root(self, at: int, tag: int, threads: Set[int]) -> None:
        """Notes a root, and takes its thread from the `threads` to be met."""
        self.root_places.append(at + 1)
        if tag in hprof.THREAD_ROOTS:
            after = at + 1 + self.id_size
            frame = self.number(after + 4, 4) if tag in hprof.FRAME_ROOTS else None
            self.roots.append(Root(tag, at + 1, self.number(after, 4), frame))
            if tag == hprof.THREAD_OBJECT:
                threads.discard(self.roots[-1].thread)

    def _read_class(self, begin: int) -> int:
        """Reads the class dump at `begin` and returns where it ends."""
        data, size, sizes = self.bytes, self.id_size, self.value_sizes
        fields, constants, at = [], 0, begin + 9 + 7 * size
        for part in ("constants", "statics", "instances"):
            count, at = self.number(at, 2), at + 2
            for _ in range(count):
                place = at + (2 if part == "constants" else size)
                kind, name = data[place], at
                at = place + 1 + (0 if part == "instances" else sizes[kind])
                if part == "constants":
                    constants += kind == hprof.OBJECT
                else:
                    fields.append(Field(self._field_name(self.id(name)), kind, part == "statics", place))
        self.classes[self.id(begin + 1)] = Class(
            self.id(begin + 5 + size), self.id(begin + 5 + 2 * size), fields, constants
        )
        return at

    def lineage(self, class_id: int) -> Iterator[int]:
        """Yields a class and those that it inherits from, as far as the dump has them."""
        while class_id in self.classes:
            yield class_id
            class_id = self.classes[class_id].superclass

    def _field_name(self, text_id: int) -> str:
        if text_id not in self.field_names:
            self.field_names[text_id] = self.text(text_id)
        return self.field_names[text_id]

    def lasting_classes(self) -> List[int]:
        """Returns the identifiers of the classes that are never unloaded: those of loaders that the JDK itself keeps in
        static fields."""
        loaders = {0}
        for class_id, name in self.names.items():
            for field in self.classes[class_id].fields:
                is_reference = field.is_static and field.kind == hprof.OBJECT
                if is_reference and f"{name}.{field.name}" in LASTING_LOADERS:
                    loaders.add(self.id(field.place + 1))
        return [class_id for class_id, each in self.classes.items() if each.loader in loaders]
