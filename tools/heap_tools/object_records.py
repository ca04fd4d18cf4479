"""The objects of a heap dump as their records have them."""

import re
import struct
from array import array as packed
from collections import defaultdict
from typing import Callable, DefaultDict, Dict, Iterable, Iterator, List, Optional, Sequence, Tuple

from heap_tools import hprof_format as hprof
from heap_tools.heap_dump import HeapDump, Span, UnknownTag

#: An object: its identifier, that of its class (0 for an array of primitive values), the code of its elements' type (0
#: for an instance), and how many elements it has, or how many bytes of fields. A plain tuple, since there are millions.
HeapObject = Tuple[int, int, int, int]
#: The identifiers of the objects in a part of the file, and where they are, in its order.
PlacedPart = Tuple["packed[int]", "packed[int]"]
#: Up to JDK 8 a heap below 2 GB is one record. To be read in parts, records longer than this are cut.
LONG_RECORD = 4 << 20
#: How long the parts are into which a long record is cut, and how many objects are read to see that a cut is right.
PART, PROOF = 1 << 20, 100
#: The class whose instances show where a record can be cut: any dump has many of them.
FREQUENT = "java/lang/String"


def heap_objects(dump: HeapDump, spans: Iterable[Span]) -> Iterator[HeapObject]:
    """Yields the objects in some parts of the file, in its order. Class dumps and roots are none."""
    data, size, sizes = dump.bytes, dump.id_size, dump.value_sizes
    instance, array, primitive = _heads(size)
    head = 9 + 2 * size
    for at, end in spans:
        while at < end:
            tag = data[at]
            if tag == hprof.INSTANCE:
                identifier, class_id, length = instance(data, at + 1)
                at += head + length
                yield identifier, class_id, 0, length
            elif tag == hprof.PRIMITIVE_ARRAY:
                identifier, length, kind = primitive(data, at + 1)
                at += 10 + size + length * sizes[kind]
                yield identifier, 0, kind, length
            elif tag == hprof.OBJECT_ARRAY:
                identifier, length, class_id = array(data, at + 1)
                at += head + length * size
                yield identifier, class_id, hprof.OBJECT, length
            else:
                at = _end_of_other(dump, tag, at)


def placed_part(dump: HeapDump, span: Span) -> PlacedPart:
    """Returns the identifiers of the objects in a part of the file, and where they are. This is `heap_objects` once
    more, since a walk that yields every object takes twice the time."""
    data, size, sizes, (at, end) = dump.bytes, dump.id_size, dump.value_sizes, span
    instance, array, primitive = _heads(size, has_class=False)
    head, identifiers, places = 9 + 2 * size, packed("Q"), packed("Q")
    while at < end:
        tag, begin = data[at], at
        if tag == hprof.INSTANCE:
            identifier, length = instance(data, at + 1)
            at += head + length
        elif tag == hprof.PRIMITIVE_ARRAY:
            identifier, length, kind = primitive(data, at + 1)
            at += 10 + size + length * sizes[kind]
        elif tag == hprof.OBJECT_ARRAY:
            identifier, length = array(data, at + 1)
            at += head + length * size
        else:
            at = _end_of_other(dump, tag, at)
            continue
        identifiers.append(identifier)
        places.append(begin)
    return identifiers, places


def placed_objects(dump: HeapDump, spans: Iterable[Span]) -> Dict[int, "packed[int]"]:
    """Returns where in some parts of the file objects are, in its order: instances by their class; by 0, arrays of
    references, but empty ones, and class dumps. This is the third walk, since a function called for each object would
    take twice the time."""
    data, size, sizes = dump.bytes, dump.id_size, dump.value_sizes
    instance, array, primitive = _heads(size, has_identifier=False)
    head, number = 9 + 2 * size, "I" if dump.size < 1 << 32 else "Q"
    found: DefaultDict[int, "packed[int]"] = defaultdict(lambda: packed(number))
    others = found[0]
    for at, end in spans:
        while at < end:
            tag = data[at]
            if tag == hprof.INSTANCE:
                class_id, length = instance(data, at + 1)
                found[class_id].append(at)
                at += head + length
            elif tag == hprof.PRIMITIVE_ARRAY:
                length, kind = primitive(data, at + 1)
                at += 10 + size + length * sizes[kind]
            elif tag == hprof.OBJECT_ARRAY:
                length, _ = array(data, at + 1)
                if length:
                    others.append(at)
                at += head + length * size
            else:
                if tag == hprof.CLASS_DUMP:
                    others.append(at)
                at = _end_of_other(dump, tag, at)
    return dict(found)


def _heads(size: int, has_identifier: bool = True, has_class: bool = True) -> List[Callable[..., Tuple[int, ...]]]:
    """Returns what unpacks the heads of records from the identifier on: of an instance that and the class and the bytes
    of fields, of an array of references the length and the class, of another array the length and the type. What a walk
    does not need is left out, since each number takes a tenth of its time."""
    number = "Q" if size == 8 else "I"
    identifier, of_class = (number if it else f"{size}x" for it in (has_identifier, has_class))
    every = f">{identifier}4x{of_class}I", f">{identifier}4xI{of_class}", f">{identifier}4xIB"
    return [struct.Struct(each).unpack_from for each in every]


def _end_of_other(dump: HeapDump, tag: int, at: int) -> int:
    """Returns where the class dump or the root at `at` ends. Raises `UnknownTag` if it is neither."""
    if tag == hprof.CLASS_DUMP:
        return _end_of_class(dump, at)
    if tag == hprof.JNI_GLOBAL:
        return at + 1 + 2 * dump.id_size
    if tag not in hprof.ROOT_SIZES:
        raise UnknownTag(dump.path, tag, at)
    return at + 1 + dump.id_size + hprof.ROOT_SIZES[tag]


def _end_of_class(dump: HeapDump, at: int) -> int:
    """Returns where the class dump at `at` ends."""
    size, at = dump.id_size, at + 9 + 7 * dump.id_size
    for before, has_value in ((2, True), (size, True), (size, False)):  # constants, static fields, fields
        count, at = dump.number(at, 2), at + 2
        for _ in range(count):
            at += before + 1 + (dump.value_sizes[dump.bytes[at + before]] if has_value else 0)
    return at


def short_spans(dump: HeapDump) -> List[Span]:
    """Returns the records of the heap, long ones in parts that begin with an object."""
    frequent = next((class_id for class_id, name in dump.names.items() if name == FREQUENT), None)
    pattern = b"" if frequent is None else _head_of(dump, frequent)
    spans: List[Span] = []
    for begin, end in dump.segments:
        cut = _cut_after(dump, pattern, begin + PART, end) if pattern and end - begin > LONG_RECORD else None
        while cut:
            spans.append((begin, cut))
            begin, cut = cut, _cut_after(dump, pattern, cut + PART, end)
        spans.append((begin, end))
    return spans


def some_instances(dump: HeapDump, classes: Sequence[int], searched: int) -> List[int]:
    """Returns the identifiers of the first instances of each of some classes among the first and among the last
    `searched` bytes of the heap, if there are any. They may be those of no object: other bytes may look like one."""
    heads, found = [_head_of(dump, each) for each in classes], []
    begin, end = (dump.segments[0][0], dump.segments[-1][1]) if dump.segments and heads else (0, 0)
    of_any = b"|".join(map(re.escape, heads))
    instance = re.compile(b"%c.{%d}(%b)" % (hprof.INSTANCE, 4 + dump.id_size, of_any), re.DOTALL)
    for span in sorted({(first, min(end, first + searched)) for first in (begin, max(begin, end - searched))}):
        first_of: Dict[bytes, int] = {}
        for each in instance.finditer(dump.bytes, *span):
            first_of.setdefault(each[1], dump.id(each.start() + 1))
        found += [first_of[head] for head in heads if head in first_of]
    return found


def _head_of(dump: HeapDump, class_id: int) -> bytes:
    """Returns how the records of all instances of a class go on after the trace: its identifier, and the number of
    bytes of its fields."""
    fields = (each for owner in dump.lineage(class_id) for each in dump.classes[owner].fields)
    length = sum(dump.value_sizes[each.kind] for each in fields if not each.is_static)
    return class_id.to_bytes(dump.id_size, "big") + hprof.COUNT.pack(length)


def _cut_after(dump: HeapDump, pattern: bytes, at: int, end: int) -> Optional[int]:
    """Returns where the first instance begins whose head goes on with `pattern`, from the offset `at` on, or None if
    none does before `end`. The objects after it show that it is one: other bytes may be `pattern`, too."""
    while True:
        found = dump.bytes.find(pattern, at, end)
        if found < 0:
            return None
        begin, at = found - 5 - dump.id_size, found + 1
        if dump.bytes[begin] == hprof.INSTANCE and _are_objects(dump, begin, end):
            return begin


def _are_objects(dump: HeapDump, begin: int, end: int) -> bool:
    """Tests whether the bytes from `begin` on are objects, as far as one can see."""
    try:
        for number, (_, class_id, kind, _) in enumerate(heap_objects(dump, [(begin, end)])):
            if kind in (0, hprof.OBJECT) and class_id not in dump.classes:
                return False
            if number == PROOF:
                break
    except (UnknownTag, KeyError, IndexError, struct.error):
        return False
    return True
