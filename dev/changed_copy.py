"""Writes a copy of a heap dump in which references at places of labels lead nowhere, and some objects are roots, too:
so a marker that knows nothing of labels can judge what they hold."""

from __future__ import annotations

import os
from collections.abc import Iterable, Iterator, Sequence
from typing import Dict, Tuple

from heap_tools import hprof_format as hprof
from heap_tools.heap_dump import HeapDump
from heap_tools.label_text import Place

#: The bytes that a copy has at places of the dump.
Changes = Dict[int, bytes]
#: Changes that are this near are written as one.
NEAR = 1 << 13


def number_code(dump: HeapDump) -> bytes:
    """Returns the type's code of a number as long as an identifier: a field of it leads nowhere."""
    return bytes([hprof.LONG if dump.id_size == 8 else hprof.INT])


def changes_of(dump: HeapDump, places: Iterable[Place]) -> Changes:
    """Returns the changes by which references at these places lead nowhere: fields of a class and of those that inherit
    from it, static fields, and roots."""
    roots = [
        at + 1 for at, tag in dump.sub_records(dump.segments) if tag != hprof.CLASS_DUMP and tag not in hprof.OBJECTS
    ]
    return dict(_change_of(dump, place.split(" "), roots) for place in places)


def _change_of(dump: HeapDump, words: Sequence[str], roots: Sequence[int]) -> Tuple[int, bytes]:
    """Returns where a copy has other bytes, and these: the type of a field becomes that of a number, a root null."""
    kind, *numbers = words[0], *map(int, words[1:])
    if kind == "root":
        return roots[numbers[0]], bytes(dump.id_size)
    class_id, number = numbers
    fields = []
    if kind == "object":
        fields = [each for each in dump.classes[class_id].fields if each.is_static and each.kind == hprof.OBJECT]
        number -= 4 + dump.classes[class_id].constants
    else:
        number -= 1
        while class_id in dump.classes:
            fields += [it for it in dump.classes[class_id].fields if not it.is_static and it.kind == hprof.OBJECT]
            class_id = dump.classes[class_id].superclass
    return fields[number].place, number_code(dump)


def write_copy(dump: HeapDump, to: int, changes: Changes, roots: Sequence[int] = ()) -> None:
    """Writes the dump into the open file `to`, but at each place of `changes` its bytes, and with `roots`, further
    objects that are roots."""
    added = b"".join(bytes([hprof.UNKNOWN]) + root.to_bytes(dump.id_size, "big") for root in roots)
    begin, copy = 0, _Copy(dump, to)
    if added:
        begin, end = dump.segments[0]
        copy.send(0, begin, {**changes, begin - 4: hprof.COUNT.pack(end - begin + len(added))})
        _write_all(to, memoryview(added))
    copy.send(begin, dump.size, changes)


class _Copy:
    """A copy of `dump` that is written into the open file `to`."""

    def __init__(self, dump: HeapDump, to: int) -> None:
        self.to, self.content = to, memoryview(dump.bytes)

    def send(self, begin: int, end: int, changes: Changes) -> None:
        """Writes the dump from `begin` to `end` with those of `changes` that are there."""
        for place, changed in self._stretches({at: new for at, new in changes.items() if begin <= at < end}):
            _write_all(self.to, self.content[begin:place])
            _write_all(self.to, memoryview(changed))
            begin = place + len(changed)
        _write_all(self.to, self.content[begin:end])

    def _stretches(self, changes: Changes) -> Iterator[Tuple[int, bytes]]:
        """Yields the places and the bytes of the parts of the dump that change. Changes that are near are one part."""
        begin, changed = 0, bytearray()
        for place, new in sorted(changes.items()):
            end = begin + len(changed)
            if changed and place - end > NEAR:
                yield begin, bytes(changed)
                changed = bytearray()
            if not changed:
                begin = end = place
            changed += self.content[end:place]
            changed += new
        if changed:
            yield begin, bytes(changed)


def _write_all(to: int, content: memoryview) -> None:
    """Writes all of `content` into the open file `to`."""
    while content:
        content = content[os.write(to, content) :]
