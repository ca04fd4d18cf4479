"""How many objects of each class a dump has, reachable or not, and what they take in the heap."""

from bisect import bisect_right
from collections import Counter
from typing import Counter as Counts
from typing import Dict, List, NamedTuple, Optional, Tuple

from heap_tools import hprof_format as hprof
from heap_tools.class_names import CLASSES, PRIMITIVES
from heap_tools.heap_dump import HeapDump, Span
from heap_tools.heap_layout import STACK
from heap_tools.heap_sample import FEWEST_SPANS, LONGEST
from heap_tools.object_records import heap_objects, short_spans
from heap_tools.object_sizes import ObjectSizes, written_statics
from heap_tools.parallel import shared
from heap_tools.reports import Amount

#: The identifier of a class (0 of an array of primitive values), the code of the elements' type, and the length.
Shape = Tuple[int, int, int]


class Total(NamedTuple):
    """The objects of a row, with their bytes in the dump, and with those in the heap."""

    written: Amount = Amount()
    taken: Amount = Amount()

    def plus(self, objects: int, written: int, taken: int) -> "Total":
        """Returns this total and more objects."""
        return Total(self.written.plus(Amount(objects, written)), self.taken.plus(Amount(objects, taken)))


def totals_of(dump: HeapDump, sizes: Optional[ObjectSizes]) -> Dict[str, Total]:
    """Returns the total of each row that a report would have if all objects were reachable. If the sizes are not known,
    objects take what they do in the dump. Walks over all objects."""
    found: Dict[str, Total] = {}
    for (class_id, kind, length), count in shapes_of(dump).items():
        name = dump.names.get(class_id, "") if class_id else f"{PRIMITIVES[hprof.LETTERS[kind]]}[]"
        taken = written = length * dump.value_sizes[kind] if kind else length
        if sizes:
            taken = sizes.layout.array(kind, length) if kind else sizes.instance(class_id)
        found[name] = found.get(name, Total()).plus(count, count * written, count * taken)
    if sizes and STACK in found:
        taken = sum(_stack_sizes(dump, sizes))
        found[STACK] = found[STACK]._replace(taken=Amount(found[STACK].written.objects, taken))
    for class_id in dump.classes:
        taken = written = written_statics(dump, class_id)
        if sizes:
            taken = sizes.of_class_object(class_id)
        found[CLASSES] = found.get(CLASSES, Total()).plus(1, written, taken)
    return found


def shapes_of(dump: HeapDump) -> Counts[Shape]:
    """Returns how many objects the dump has of each class and length."""

    def count_in(spans: List[Span]) -> Counts[Shape]:
        return Counter(each[1:] for each in heap_objects(dump, spans))

    found: Counts[Shape] = Counter()
    for part in shared(count_in, short_spans(dump), FEWEST_SPANS):
        found.update(part)
    return found


def _stack_sizes(dump: HeapDump, sizes: ObjectSizes) -> List[int]:
    """Returns what each object with the stack of a virtual thread takes: as far as it is to the next object."""
    spans = short_spans(dump)

    def stacks_in(some: List[Span]) -> List[int]:
        return [each[0] for each in heap_objects(dump, some) if each[1] in sizes.stacks and each[2] == 0]

    stacks = sorted(each for part in shared(stacks_in, spans, FEWEST_SPANS) for each in part)
    pages = {each // LONGEST + more for each in stacks for more in (0, 1)}

    def nearest_in(some: List[Span]) -> Dict[int, int]:
        nearest: Dict[int, int] = {}
        for identifier, _, _, _ in heap_objects(dump, some):
            if identifier // LONGEST in pages:
                _note_nearest(nearest, stacks, identifier)
        return nearest

    nearest: Dict[int, int] = {}
    for class_id in dump.classes:
        _note_nearest(nearest, stacks, class_id)
    for part in shared(nearest_in, spans, FEWEST_SPANS):
        for stack, identifier in part.items():
            nearest[stack] = min(identifier, nearest.get(stack, identifier))
    return [nearest[each] - each if nearest.get(each, each + LONGEST) < each + LONGEST else 0 for each in stacks]


def _note_nearest(nearest: Dict[int, int], stacks: List[int], identifier: int) -> None:
    """Keeps an identifier if it is the nearest yet that comes after one of the sorted `stacks`."""
    place = bisect_right(stacks, identifier - 1)
    if place:
        stack = stacks[place - 1]
        nearest[stack] = min(identifier, nearest.get(stack, identifier))
