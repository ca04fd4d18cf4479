"""Where a virtual machine places the fields of an instance, of which its class has some and its superclasses others.

From JDK 15 on, the fields of a class fill what is empty between those of its superclasses: an instance is as long as
its fields. Up to JDK 14 they begin after those, where a reference could, and what is empty before them stays empty.
"""

from collections import Counter
from enum import Enum
from functools import lru_cache
from typing import Dict, Iterable, NamedTuple, Tuple

from heap_tools import hprof_format as hprof
from heap_tools.heap_dump import HeapDump

#: Values of this many bytes begin at a multiple of it, the largest that there are.
WORD = 8


class Placing(Enum):
    """How fields are placed: `FILLED` from JDK 15 on; before, each class by itself, its references after its other
    fields (-XX:FieldsAllocationStyle=1, which is the default) or before them (0). With gaps, nothing fills what is
    empty before the first value of 8 bytes of a class (-XX:-CompactFields)."""

    FILLED = "filled"
    REFERENCES_LAST = "references last"
    REFERENCES_FIRST = "references first"
    LAST_WITH_GAPS = "references last, with gaps"
    FIRST_WITH_GAPS = "references first, with gaps"

    @property
    def is_first(self) -> bool:
        """Tests whether the references of a class come before its other fields."""
        return self in (Placing.REFERENCES_FIRST, Placing.FIRST_WITH_GAPS)

    @property
    def has_gaps(self) -> bool:
        """Tests whether nothing fills the gap before a value of 8 bytes."""
        return self in (Placing.LAST_WITH_GAPS, Placing.FIRST_WITH_GAPS)


class OwnFields(NamedTuple):
    """The fields of an instance that one class declares: how many references, and how many values of 8, 4, 2 and 1
    bytes."""

    references: int = 0
    longs: int = 0
    ints: int = 0
    shorts: int = 0
    bytes: int = 0

    @classmethod
    def of(cls, kinds: Iterable[int]) -> "OwnFields":
        """Returns fields, given the codes of their types."""
        sizes = Counter(0 if kind == hprof.OBJECT else hprof.PRIMITIVE_SIZES[kind] for kind in kinds)
        return cls(sizes[0], sizes[8], sizes[4], sizes[2], sizes[1])

    @property
    def other(self) -> int:
        """The bytes of the fields that are no references."""
        return 8 * self.longs + 4 * self.ints + 2 * self.shorts + self.bytes

    def end(self, begin: int, reference: int, placing: Placing) -> int:
        """Returns where these fields end if they begin at `begin`, both multiples of `reference`, the bytes of a
        reference, and are placed by themselves."""
        last = 0 if placing.is_first else self.references
        begin += (self.references - last) * reference
        gap = -begin % WORD if self.longs else 0
        filled = 0 if placing.has_gaps else self._filled(gap)
        if last and gap - filled >= reference and not placing.has_gaps:
            last -= 1
        return aligned(begin + gap + self.other - filled, reference) + last * reference

    def _filled(self, gap: int) -> int:
        """Returns how many bytes of the gap before the first value of 8 bytes, which has 4 or none, other values fill:
        one of 4 bytes, or some of 2, and then some of 1."""
        if self.ints and gap:
            return gap
        shorts = 2 * min(self.shorts, gap // 2)
        return shorts + min(self.bytes, gap - shorts)


class Fields(NamedTuple):
    """The fields of an instance: those of each class that declares some, from the topmost superclass down."""

    declared: Tuple[OwnFields, ...] = ()

    @property
    def references(self) -> int:
        """How many references there are."""
        return sum(each.references for each in self.declared)

    @property
    def other(self) -> int:
        """The bytes of the other fields."""
        return sum(each.other for each in self.declared)

    def plus(self, own: OwnFields) -> "Fields":
        """Returns these fields and those of a subclass."""
        return Fields((*self.declared, own)) if any(own) else self


@lru_cache(maxsize=None)
def end_of(fields: Fields, header: int, reference: int, placing: Placing) -> int:
    """Returns where the fields of an instance end, after a header, if a reference has `reference` bytes."""
    if placing is Placing.FILLED:
        return header + fields.references * reference + fields.other
    end = header
    for own in fields.declared:
        end = own.end(end, reference, placing)
    return end


def aligned(size: int, alignment: int) -> int:
    """Returns the least multiple of `alignment` that is no less than `size`."""
    return -(-size // alignment) * alignment


def fields_by_class(dump: HeapDump) -> Dict[int, Fields]:
    """Returns the fields of the instances of each class, those of its superclasses included."""
    found: Dict[int, Fields] = {}
    for class_id in dump.classes:
        chain = [class_id]
        while chain[-1] in dump.classes and chain[-1] not in found:
            chain.append(dump.classes[chain[-1]].superclass)
        for each in reversed(chain[:-1]):
            own = OwnFields.of(field.kind for field in dump.classes[each].fields if not field.is_static)
            found[each] = found.get(dump.classes[each].superclass, Fields()).plus(own)
    return found
